# disk: reads block 0, prints it, changes it and writes it back, reads it again into another page and prints that.
        lui    $16, 0xCFFF              # register 16: the device page
        ori    $16, $16, 0xF000
        lui    $17, 0xC000
        sw     $0, 0x20($16)            # block 0
        addiu  $8, $0, 2
        sw     $8, 0x24($16)            # page 2
        addiu  $9, $0, 1
        sw     $9, 0x28($16)            # command 1: the block is read into the page
        jal    print
        ori    $4, $17, 0x2000          # in the delay slot: the text in page 2
        ori    $10, $17, 0x2000
change:
        lbu    $11, 0($10)
        beq    $11, $0, changed
        xori   $11, $11, 0x20           # in the delay slot: a capital letter
        sb     $11, 0($10)
        beq    $0, $0, change
        addiu  $10, $10, 1
changed:
        addiu  $9, $0, 2
        sw     $9, 0x28($16)            # command 2: the page is written to block 0
        addiu  $8, $0, 3
        sw     $8, 0x24($16)            # page 3
        addiu  $9, $0, 1
        sw     $9, 0x28($16)            # block 0 is read again
        addiu  $12, $0, 0x20
        sw     $12, 0($16)              # a space
        jal    print
        ori    $4, $17, 0x3000          # the text in page 3
        sw     $9, 0x20($16)            # block 1, which isn't there
        sw     $9, 0x28($16)
        sw     $12, 0($16)              # a space
        lw     $8, 0x2C($16)            # the status of the last command
        addiu  $8, $8, 0x30
        sw     $8, 0($16)               # as a digit
        sw     $0, 4($16)               # halts
# prints the text at register 4
print:
        lbu    $5, 0($4)
        beq    $5, $0, done
        addiu  $4, $4, 1
        beq    $0, $0, print
        sw     $5, 0($16)
done:
        jr     $31
        sll    $0, $0, 0
