# guest 0: reads block 0 into page 1, and prints its text.
        lui    $16, 0xCFFF              # register 16: the device page
        ori    $16, $16, 0xF000
        lui    $10, 0xC000              # register 10: page 1
        ori    $10, $10, 0x1000
        sw     $0, 0x20($16)            # block 0
        addiu  $8, $0, 1
        sw     $8, 0x24($16)            # page 1
        sw     $8, 0x28($16)            # command 1: the block is read into the page
next:
        lbu    $9, 0($10)
        beq    $9, $0, done
        addiu  $10, $10, 1
        beq    $0, $0, next
        sw     $9, 0($16)               # prints a letter
done:
        sw     $0, 4($16)               # halts
