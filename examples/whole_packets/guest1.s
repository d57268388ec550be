# guest 1: waits for a page, and prints its first word.
        lui    $16, 0xCFFF              # register 16: the device page
        ori    $16, $16, 0xF000
        addiu  $8, $0, 1
        sw     $8, 0x3C($16)            # page 1 is armed for a packet
wait:
        lw     $9, 0x40($16)            # the length of the last packet
        beq    $9, $0, wait
        sll    $0, $0, 0
        lui    $10, 0xC000              # register 10: page 1
        ori    $10, $10, 0x1000
        addiu  $8, $10, 4               # behind the word
next:
        lbu    $9, 0($10)
        addiu  $10, $10, 1
        bne    $10, $8, next
        sw     $9, 0($16)               # prints a letter
        sw     $0, 4($16)               # halts
