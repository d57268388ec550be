# guest 1: reads block 0 into page 1, turns its letters into capital ones there, and prints them.
        lui    $16, 0xCFFF              # register 16: the device page
        ori    $16, $16, 0xF000
        lui    $10, 0xC000              # register 10: page 1
        ori    $10, $10, 0x1000
        sw     $0, 0x20($16)            # block 0
        addiu  $8, $0, 1
        sw     $8, 0x24($16)            # page 1
        sw     $8, 0x28($16)            # command 1: the block is read into the page
next:
        lbu    $9, 0($10)
        beq    $9, $0, done
        xori   $9, $9, 0x20             # a capital letter
        sb     $9, 0($10)               # the first one breaks the page: from then on it is the guest's own
        lbu    $9, 0($10)
        sw     $9, 0($16)               # prints a letter
        beq    $0, $0, next
        addiu  $10, $10, 1
done:
        sw     $0, 4($16)               # halts
