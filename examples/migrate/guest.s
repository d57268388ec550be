# migrate: counts from 1 to 9 in a word of a page of its own, prints each number, and halts.
        lui    $16, 0xCFFF              # register 16: the device page, at CFFFF000
        ori    $16, $16, 0xF000
        lui    $8, 0xC000               # register 8: page 1, which the plan moves from node to node
        ori    $8, $8, 0x1000
        addiu  $9, $0, 9                # register 9: the last number
count:
        lw     $10, 0($8)               # one more
        addiu  $10, $10, 1
        sw     $10, 0($8)
        addiu  $11, $10, 48             # its digit
        sw     $11, 0($16)              # is printed
        bne    $10, $9, count
        sll    $0, $0, 0
        addiu  $12, $0, 10              # a line feed
        sw     $12, 0($16)
        sw     $0, 4($16)               # halts
