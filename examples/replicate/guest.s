# replicate: adds up a word of page 1, 24 times, stores the sum behind it, and prints it as a letter.
        lui    $16, 0xCFFF              # register 16: the device page, at CFFFF000
        ori    $16, $16, 0xF000
        lui    $8, 0xC000               # register 8: page 1, of which each node gets a replica that misses it three times
        ori    $8, $8, 0x1000
        addiu  $9, $0, 24               # register 9: how often it is still to be read
again:
        lw     $10, 0($8)
        addiu  $9, $9, -1
        bne    $9, $0, again
        addu   $11, $11, $10            # register 11: the sum
        sw     $11, 4($8)               # by which the replicas go
        lw     $12, 4($8)
        sw     $12, 0($16)              # the letter H
        sw     $0, 4($16)               # halt
        .org   0xC0001000
        .word  3
