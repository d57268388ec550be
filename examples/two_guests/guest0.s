# guest 0: prints the letters from A to Z.
        lui    $16, 0xCFFF              # register 16: the device page
        ori    $16, $16, 0xF000
        addiu  $8, $0, 0x41             # A
        addiu  $9, $0, 0x5B             # behind Z
next:
        sw     $8, 0($16)
        addiu  $8, $8, 1
        bne    $8, $9, next
        sll    $0, $0, 0
        sw     $0, 4($16)               # halts
