# stores: eight words are stored one after the other, over and over: eight steps of eleven.
start:
        lui    $28, 0xC000
        ori    $28, $28, 0x4000
        addiu  $8, $0, 0
again:
        sw     $8, 0($28)
        sw     $8, 4($28)
        sw     $8, 8($28)
        sw     $8, 12($28)
        sw     $8, 16($28)
        sw     $8, 20($28)
        sw     $8, 24($28)
        sw     $8, 28($28)
        addiu  $8, $8, 1
        beq    $0, $0, again
        addiu  $9, $8, 0
