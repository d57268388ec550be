# device: each sixth step is a store to the console.
start:
        lui    $29, 0xCFFF
        ori    $29, $29, 0xF000
        addiu  $8, $0, 65
again:
        sw     $8, 0($29)
        addiu  $9, $9, 1
        andi   $10, $9, 15
        addiu  $8, $10, 65
        beq    $0, $0, again
        xor    $11, $10, $9
