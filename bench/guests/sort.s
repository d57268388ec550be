# sort: 64 numbers of a shift register are made and sorted by insertion.
start:
        lui    $28, 0xC000
        lui    $20, 0x1234
        ori    $20, $20, 0x5678
outer:
        ori    $8, $28, 0x4000
        addiu  $9, $0, 64
fill:
        sll    $10, $20, 13
        xor    $20, $20, $10
        srl    $10, $20, 17
        xor    $20, $20, $10
        sll    $10, $20, 5
        xor    $20, $20, $10
        sw     $20, 0($8)
        addiu  $9, $9, -1
        bne    $9, $0, fill
        addiu  $8, $8, 4
        ori    $8, $28, 0x4004
        ori    $16, $28, 0x4000
        addiu  $9, $0, 63
next:
        lw     $11, 0($8)
        addiu  $12, $8, -4
shift:
        sltu   $13, $12, $16
        bne    $13, $0, place
        addiu  $15, $0, 0
        lw     $14, 0($12)
        sltu   $13, $11, $14
        beq    $13, $0, place
        addiu  $15, $0, 0
        sw     $14, 4($12)
        beq    $0, $0, shift
        addiu  $12, $12, -4
place:
        sw     $11, 4($12)
        addiu  $9, $9, -1
        bne    $9, $0, next
        addiu  $8, $8, 4
        beq    $0, $0, outer
        addiu  $9, $0, 0
