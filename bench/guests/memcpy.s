# memcpy: 8192 bytes are copied, four words a turn, and then 512 bytes one by one.
start:
        lui    $28, 0xC000
again:
        ori    $8, $28, 0x4000
        ori    $9, $28, 0x8000
        addiu  $10, $0, 512
copy:
        lw     $11, 0($8)
        lw     $12, 4($8)
        lw     $13, 8($8)
        lw     $14, 12($8)
        sw     $11, 0($9)
        sw     $12, 4($9)
        sw     $13, 8($9)
        sw     $14, 12($9)
        addiu  $8, $8, 16
        addiu  $10, $10, -1
        bne    $10, $0, copy
        addiu  $9, $9, 16
        ori    $8, $28, 0x4001
        ori    $9, $28, 0x8003
        addiu  $10, $0, 512
bytes:
        lbu    $11, 0($8)
        addiu  $8, $8, 1
        sb     $11, 0($9)
        addiu  $10, $10, -1
        bne    $10, $0, bytes
        addiu  $9, $9, 1
        beq    $0, $0, again
        addiu  $11, $0, 0
