# refill: 128 pages are walked through the 48 entries of the TLB, so each pair of them is missed, and refilled from a page table by seven
# instructions.
        mfc0   $26, $4                  # Context
        lw     $27, 0($26)
        lw     $26, 8($26)
        mtc0   $27, $2                  # EntryLo0
        mtc0   $26, $3                  # EntryLo1
        tlbwr
        eret

        .org   0xC0000200
start:
        lui    $28, 0xC000
        mtc0   $28, $4                  # Context: 16 bytes a pair of pages
        mtc0   $0, $10                  # EntryHi
        mtc0   $0, $12                  # Status
        ori    $8, $28, 0x2000          # the line of the pair 00400000
        addiu  $9, $0, 64
        addiu  $10, $0, 0x206           # physical pages from 8 on, writable and valid
fill:
        sw     $10, 0($8)
        addiu  $11, $10, 0x40
        sw     $11, 8($8)
        addiu  $10, $10, 0x80
        addiu  $9, $9, -1
        bne    $9, $0, fill
        addiu  $8, $8, 16
round:
        lui    $8, 0x0040
        addiu  $9, $0, 64
page:
        lw     $10, 0($8)
        addiu  $10, $10, 1
        sw     $10, 0($8)
        lw     $11, 4096($8)
        addu   $12, $12, $11
        addiu  $9, $9, -1
        bne    $9, $0, page
        addiu  $8, $8, 0x2000
        beq    $0, $0, round
        addiu  $14, $13, 0
