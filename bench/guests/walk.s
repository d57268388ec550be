# walk: a word of each of 40 pages is read and written in turn, through the TLB. The pages lie side by side at 00400000, on the physical pages
# from 8 on, and their pairs fill 20 entries of the TLB, so after the first round nothing is missed there.
start:
        lui    $28, 0xC000
        addiu  $8, $0, 0                # the entry
        lui    $9, 0x0040               # EntryHi: the pair's first page
        addiu  $10, $0, 0x206           # EntryLo: physical page 8, writable and valid
fill:
        mtc0   $8, $0                   # Index
        mtc0   $9, $10                  # EntryHi
        mtc0   $10, $2                  # EntryLo0
        addiu  $11, $10, 0x40
        mtc0   $11, $3                  # EntryLo1
        tlbwi
        addiu  $8, $8, 1
        addiu  $9, $9, 0x2000           # two pages further
        addiu  $10, $10, 0x80
        addiu  $11, $0, 20
        bne    $8, $11, fill
        addiu  $13, $0, 0
round:
        lui    $8, 0x0040
        addiu  $9, $0, 40
page:
        lw     $10, 0($8)
        addu   $13, $13, $10
        addiu  $10, $10, 1
        sw     $10, 0($8)
        addiu  $9, $9, -1
        bne    $9, $0, page
        addiu  $8, $8, 0x1000
        beq    $0, $0, round
        addiu  $14, $13, 0
