# spaces: four address spaces take turns. Each has its own pair of pages at the same address, by an entry of the TLB with its number, and makes
# some sixty steps in its turn.
start:
        addiu  $8, $0, 0                # the space, and its entry
        lui    $9, 0x0040               # EntryHi: the pair, with the space's number in its low byte
        addiu  $10, $0, 0x206           # EntryLo: physical page 8, writable and valid
fill:
        mtc0   $8, $0                   # Index
        mtc0   $9, $10                  # EntryHi
        mtc0   $10, $2                  # EntryLo0
        addiu  $11, $10, 0x40
        mtc0   $11, $3                  # EntryLo1
        tlbwi
        addiu  $8, $8, 1
        addiu  $9, $9, 1
        addiu  $10, $10, 0x80
        addiu  $11, $0, 4
        bne    $8, $11, fill
        lui    $12, 0x0040
turn:
        addiu  $8, $0, 4
space:
        addiu  $8, $8, -1
        addu   $9, $12, $8
        mtc0   $9, $10                  # the space's turn
        addiu  $11, $0, 10
work:
        lw     $13, 0($12)
        addiu  $13, $13, 1
        sw     $13, 0($12)
        addiu  $11, $11, -1
        bne    $11, $0, work
        sw     $13, 0x1000($12)
        bne    $8, $0, space
        addiu  $14, $13, 0
        beq    $0, $0, turn
        addiu  $15, $0, 0
