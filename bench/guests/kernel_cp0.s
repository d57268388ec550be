# kernel_cp0: a kernel that reaches its registers by coprocessor 0, and a user program that touches a page of each of 64 pairs in turn and calls the
# kernel each time. The TLB has 48 entries, so pairs are missed and refilled from a page table. It ends after so many rounds.
        mfc0   $26, $4                  # Context
        lw     $27, 0($26)
        mtc0   $27, $2                  # EntryLo0
        lw     $27, 4($26)
        mtc0   $27, $3                  # EntryLo1
        tlbwr
        eret

        .org   0xC0000180
        mfc0   $26, $13                 # Cause
        andi   $26, $26, 0x7C
        addiu  $26, $26, -32            # 0 where it is a system call
        bne    $26, $0, stop
        mfc0   $26, $14                 # EPC
        addiu  $26, $26, 4
        mtc0   $26, $14
        eret
stop:
        lui    $26, 0xCFFF              # another exception: the user program is done
        ori    $26, $26, 0xF000
        sw     $0, 4($26)

start:
        lui    $8, 0xC000
        mtc0   $8, $4                   # Context: 16 bytes a pair of pages
        mtc0   $0, $10                  # EntryHi
        addiu  $9, $0, 1
        mtc0   $9, $6                   # Wired: entry 0 is the user program's
        mtc0   $0, $0                   # Index
        lui    $9, 0x0080
        mtc0   $9, $10                  # EntryHi: the pair 00800000
        addiu  $10, $0, 0x42            # physical page 1, valid
        mtc0   $10, $2
        mtc0   $0, $3
        tlbwi
        mtc0   $9, $14                  # EPC
        ori    $8, $8, 0x2000           # the line of the pair 00400000
        addiu  $9, $0, 64
        addiu  $10, $0, 0x206           # physical pages from 8 on, writable and valid
fill:
        sw     $10, 0($8)
        sw     $10, 4($8)
        addiu  $10, $10, 0x40
        addiu  $9, $9, -1
        bne    $9, $0, fill
        addiu  $8, $8, 16
        addiu  $10, $0, 0x12
        mtc0   $10, $12                 # Status: user mode
        eret

        .org   0xC0001000
        ori    $16, $0, ROUNDS
round:
        lui    $8, 0x0040
        addiu  $9, $0, 64
page:
        lw     $10, 0($8)
        addiu  $10, $10, 1
        sw     $10, 0($8)
        syscall
        addiu  $9, $9, -1
        bne    $9, $0, page
        addiu  $8, $8, 0x2000
        addiu  $16, $16, -1
        bne    $16, $0, round
        addu   $12, $12, $10
        break
