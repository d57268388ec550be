# kernel_page: the kernel of kernel_cp0, which reaches its registers on the register page of profile 2, and the same user program.
        lui    $27, 0xCFFF
        ori    $27, $27, 0xE000         # the register page
        lw     $26, 0x10($27)           # Context
        lw     $26, 0($26)
        sw     $26, 0x08($27)           # EntryLo0
        lw     $26, 0x10($27)
        lw     $26, 4($26)
        sw     $26, 0x0C($27)           # EntryLo1
        tlbwr
        eret

        .org   0xC0000180
        mfc0   $26, $13                 # Cause, which isn't on the page
        andi   $26, $26, 0x7C
        addiu  $26, $26, -32            # 0 where it is a system call
        bne    $26, $0, stop
        lui    $27, 0xCFFF
        ori    $27, $27, 0xE000
        lw     $26, 0x38($27)           # EPC
        addiu  $26, $26, 4
        sw     $26, 0x38($27)
        eret
stop:
        lui    $26, 0xCFFF              # another exception: the user program is done
        ori    $26, $26, 0xF000
        sw     $0, 4($26)

start:
        lui    $8, 0xC000
        mtc0   $8, $4                   # Context: 16 bytes a pair of pages
        mtc0   $0, $10                  # EntryHi
        addiu  $9, $0, 1
        mtc0   $9, $6                   # Wired: entry 0 is the user program's
        mtc0   $0, $0                   # Index
        lui    $9, 0x0080
        mtc0   $9, $10                  # EntryHi: the pair 00800000
        addiu  $10, $0, 0x42            # physical page 1, valid
        mtc0   $10, $2
        mtc0   $0, $3
        tlbwi
        mtc0   $9, $14                  # EPC
        ori    $8, $8, 0x2000           # the line of the pair 00400000
        addiu  $9, $0, 64
        addiu  $10, $0, 0x206           # physical pages from 8 on, writable and valid
fill:
        sw     $10, 0($8)
        sw     $10, 4($8)
        addiu  $10, $10, 0x40
        addiu  $9, $9, -1
        bne    $9, $0, fill
        addiu  $8, $8, 16
        addiu  $10, $0, 0x12
        mtc0   $10, $12                 # Status: user mode
        eret

        .org   0xC0001000
        ori    $16, $0, ROUNDS
round:
        lui    $8, 0x0040
        addiu  $9, $0, 64
page:
        lw     $10, 0($8)
        addiu  $10, $10, 1
        sw     $10, 0($8)
        syscall
        addiu  $9, $9, -1
        bne    $9, $0, page
        addiu  $8, $8, 0x2000
        addiu  $16, $16, -1
        bne    $16, $0, round
        addu   $12, $12, $10
        break
