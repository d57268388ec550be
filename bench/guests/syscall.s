# syscall: a loop of nine instructions in user mode, of which one calls the kernel, which has six.
        .org   0xC0000180
        mfc0   $26, $14                 # EPC
        mfc0   $27, $13                 # Cause
        addiu  $26, $26, 4
        addu   $2, $2, $27
        mtc0   $26, $14
        eret

start:
        mtc0   $0, $0                   # Index
        lui    $9, 0x0040
        mtc0   $9, $10                  # EntryHi: the pair 00400000
        addiu  $10, $0, 0x206           # physical page 8, writable and valid
        mtc0   $10, $2
        addiu  $10, $0, 0x246
        mtc0   $10, $3
        tlbwi
        mtc0   $9, $14
        addiu  $10, $0, 0x12
        mtc0   $10, $12                 # Status: user mode
        eret

        .org   0xC0008000
user:
        addiu  $8, $8, 1
        addu   $9, $9, $8
        xor    $10, $9, $8
        syscall
        sltu   $11, $10, $9
        bne    $11, $0, user
        addiu  $12, $12, 1
        beq    $0, $0, user
        addiu  $13, $13, 1
