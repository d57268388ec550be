# registers: the kernel of examples/kernel, on the register page of a guest of profile 2: what it could reach by MFC0 and MTC0 alone,
# it loads and stores there, with no trap.
# Physical pages: 0 the kernel, 1 the user program, 2 the page table, 3 to 6 the user program's data.
# A TLB refill; the guest begins at start.
        lui    $27, 0xCFFF              # register 27: the register page, and 0x1000 behind it the device page
        ori    $27, $27, 0xE000
        lw     $26, 0x10($27)           # Context, the address of the pair's line in the page table
        lw     $26, 0($26)
        sw     $26, 0x08($27)           # EntryLo0
        lw     $26, 0x10($27)
        lw     $26, 4($26)
        sw     $26, 0x0C($27)           # EntryLo1; EntryHi has the pair of pages already
        tlbwr                           # an entry at random, but never entry 0
        lui    $27, 0xC000
        lw     $26, 0x300($27)          # the number of refills
        addiu  $26, $26, 1
        sw     $26, 0x300($27)
        eret                            # the user program tries again

# the general vector
        .org   0xC0000180
        lui    $27, 0xCFFF
        ori    $27, $27, 0xE000
        mfc0   $26, $13                 # Cause, which isn't on the page
        andi   $26, $26, 0x7C
        xori   $26, $26, 0x20           # 0 where it is a system call
        bne    $26, $0, stop            # nothing else is served
        addiu  $26, $0, 1
        bne    $2, $26, end             # call 1 prints the byte in register 4
        lw     $26, 0x38($27)           # in the delay slot: EPC
        sw     $4, 0x1000($27)
        addiu  $26, $26, 4
        sw     $26, 0x38($27)           # behind the SYSCALL
        eret
# another call ends the program: the kernel prints how many refills it made
end:
        lui    $8, 0xC000
        ori    $9, $8, 0x310
text:
        lbu    $10, 0($9)
        beq    $10, $0, count
        addiu  $9, $9, 1
        beq    $0, $0, text
        sw     $10, 0x1000($27)
count:
        lw     $10, 0x300($8)
        addiu  $10, $10, 0x30
        sw     $10, 0x1000($27)
stop:
        sw     $0, 0x1004($27)          # halts

        .org   0xC0000300
        .word  0x00000000               # the number of refills

        .org   0xC0000310
        .word  0x0A726566               # "\nref", the kernel's text
        .word  0x696C6C73               # "ills"
        .word  0x20000000               # a space, and the end

        .org   0xC0000320
start:
        lui    $8, 0xC000
        mtc0   $8, $4                   # Context, which is loaded on the page alone: the page table begins at C0000000
        ori    $9, $8, 0x2000           # the line of the pair 00400000
        addiu  $10, $0, 0xC6            # physical page 3, writable and valid
        sw     $10, 0x10($9)            # for 00402000
        addiu  $10, $10, 0x40
        sw     $10, 0x14($9)            # page 4 for 00403000
        addiu  $10, $10, 0x40
        sw     $10, 0x20($9)            # page 5 for 00404000
        addiu  $10, $10, 0x40
        sw     $10, 0x24($9)            # page 6 for 00405000
        addiu  $10, $0, 1
        mtc0   $10, $6                  # Wired: TLBWR leaves entry 0 alone
        lui    $11, 0x0040
        mtc0   $11, $10                 # EntryHi, which is loaded on the page alone: the pair 00400000
        lui    $27, 0xCFFF
        ori    $27, $27, 0xE000
        addiu  $10, $0, 0x42
        sw     $10, 0x08($27)           # EntryLo0: page 1, valid, not writable
        sw     $0, 0x0C($27)            # EntryLo1: not valid
        sw     $0, 0x00($27)            # Index
        tlbwi                           # entry 0: the user program
        sw     $11, 0x38($27)           # EPC: the user program's first instruction
        addiu  $10, $0, 0x12
        mtc0   $10, $12                 # Status: user mode as soon as EXL goes
        eret

# the user program: it lies in physical page 1 and runs at 00400000, in user mode
        .org   0xC0001000
        lui    $16, 0x0040              # register 16: the first data page, 00402000
        ori    $16, $16, 0x2000
        addiu  $17, $16, 0x4000         # register 17: behind the fourth
        addiu  $8, $0, 0x61             # a
write:
        sw     $8, 0($16)               # the first store to a pair of pages finds no TLB entry
        addiu  $16, $16, 0x1000
        bne    $16, $17, write
        addiu  $8, $8, 1                # in the delay slot: the next letter
        addiu  $16, $16, -16384
read:
        lw     $4, 0($16)
        addiu  $2, $0, 1
        syscall                         # call 1: prints it
        addiu  $16, $16, 0x1000
        bne    $16, $17, read
        sll    $0, $0, 0
        addiu  $2, $0, 2
        syscall                         # call 2: ends
