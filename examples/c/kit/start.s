# The vectors, the start of each virtual processor, and the way into a trap and back.
# For a reader who knows C: $4 has a call's first argument, $29 the stack, $31 where a call returns to; $26 and $27 are a trap's own, which no
# compiler uses. The instruction behind a jump or a branch is done before it leads away.
        .set    noreorder
        .set    noat

        .section .vector.miss, "ax"     # C0000000: no entry of the TLB matches. The handler of refill.c comes before this one
        j       trap
        nop

        .section .vector.general, "ax"  # C0000180: all other exceptions, and interrupts
        j       trap
        nop

        .section .start, "ax"           # C0000200: here all virtual processors begin, with all registers 0
        .globl  _start
_start: lui     $8, 0xD000
        lw      $4, -0xFF0($8)          # CFFFF010: this one's number
        lui     $9, %hi(stack_size)
        addiu   $9, $9, %lo(stack_size)
        addiu   $10, $4, 1
        multu   $10, $9
        lui     $29, %hi(stacks)
        addiu   $29, $29, %lo(stacks)
        mflo    $10
        addu    $29, $29, $10           # the end of its stack
        jal     main
        addiu   $29, $29, -32           # a caller leaves room for four arguments

        .globl  halt
halt:   lui     $8, 0xD000
        sw      $0, -0xFFC($8)          # CFFFF004: it halts
        b       halt
        nop

        .text
trap:   lui     $27, 0xD000
        lw      $26, -0xFF0($27)        # this one's number
        lui     $27, %hi(trap_areas + 2048 - 160)
        addiu   $27, $27, %lo(trap_areas + 2048 - 160)
        sll     $26, $26, 11
        addu    $27, $27, $26           # its frame: 160 bytes at the end of its 2048; the rest is the trap's stack
        .irp    r, 1,2,3,4,5,6,7,8,9,10,11,12,13,14,15,16,17,18,19,20,21,22,23,24,25,28,29,30,31
        sw      $\r, 4*\r($27)
        .endr
        mfhi    $8
        mflo    $9
        mfc0    $10, $14                # EPC
        mfc0    $11, $12                # Status
        mfc0    $12, $13                # Cause
        mfc0    $13, $8                 # BadVAddr
        .irp    r, 8,9,10,11,12,13
        sw      $\r, 96+4*\r($27)
        .endr
        move    $4, $27
        jal     trapped
        addiu   $29, $27, -32
        lw      $8, 128($27)
        lw      $9, 132($27)
        lw      $10, 136($27)
        lw      $11, 140($27)
        mthi    $8
        mtlo    $9
        mtc0    $10, $14
        mtc0    $11, $12                # with EXL still on, which ERET takes off
        .irp    r, 1,2,3,4,5,6,7,8,9,10,11,12,13,14,15,16,17,18,19,20,21,22,23,24,25,28,29,30,31
        lw      $\r, 4*\r($27)
        .endr
        .set    mips3                   # the first set of instructions that has ERET
        eret

        .section .bss
        .balign 16
trap_areas:                             # one for each of at most four virtual processors
        .space  4 * 2048
