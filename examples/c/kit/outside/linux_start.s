# The start of a program for qemu-mips, and Linux's system calls: linux(number, one, two, three).
        .set    noreorder
        .text
        .globl  __start
__start:
        addiu   $8, $0, -16
        and     $29, $29, $8
        jal     main
        addiu   $29, $29, -32
        .globl  halt
halt:   jal     linux_flush
        nop
        li      $2, 4246                # exit_group
        li      $4, 0
        syscall
        b       halt
        nop

        .globl  linux_call
linux_call:
        move    $2, $4
        move    $4, $5
        move    $5, $6
        move    $6, $7
        syscall
        beqz    $7, 1f                  # register 7 tells whether it failed
        nop
        li      $2, -1
1:      jr      $31
        nop
