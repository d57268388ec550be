/* A process's program: bytes from 00010000 on, with no header. It begins with its first instruction. */
OUTPUT_ARCH(mips)
ENTRY(user_start)
SECTIONS
{
    .text 0x00010000 : { *(.start) *(.text .text.*) *(.rodata .rodata.*) *(.data .data.* .sdata .sdata.*) }
    .bss : { *(.bss .bss.* .sbss .sbss.* COMMON) }
    /DISCARD/ : { *(.MIPS.abiflags) *(.reginfo) *(.got) *(.pdr) *(.comment) *(.note*) *(.gnu.attributes) *(.eh_frame) *(.mdebug*) }
}
