/* The whole program in one segment at the start of the guest's memory, _start first. */
ENTRY(_start)
SECTIONS
{
    . = 0xC0000000;
    .text : { *(.text.start) *(.text .text.*) *(.rodata .rodata.*) *(.data .data.*) *(.bss .bss.*) } =0
    /DISCARD/ : { *(.reginfo) *(.MIPS.abiflags) *(.pdr) *(.comment) *(.note*) *(.got) *(.eh_frame) *(.mdebug*) *(.gnu.attributes) }
}
