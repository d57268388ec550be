/* A guest's memory begins at C0000000. A TLB miss leads there, other exceptions to C0000180; the program begins at C0000200. Behind all that
   it has come the stacks, that of virtual processor 0 first: `make` tells how many pages these take. */
OUTPUT_ARCH(mips)
ENTRY(_start)
PHDRS { text PT_LOAD FLAGS(5); data PT_LOAD FLAGS(6); }
PROVIDE(stack_size = 0x2000);
SECTIONS
{
    .miss 0xC0000000 : { KEEP(*(.vector.refill)) KEEP(*(.vector.miss)) } :text
    .general 0xC0000180 : { KEEP(*(.vector.general)) } :text
    .text 0xC0000200 : { KEEP(*(.start)) *(.text .text.*) } :text
    .rodata : { *(.rodata .rodata.*) } :text
    .data : ALIGN(4096) { *(.data .data.* .sdata .sdata.*) } :data
    .bss : { *(.bss .bss.* .sbss .sbss.* COMMON) } :data
    stacks = ALIGN(., 16);
    /* .MIPS.abiflags and .reginfo would get a segment of their own, outside the guest's memory */
    /DISCARD/ : { *(.MIPS.abiflags) *(.reginfo) *(.got) *(.pdr) *(.comment) *(.note*) *(.gnu.attributes) *(.eh_frame) *(.mdebug*) }
}
