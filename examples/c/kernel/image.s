# The program of all processes, as user.ld links it.
        .section .rodata
        .globl  user_image
        .globl  user_image_end
        .balign 4
user_image:
        .incbin "user.bin"
user_image_end:
