# hello: prints a text of its memory byte by byte, and halts.
        lui    $16, 0xCFFF              # register 16: the device page, at CFFFF000
        ori    $16, $16, 0xF000
        lui    $8, hi(text)             # register 8: the next byte of the text
        ori    $8, $8, lo(text)
next:
        lbu    $9, 0($8)
        beq    $9, $0, halt             # a zero ends the text
        addiu  $8, $8, 1                # in the delay slot
        beq    $0, $0, next
        sw     $9, 0($16)               # in the delay slot: prints the byte
halt:
        sw     $0, 4($16)               # halts

        .org   0xC0000040
text:
        .word  0x48656C6C               # "Hell"
        .word  0x6F2C2077               # "o, w"
        .word  0x6F726C64               # "orld"
        .word  0x00000000               # its end
