# input: each byte that is typed raises an interrupt, whose handler echoes it; a full stop halts.
        lui    $16, 0xCFFF              # register 16: the device page
        ori    $16, $16, 0xF000
        ori    $8, $0, 0x0401
        mtc0   $8, $12                  # Status: the interrupt of input (IM2) and IE
wait:
        beq    $0, $0, wait
        sll    $0, $0, 0

# the general vector: only input comes here
        .org   0xC0000180
        lw     $8, 8($16)               # takes a byte
        addiu  $9, $0, 0x2E             # a full stop
        beq    $8, $9, stop
        sll    $0, $0, 0
        sw     $8, 0($16)               # echoes it
        eret                            # while bytes are left the interrupt comes again at once
stop:
        sw     $8, 0($16)
        sw     $0, 4($16)               # halts
