# timer: Compare is set 100 steps ahead five times; each interrupt prints a digit.
        lui    $16, 0xCFFF              # register 16: the device page
        ori    $16, $16, 0xF000
        addiu  $18, $0, 5               # register 18: how many ticks there are to be
        addiu  $8, $0, 100
        mtc0   $8, $11                  # Compare is 100: the first tick
        ori    $8, $0, 0x8001
        mtc0   $8, $12                  # Status: the timer's interrupt (IM7) and IE
wait:
        bne    $17, $18, wait           # register 17: the ticks so far, which the handler counts
        sll    $0, $0, 0
        addiu  $8, $0, 0x2E             # a full stop
        sw     $8, 0($16)
        sw     $0, 4($16)               # halts

# the general vector: only the timer comes here
        .org   0xC0000180
        mfc0   $26, $11                 # Compare
        addiu  $26, $26, 100
        mtc0   $26, $11                 # the next tick; the write takes the interrupt back
        addiu  $17, $17, 1
        addiu  $27, $17, 0x30           # the tick's number as a digit
        sw     $27, 0($16)
        eret
