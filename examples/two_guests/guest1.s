# guest 1: prints 65536 in decimal, by division.
        lui    $16, 0xCFFF              # register 16: the device page
        ori    $16, $16, 0xF000
        lui    $8, 1                    # 65536
        addiu  $9, $0, 10
        lui    $10, 0xC000
        ori    $10, $10, 0x2000         # register 10: the digits are laid down from the end of page 1
        or     $12, $10, $0             # register 12: behind them
divide:
        divu   $8, $9
        mfhi   $11                      # the remainder: the last digit
        mflo   $8                       # the quotient
        addiu  $10, $10, -1
        addiu  $11, $11, 0x30
        bne    $8, $0, divide
        sb     $11, 0($10)              # in the delay slot
print:
        lbu    $11, 0($10)
        addiu  $10, $10, 1
        bne    $10, $12, print
        sw     $11, 0($16)              # in the delay slot
        sw     $0, 4($16)               # halts
