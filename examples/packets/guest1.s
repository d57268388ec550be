# guest 1: prints the word that comes, turns its i into an o, and sends it back.
        lui    $16, 0xCFFF              # register 16: the device page
        ori    $16, $16, 0xF000
        addiu  $8, $0, 1
        sw     $8, 0x3C($16)            # page 1 is armed for a packet
wait:
        lw     $9, 0x40($16)            # the length of the last packet
        beq    $9, $0, wait
        sll    $0, $0, 0
        lui    $10, 0xC000              # register 10: page 1
        ori    $10, $10, 0x1000
        addiu  $8, $10, 4               # behind the word
        addiu  $11, $10, 0
next:
        lbu    $9, 0($11)
        addiu  $11, $11, 1
        bne    $11, $8, next
        sw     $9, 0($16)               # prints a letter
        lw     $9, 0($10)
        lui    $11, 0x0006              # what i and o differ in, in the second byte
        xor    $9, $9, $11
        sw     $9, 0($10)
        addiu  $8, $0, 1
        sw     $8, 0x30($16)            # the page that is sent
        addiu  $9, $0, 4
        sw     $9, 0x34($16)            # how many bytes of it
        sw     $0, 0x38($16)            # sends them to guest 0
        sw     $0, 4($16)               # halts
