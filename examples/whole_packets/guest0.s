# guest 0: sends the whole of page 1 to guest 1, writes another word to the page, and prints that.
        lui    $16, 0xCFFF              # register 16: the device page
        ori    $16, $16, 0xF000
        lui    $10, 0xC000              # register 10: page 1
        ori    $10, $10, 0x1000
        lui    $9, 0x7365               # "sent"
        ori    $9, $9, 0x6E74
        sw     $9, 0($10)
        addiu  $8, $0, 1
        sw     $8, 0x30($16)            # the page that is sent
        addiu  $9, $0, 0x1000
        sw     $9, 0x34($16)            # all of its bytes
        sw     $8, 0x38($16)            # sends them to guest 1: the page's frame goes along, and both share it
        lui    $9, 0x6B65               # "kept"
        ori    $9, $9, 0x7074
        sw     $9, 0($10)               # breaks the page: from here on guest 0 has one of its own
        addiu  $8, $10, 4               # behind the word
next:
        lbu    $9, 0($10)
        addiu  $10, $10, 1
        bne    $10, $8, next
        sw     $9, 0($16)               # prints a letter
        sw     $0, 4($16)               # halts
