# loans: puts a letter on each of six pages, reads them back from the last one to the first, prints them, and halts.
        lui    $16, 0xCFFF              # register 16: the device page, at CFFFF000
        ori    $16, $16, 0xF000
        lui    $8, 0xC000               # register 8: the middle of a page
        addiu  $8, $8, 0x800
        addiu  $9, $0, 0x61             # register 9: the page's letter
        addiu  $10, $9, 6               # register 10: the letter past the last
store:
        sw     $9, 0($8)
        addiu  $8, $8, 0x1000           # the next page
        addiu  $9, $9, 1                # and letter
        bne    $9, $10, store
        sll    $0, $0, 0
        addiu  $10, $0, 6               # register 10: how many letters are to be read
load:
        addiu  $8, $8, -4096            # the page before
        lw     $9, 0($8)
        sw     $9, 0($16)               # prints its letter
        addiu  $10, $10, -1
        bne    $10, $0, load
        sll    $0, $0, 0
        sw     $0, 4($16)               # halts
