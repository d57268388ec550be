# sha: SHA-256 over one block, again and again, each time over the digest before. After the first block the digest of "abc" is printed in
# hexadecimal; then the guest goes on for as long as it has steps. A twentieth of its steps are loads, fewer are stores.
start:
        lui    $28, 0xC000              # register 28: the memory
        lui    $29, 0xCFFF
        ori    $29, $29, 0xF000         # register 29: the device page
        addiu  $30, $0, 0               # register 30: whether the digest was printed
block:
        ori    $8, $28, 0xC40           # the block
        ori    $9, $28, 0xA00           # the schedule
        addiu  $10, $0, 16
copy:
        lw     $11, 0($8)
        addiu  $8, $8, 4
        sw     $11, 0($9)
        addiu  $10, $10, -1
        bne    $10, $0, copy
        addiu  $9, $9, 4
        addiu  $10, $0, 48
extend:
        lw     $11, -60($9)
        lw     $12, -8($9)
        srl    $13, $11, 7
        sll    $14, $11, 25
        or     $13, $13, $14
        srl    $14, $11, 18
        sll    $15, $11, 14
        or     $14, $14, $15
        xor    $13, $13, $14
        srl    $14, $11, 3
        xor    $13, $13, $14
        srl    $14, $12, 17
        sll    $15, $12, 15
        or     $14, $14, $15
        srl    $15, $12, 19
        sll    $16, $12, 13
        or     $15, $15, $16
        xor    $14, $14, $15
        srl    $15, $12, 10
        xor    $14, $14, $15
        lw     $15, -64($9)
        lw     $16, -28($9)
        addu   $13, $13, $14
        addu   $13, $13, $15
        addu   $13, $13, $16
        sw     $13, 0($9)
        addiu  $10, $10, -1
        bne    $10, $0, extend
        addiu  $9, $9, 4
        ori    $8, $28, 0xC00           # the digest
        lw     $16, 0($8)               # registers 16 to 23: a to h
        lw     $17, 4($8)
        lw     $18, 8($8)
        lw     $19, 12($8)
        lw     $20, 16($8)
        lw     $21, 20($8)
        lw     $22, 24($8)
        lw     $23, 28($8)
        ori    $9, $28, 0xA00
        ori    $10, $28, 0x800          # the constants
        addiu  $11, $0, 64
round:
        srl    $12, $20, 6
        sll    $13, $20, 26
        or     $12, $12, $13
        srl    $13, $20, 11
        sll    $14, $20, 21
        or     $13, $13, $14
        xor    $12, $12, $13
        srl    $13, $20, 25
        sll    $14, $20, 7
        or     $13, $13, $14
        xor    $12, $12, $13
        xor    $13, $21, $22
        and    $13, $13, $20
        xor    $13, $13, $22
        addu   $12, $12, $13
        addu   $12, $12, $23
        lw     $13, 0($9)
        lw     $14, 0($10)
        addu   $12, $12, $13
        addu   $12, $12, $14
        srl    $13, $16, 2
        sll    $14, $16, 30
        or     $13, $13, $14
        srl    $14, $16, 13
        sll    $15, $16, 19
        or     $14, $14, $15
        xor    $13, $13, $14
        srl    $14, $16, 22
        sll    $15, $16, 10
        or     $14, $14, $15
        xor    $13, $13, $14
        or     $14, $16, $17
        and    $14, $14, $18
        and    $15, $16, $17
        or     $14, $14, $15
        addu   $13, $13, $14
        or     $23, $22, $0
        or     $22, $21, $0
        or     $21, $20, $0
        addu   $20, $19, $12
        or     $19, $18, $0
        or     $18, $17, $0
        or     $17, $16, $0
        addu   $16, $12, $13
        addiu  $9, $9, 4
        addiu  $11, $11, -1
        bne    $11, $0, round
        addiu  $10, $10, 4
        lw     $9, 0($8)
        addu   $9, $9, $16
        sw     $9, 0($8)
        lw     $9, 4($8)
        addu   $9, $9, $17
        sw     $9, 4($8)
        lw     $9, 8($8)
        addu   $9, $9, $18
        sw     $9, 8($8)
        lw     $9, 12($8)
        addu   $9, $9, $19
        sw     $9, 12($8)
        lw     $9, 16($8)
        addu   $9, $9, $20
        sw     $9, 16($8)
        lw     $9, 20($8)
        addu   $9, $9, $21
        sw     $9, 20($8)
        lw     $9, 24($8)
        addu   $9, $9, $22
        sw     $9, 24($8)
        lw     $9, 28($8)
        addu   $9, $9, $23
        sw     $9, 28($8)
        bne    $30, $0, block
        addiu  $30, $0, 64              # 64 digits
print:
        addiu  $30, $30, -1
        lw     $9, 0($8)                # the word, whose first digit is printed
        srl    $10, $9, 28
        sll    $9, $9, 4
        sltiu  $11, $10, 10
        bne    $11, $0, digit
        addiu  $12, $10, 48             # 0 to 9
        addiu  $12, $10, 87             # a to f
digit:
        sw     $12, 0($29)
        andi   $11, $30, 7
        bne    $11, $0, print
        sw     $9, 0($8)
        bne    $30, $0, print           # the next word
        addiu  $8, $8, 4
        beq    $0, $0, block
        addiu  $30, $0, 1               # what was printed is gone from memory: the next block begins with zeros

        .org   0xC0000800
        .word  0x428A2F98
        .word  0x71374491
        .word  0xB5C0FBCF
        .word  0xE9B5DBA5
        .word  0x3956C25B
        .word  0x59F111F1
        .word  0x923F82A4
        .word  0xAB1C5ED5
        .word  0xD807AA98
        .word  0x12835B01
        .word  0x243185BE
        .word  0x550C7DC3
        .word  0x72BE5D74
        .word  0x80DEB1FE
        .word  0x9BDC06A7
        .word  0xC19BF174
        .word  0xE49B69C1
        .word  0xEFBE4786
        .word  0x0FC19DC6
        .word  0x240CA1CC
        .word  0x2DE92C6F
        .word  0x4A7484AA
        .word  0x5CB0A9DC
        .word  0x76F988DA
        .word  0x983E5152
        .word  0xA831C66D
        .word  0xB00327C8
        .word  0xBF597FC7
        .word  0xC6E00BF3
        .word  0xD5A79147
        .word  0x06CA6351
        .word  0x14292967
        .word  0x27B70A85
        .word  0x2E1B2138
        .word  0x4D2C6DFC
        .word  0x53380D13
        .word  0x650A7354
        .word  0x766A0ABB
        .word  0x81C2C92E
        .word  0x92722C85
        .word  0xA2BFE8A1
        .word  0xA81A664B
        .word  0xC24B8B70
        .word  0xC76C51A3
        .word  0xD192E819
        .word  0xD6990624
        .word  0xF40E3585
        .word  0x106AA070
        .word  0x19A4C116
        .word  0x1E376C08
        .word  0x2748774C
        .word  0x34B0BCB5
        .word  0x391C0CB3
        .word  0x4ED8AA4A
        .word  0x5B9CCA4F
        .word  0x682E6FF3
        .word  0x748F82EE
        .word  0x78A5636F
        .word  0x84C87814
        .word  0x8CC70208
        .word  0x90BEFFFA
        .word  0xA4506CEB
        .word  0xBEF9A3F7
        .word  0xC67178F2
        .org   0xC0000C00
        .word  0x6A09E667
        .word  0xBB67AE85
        .word  0x3C6EF372
        .word  0xA54FF53A
        .word  0x510E527F
        .word  0x9B05688C
        .word  0x1F83D9AB
        .word  0x5BE0CD19
        .org   0xC0000C40
        .word  0x61626380
        .word  0x00000000
        .word  0x00000000
        .word  0x00000000
        .word  0x00000000
        .word  0x00000000
        .word  0x00000000
        .word  0x00000000
        .word  0x00000000
        .word  0x00000000
        .word  0x00000000
        .word  0x00000000
        .word  0x00000000
        .word  0x00000000
        .word  0x00000000
        .word  0x00000018
