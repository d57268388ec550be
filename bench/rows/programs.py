"""Guests of few instructions, with the device page in register 16 and the guest's memory in register 10."""

from .writing import listing, words

PRINTS_A = words("3C01CFFF 3421F000 24020041 AC220000 AC220004")

# reads block 0 into page 2, prints its low byte, adds 1, and prints it again
READS_A_BLOCK = words(
    "3C10CFFF 3610F000 AE000020 24080002 AE080024 24090001 AE090028 3C0AC000"
    " 8D4B2000 AE0B0000 256B0001 AD4B2000 8D4B2000 AE0B0000 AE000004"
)

# sends page 2 whole to guest 1, then writes it and prints Q
SENDS_A_PAGE = words(
    "3C10CFFF 3610F000 3C0AC000 240B0050 AD4B2000 24080002 AE080030 24091000"
    " AE090034 240C0001 AE0C0038 240B0051 AD4B2000 AE0B0000 AE000004"
)

# arms page 2, waits for a length, and prints the low byte of the page's first word
PRINTS_A_WORD = words("3C10CFFF 3610F000 24080002 AE08003C 8E090040 1120FFFE 00000000 3C0AC000 8D4B2000 AE0B0000 AE000004")

# five loads from page 1, and a store to it
FIVE_READS = "3C08C000 8D091000 8D091000 8D091000 8D091000 8D091000"
READS = words(FIVE_READS + " AD091000")

# a store to page 1, and five loads from it
WRITES = words("3C08C000 AD081000 8D091000 8D091000 8D091000 8D091000 8D091000")

# adds 1 a thousand times to the first word of page 1 by LL and SC; the second virtual processor that is done prints Y where it is 2000
COUNTS = words(
    "3C10CFFF 3610F000 3C08C000 35081000 240903E8 C10A0000 254A0001 E10A0000 1140FFFC 00000000 2529FFFF 1520FFF9 00000000"
    " C10B0020 256C0001 01806821 E10C0020 1180FFFB 00000000 240E0002 15AE0008 00000000 8D0A0000 240F004E 240E07D0 154E0002"
    " 00000000 240F0059 AE0F0000 AE000004"
)

BLOCK = bytes((0, 0, 0, 0x61))
THREE_BLOCKS = b"".join(bytes((0, 0, 0, letter)).ljust(4096, b"\0") for letter in b"xyz")

# sends the numbers 1 to 65 to guest 1, each as a packet of 4 bytes
SENDS_65 = words(
    "3C10CFFF 3610F000 3C0AC000 24080001 AE080030 24090004 AE090034 24090000"
    " 240B0041 25290001 AD491000 152BFFFD AE080038 AE0B0000 AE000004"
)

# takes packet after packet into page 1, and prints Y once 64 came in order
TAKES_64 = words(
    "3C10CFFF 3610F000 3C0AC000 24080001 240C0000 AE08003C 8E09003C 1128FFFE 240D0040 258C0001 8D491000"
    " 152C0007 00000000 158DFFF7 00000000 24090059 AE090000 1000FFF3 00000000 2409004E AE090000 AE000004"
)

# each sends two letters to guest 1
SENDS_A_AND_B = words(
    "3C10CFFF 3610F000 3C0AC000 24080001 AE080030 24090004 AE090034 24090041"
    " AD491000 AE080038 25290001 AD491000 AE080038 AE000004"
)
SENDS_C_AND_D = SENDS_A_AND_B.replace(words("24090041"), words("24090043"))

# prints the sender and the word of each packet
PRINTS_SENDERS = words(
    "3C10CFFF 3610F000 3C0AC000 24080001 AE08003C 8E09003C 1128FFFE 8E090044 25290030 AE090000 8D491000 1000FFF8 AE090000"
)

# sends to itself, to a guest that isn't there, and with lengths that no page has; arms page 1, and prints what is armed
SENDS_NOWHERE = words(
    "3C10CFFF 3610F000 24080001 AE080030 24090008 AE090034 AE000038 240A0007 AE0A0038 24091001"
    " AE090034 AE080038 AE000034 AE080038 AE08003C 8E09003C 25290030 AE090000 AE000004"
)

# reads three blocks into pages 1 to 3, and stores a byte to each page
STORES_TO_THREE = listing("""
    sw    zero, 0x20(r16)     # block 0 comes into page 1
    addiu r8, zero, 1
    sw    r8, 0x24(r16)
    addiu r9, zero, 1
    sw    r9, 0x28(r16)
    sw    r9, 0x20(r16)       # block 1 into page 2
    addiu r8, zero, 2
    sw    r8, 0x24(r16)
    sw    r9, 0x28(r16)
    sw    r8, 0x20(r16)       # block 2 into page 3
    addiu r8, zero, 3
    sw    r8, 0x24(r16)
    sw    r9, 0x28(r16)
    addiu r11, zero, 0x41
    sb    r11, 0x1000(r10)
    sb    r11, 0x2000(r10)
    sb    r11, 0x3000(r10)
    lw    r11, 0x1000(r10)    # 41000078
    sw    r11, 0(r16)
    lw    r11, 0x2000(r10)
    sw    r11, 0(r16)
    lw    r11, 0x3000(r10)
    sw    r11, 0(r16)
    sw    zero, 4(r16)
""")

# reads two blocks into pages 1 and 2, and stores a byte to page 1
STORES_TO_FIRST_OF_TWO = listing("""
    sw    zero, 0x20(r16)     # block 0 comes into page 1
    addiu r8, zero, 1
    sw    r8, 0x24(r16)
    addiu r9, zero, 1
    sw    r9, 0x28(r16)
    sw    r9, 0x20(r16)       # block 1 into page 2
    addiu r8, zero, 2
    sw    r8, 0x24(r16)
    sw    r9, 0x28(r16)
    sb    r9, 0x1000(r10)
    sw    zero, 4(r16)
""")

# reads block 0 into page 2 twice, writes it with another word, and reads it once more
READS_TWICE = listing("""
    addiu r8, zero, 2
    sw    r8, 0x24(r16)
    addiu r9, zero, 1
    sw    r9, 0x28(r16)       # block 0 comes into page 2
    lw    r11, 0x2000(r10)
    sw    r11, 0(r16)
    sw    r9, 0x28(r16)       # and once more
    lw    r11, 0x2000(r10)
    sw    r11, 0(r16)
    addiu r11, zero, 0x62
    sw    r11, 0x2000(r10)
    addiu r8, zero, 2
    sw    r8, 0x28(r16)       # goes, changed,
    sw    r9, 0x28(r16)       # and comes
    lw    r11, 0x2000(r10)
    sw    r11, 0(r16)
    sw    zero, 4(r16)
""")

ENDS = words("3C01CFFF 3421F000 AC220004")

# sends page 2 whole to guests 1 and 2, and writes it
SENDS_TO_TWO = listing("""
    addiu r11, zero, 0x50
    sw    r11, 0x2000(r10)
    addiu r8, zero, 2
    sw    r8, 0x30(r16)
    addiu r9, zero, 0x1000
    sw    r9, 0x34(r16)
    addiu r12, zero, 1
    sw    r12, 0x38(r16)
    sw    r8, 0x38(r16)
    addiu r11, zero, 0x51
    sw    r11, 0x2000(r10)
    sw    zero, 4(r16)
""")

# reads block 0 into page 2, arms it, waits for a length, prints the low byte of the page's first word
READS_AND_ARMS = listing("""
    addiu r8, zero, 2
    sw    r8, 0x24(r16)
    addiu r9, zero, 1
    sw    r9, 0x28(r16)
    sw    r8, 0x3C(r16)
wait:
    lw    r9, 0x40(r16)
    beq   r9, zero, wait
    nop
    lw    r11, 0x2000(r10)
    sw    r11, 0(r16)
    sw    zero, 4(r16)
""")

# sends page 2 whole to guest 1, writes it, and sends it once more
SENDS_AGAIN = listing("""
    addiu r11, zero, 0x50
    sw    r11, 0x2000(r10)
    addiu r8, zero, 2
    sw    r8, 0x30(r16)
    addiu r9, zero, 0x1000
    sw    r9, 0x34(r16)
    addiu r12, zero, 1
    sw    r12, 0x38(r16)
    addiu r11, zero, 0x51
    sw    r11, 0x2000(r10)
    sw    r12, 0x38(r16)
""")

# takes two packets into page 2, and prints the low byte of its first word after each
TAKES_TWO = listing("""
    addiu r8, zero, 2
    addiu r12, zero, 2
again:
    sw    r8, 0x3C(r16)
wait:
    lw    r9, 0x3C(r16)
    beq   r9, r8, wait
    nop
    lw    r11, 0x2000(r10)
    sw    r11, 0(r16)
    addiu r12, r12, -1
    bgtz  r12, again
    nop
    sw    zero, 4(r16)
""")

# fills the wire to guest 1, sends page 1 whole, and writes it
SENDS_TOO_MUCH = listing("""
    addiu r8, zero, 1
    sw    r8, 0x30(r16)
    addiu r9, zero, 4
    sw    r9, 0x34(r16)
    addiu r11, zero, 64
again:
    sw    r8, 0x38(r16)
    addiu r11, r11, -1
    bgtz  r11, again
    nop
    addiu r9, zero, 0x1000
    sw    r9, 0x34(r16)
    sw    r8, 0x38(r16)
    sw    r9, 0x1000(r10)
    sw    zero, 4(r16)
""")

# reads block 0 into page 2, and sends the page whole to guest 1
SENDS_A_BLOCK = listing("""
    sw    zero, 0x20(r16)
    addiu r8, zero, 2
    sw    r8, 0x24(r16)
    addiu r9, zero, 1
    sw    r9, 0x28(r16)
    sw    r8, 0x30(r16)
    addiu r12, zero, 0x1000
    sw    r12, 0x34(r16)
    sw    r9, 0x38(r16)
    sw    zero, 4(r16)
""")

# as SENDS_A_PAGE, but four bytes of it
SENDS_FOUR_BYTES = SENDS_A_PAGE.replace(words("24091000"), words("24090004"))
