#!/usr/bin/env python3
"""Refuses an image with an instruction word that the machine lacks, and tells how many pages the guest needs.

    words.py IMAGE.elf

The words are those of the sections that hold instructions, and the pages go to the end of the stacks, so the image must have sections and
symbols still. Instructions of coprocessors 1 and 2 are refused too: on the machine they raise an exception."""

import struct
import sys

PAGE, MEMORY = 4096, 0xC0000000
SYSTEM_WORDS = (0x42000001, 0x42000002, 0x42000006, 0x42000008, 0x42000018)  # TLBR, TLBWI, TLBWR, TLBP, ERET
# by the function field of opcode 0: the bits that have to be 0
RS, RT, RD, SA = 31 << 21, 31 << 16, 31 << 11, 31 << 6
SPECIAL = {
    **dict.fromkeys((0x00, 0x02, 0x03), RS),  # SLL, SRL, SRA
    **dict.fromkeys((0x04, 0x06, 0x07, *range(0x20, 0x28), 0x2A, 0x2B), SA),  # shifts by a register, sums, logic, comparisons
    0x08: RT | RD | SA, 0x09: RT | SA,  # JR, JALR
    0x0C: 0, 0x0D: 0, 0x0F: RS | RT | RD | SA,  # SYSCALL, BREAK, SYNC
    0x10: RS | RT | SA, 0x12: RS | RT | SA, 0x11: RT | RD | SA, 0x13: RT | RD | SA,  # MFHI, MFLO, MTHI, MTLO
    **dict.fromkeys(range(0x18, 0x1C), RD | SA),  # MULT, MULTU, DIV, DIVU
    **dict.fromkeys((0x30, 0x31, 0x32, 0x33, 0x34, 0x36), 0),  # traps
}
# by the register field of opcode 1: branches, those that link, traps
IMMEDIATE = (0x00, 0x01, 0x02, 0x03, 0x10, 0x11, 0x12, 0x13, 0x08, 0x09, 0x0A, 0x0B, 0x0C, 0x0E)
# by opcode: the bits that have to be 0
PRIMARY = {
    **dict.fromkeys((0x02, 0x03, 0x04, 0x05, 0x14, 0x15), 0),  # J, JAL, BEQ, BNE, and the likely ones
    **dict.fromkeys((0x06, 0x07, 0x16, 0x17), RT),  # BLEZ, BGTZ, and the likely ones
    **dict.fromkeys(range(0x08, 0x0F), 0), 0x0F: RS,  # with an immediate; LUI
    **dict.fromkeys((*range(0x20, 0x27), *range(0x28, 0x2C), 0x2E, 0x30, 0x38), 0),  # loads, stores, LL, SC
}


def is_word(word):
    """Whether the machine has this instruction."""
    opcode = word >> 26
    if opcode == 0x00:
        return word & 63 in SPECIAL and word & SPECIAL[word & 63] == 0
    if opcode == 0x01:
        return word >> 16 & 31 in IMMEDIATE
    if opcode == 0x10:
        return word in SYSTEM_WORDS or word >> 21 & 31 in (0, 4) and word & 0x7FF == 0
    return opcode in PRIMARY and word & PRIMARY[opcode] == 0


def sections(file):
    """Of each section: its type, flags, address, bytes, and the number of the section that it refers to."""
    offset, = struct.unpack_from(">I", file, 32)
    count, = struct.unpack_from(">H", file, 48)
    for n in range(count):
        _, kind, flags, address, at, size, link = struct.unpack_from(">7I", file, offset + 40 * n)
        yield kind, flags, address, file[at:at + size], link


def symbols(file):
    """The symbols by their names."""
    found, all_sections = {}, list(sections(file))
    for kind, _, _, table, link in all_sections:
        names = all_sections[link][3] if kind == 2 else b""
        for at in range(0, len(table) if kind == 2 else 0, 16):
            name, value = struct.unpack_from(">II", table, at)
            found[names[name:names.index(b"\0", name)].decode()] = value
    return found


def refused(file):
    """The words that the machine lacks, each with its address."""
    for kind, flags, address, content, _ in sections(file):
        if kind == 1 and flags & 4:
            for at in range(0, len(content) - 3, 4):
                word, = struct.unpack_from(">I", content, at)
                if not is_word(word):
                    yield address + at, word


def pages(file, vcpus):
    known = symbols(file)
    return (known["stacks"] + vcpus * known["stack_size"] - MEMORY + PAGE - 1) // PAGE


def main():
    if len(sys.argv) != 2:
        sys.exit(__doc__)
    with open(sys.argv[1], "rb") as image:
        file = image.read()
    bad = list(refused(file))
    for address, word in bad[:10]:
        print(f"{sys.argv[1]}: {address:08x}: {word:08x} is no instruction of the machine")
    if not bad and "stacks" in symbols(file):
        print(f"{sys.argv[1]}: pages = {pages(file, 1)}" + (f", with four virtual processors {pages(file, 4)}"))
    return 1 if bad else 0


if __name__ == "__main__":
    sys.exit(main())
