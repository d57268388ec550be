#!/usr/bin/env python3
"""Tries what docs/GUESTS.md says in its tables: small programs, each with what it has to print, by the manual and not by disco.

    claims.py DISCO

Each program ends with a point, or in a trap, which prints the exception's code as a letter from A on and CE as a digit."""

import subprocess
import sys
import tempfile

TRAP = """
        .org    0xC0000180
        lui     $27, 0xCFFF
        ori     $27, $27, 0xF000
        mfc0    $26, $13
        srl     $25, $26, 2
        andi    $25, $25, 31
        addiu   $25, $25, 65
        sw      $25, 0($27)
        srl     $25, $26, 28
        andi    $25, $25, 3
        addiu   $25, $25, 48
        sw      $25, 0($27)
        sw      $0, 4($27)
"""
MISS = """
        lui     $27, 0xD000
        addiu   $26, $0, 109
        sw      $26, -4096($27)
        sw      $0, -4092($27)
"""
RESERVED = {
    "MUL": 0x71095002, "MADD": 0x71090000, "MOVZ": 0x0109500A, "MOVN": 0x0109500B, "CLZ": 0x71285020, "EXT": 0x7D0A2900, "INS": 0x7D0A2904,
    "SEB": 0x7C0A5420, "SEH": 0x7C0A5620, "ROTR": 0x002A5102, "WSBH": 0x7C0A50A0, "RDHWR": 0x7C03E83B, "JALR.HB": 0x0100FC09,
    "CACHE": 0xBC000000, "PREF": 0xCC000000, "WAIT": 0x42000020, "opcode 13": 0x4C000000, "LD": 0xDC280000, "SD": 0xFC280000,
    "LLD": 0xD0280000, "SCD": 0xF0280000, "LWU": 0x9C280000, "DADDU": 0x010A502D, "DADDIU": 0x65080001, "DMFC0": 0x40226000,
    "SYNC with a type": 0x0000004F, "MFC0 with a select": 0x40026001,
}  # fmt: skip
CODES = {"SYSCALL": (0x03FFFFCC, "I0"), "BREAK": (0x03FFFFCD, "J0"), "TEQ": (0x0000FFF4, "N0")}
# loads in kernel mode: where there is no range, no memory, no register of the device page
LOADS = {
    0x80000000: "E0", 0xBFFFFFFC: "E0", 0xE0000000: "E0", 0xFFFFFFFC: "E0", 0xC0000002: "E0", 0xC0010000: "H0", 0xCFFFE000: "H0", 0xCFFFF04C: "H0",
}  # fmt: skip
# what a register of coprocessor 0 reads once all bits were written
KEPT = {0: 0x3F, 2: 0x3FFFFFFF, 3: 0x3FFFFFFF, 4: 0xFF800000, 5: 0, 6: 0x3F, 7: 0, 8: 0, 9: 0, 10: 0xFFFFE0FF, 11: 0xFFFFFFFF, 13: 0x300,
        14: 0xFFFFFFFF, 15: 0x400, 16: 0, 31: 0}  # fmt: skip
OTHERS = [
    ("a branch in a delay slot", "j on\nbeq $0, $0, on\non: sync", "K0"),
    ("ERET in a delay slot", "j on\neret\non: sync", "K0"),
    ("ADDI that doesn't fit", "lui $2, 0x7FFF\nori $2, $2, 0xFFFF\naddi $2, $2, 1", "M0"),
    ("a likely branch that isn't taken", "addiu $2, $0, 65\nbnel $0, $0, on\naddiu $2, $2, 1\non: sw $2, 0($1)", "A."),
    ("a store outside all ranges", "lui $2, 0xE000\nsw $2, 0($2)", "F0"),
    ("a half word at an odd address", "lui $2, 0xC000\nsh $2, 1($2)", "F0"),
    ("LWL and LWR at any address", "lui $2, 0xC000\nlwl $3, 1($2)\nlwr $3, 2($2)", "."),
    ("a fetch of the device page", "jr $1\nsync", "G0"),
    ("a fetch behind the memory", "lui $2, 0xC001\njr $2\nsync", "G0"),
    ("a miss", "lw $2, 8($0)", "m"),
    ("a miss of the kernel's", "lui $2, 0xD000\nlw $2, 8($2)", "m"),
    ("a miss with EXL", "addiu $2, $0, 2\nmtc0 $2, $12\nsw $2, 8($0)", "D0"),
    ("Count after it is written", "mtc0 $0, $9\nmfc0 $3, $9\naddiu $3, $3, 48\nsw $3, 0($1)", "1."),
    ("Random, two steps after the start", "mfc0 $3, $1\naddiu $3, $3, 20\nsw $3, 0($1)", "A."),
    ("TLBP that finds none", "mtc0 $0, $10\ntlbp\nmfc0 $3, $0\nsrl $3, $3, 31\naddiu $3, $3, 48\nsw $3, 0($1)", "1."),
    ("TLBR of entry 50", "addiu $2, $0, 50\nmtc0 $2, $0\nmtc0 $1, $10\ntlbr\nmfc0 $3, $10\naddiu $3, $3, 48\nsw $3, 0($1)", "0."),
    ("by 0", "addiu $2, $0, 52\ndiv $2, $0\nmfhi $3\nsw $3, 0($1)\nmflo $3\naddiu $3, $3, 50\nsw $3, 0($1)", "41."),
    ("80000000 by -1", "lui $2, 0x8000\naddiu $3, $0, -1\ndiv $2, $3\nmflo $4\nsrl $4, $4, 28\naddiu $4, $4, 48\nsw $4, 0($1)\n"
     "mfhi $4\naddiu $4, $4, 48\nsw $4, 0($1)", "80."),
    ("SC without LL", "lui $2, 0xC000\nsc $3, 0x1000($2)\naddiu $3, $3, 48\nsw $3, 0($1)", "0."),
    ("SC after an own store", "lui $2, 0xC000\nll $3, 0x1000($2)\nsw $0, 0x1000($2)\nsc $3, 0x1004($2)\naddiu $3, $3, 48\nsw $3, 0($1)", "1."),
    ("SC of another line", "lui $2, 0xC000\nll $3, 0x1000($2)\nsc $3, 0x1020($2)\naddiu $3, $3, 48\nsw $3, 0($1)", "0."),
    ("no page is armed", "lw $3, 0x3C($1)\naddiu $3, $3, 50\nsw $3, 0($1)", "1."),
    ("a page that isn't there is armed", "addiu $2, $0, 16\nsw $2, 0x3C($1)\nlw $3, 0x3C($1)\naddiu $3, $3, 50\nsw $3, 0($1)", "1."),
    ("the last page is armed", "addiu $2, $0, 15\nsw $2, 0x3C($1)\nlw $3, 0x3C($1)\naddiu $3, $3, 50\nsw $3, 0($1)", "A."),
    ("a packet to oneself", "sw $0, 0x3C($1)\nsw $1, 0x34($1)\nsw $0, 0x38($1)\nsync\nlw $3, 0x40($1)\naddiu $3, $3, 48\nsw $3, 0($1)", "0."),
    ("no input", "lw $3, 8($1)\naddiu $3, $3, 50\nsw $3, 0($1)", "1."),
]  # fmt: skip


def rows():
    """Each claim: its name, the program, and what it prints."""
    yield from ((name, f".word {word}", "K0") for name, word in RESERVED.items())
    yield from ((f"{name} with a code", f".word {word}", told) for name, (word, told) in CODES.items())
    for unit, opcodes in ((1, (0x11, 0x31, 0x35, 0x39, 0x3D)), (2, (0x12, 0x32, 0x36, 0x3A, 0x3E))):
        yield from ((f"opcode {opcode:X}", f".word {opcode << 26}", f"L{unit}") for opcode in opcodes)
    yield from ((f"a load at {at:08X}", f"lui $2, {at >> 16}\nori $2, $2, {at & 0xFFFF}\nlw $2, 0($2)", told) for at, told in LOADS.items())
    for name in ("lb", "lbu", "lh", "lhu", "lwl", "lwr", "ll", "sb", "sh", "swl", "swr", "sc"):
        yield f"{name} of the device page", f"{name} $2, 16($1)", "H0"
    for number, kept in KEPT.items():
        letters = "".join(chr(ord("a") + int(digit, 16)) for digit in f"{kept:08x}")
        show = "".join(f"srl $4, $3, {by}\nandi $4, $4, 15\naddiu $4, $4, 97\nsw $4, 0($1)\n" for by in range(28, -1, -4))
        yield f"register {number} of coprocessor 0", f"addiu $2, $0, -1\nmtc0 $2, ${number}\nmfc0 $3, ${number}\n{show}", f"{letters}."
    for command, status in ((0, 3), (3, 3), (1, 1), (2, 1)):
        yield f"disk command {command}", f"addiu $2, $0, {command}\nsw $2, 0x28($1)\nlw $3, 0x2C($1)\naddiu $3, $3, 48\nsw $3, 0($1)", f"{status}."
    yield from OTHERS


def printed(disco, body):
    text = f".org 0xC0000000\n{MISS}\n.org 0xC0000040\nstart: lui $1, 0xCFFF\nori $1, $1, 0xF000\n{body}\naddiu $2, $0, 46\nsw $2, 0($1)\nsw $0, 4($1)\n"
    with tempfile.NamedTemporaryFile("w", suffix=".s") as source:
        source.write(text + TRAP)
        source.flush()
        report = subprocess.run([disco, "--asm", source.name, "--steps", "2000"], stdout=subprocess.PIPE, text=True).stdout
    lines = report.split("\n")
    return lines[1] if len(lines) > 2 and lines[2] == "end halted" else report


def main():
    count = wrong = 0
    for name, body, wanted in rows():
        found = printed(sys.argv[1], body)
        count += 1
        if found != wanted:
            wrong += 1
            print(f"{name}: {found!r} in the place of {wanted!r}")
    print(f"{count} claims, {wrong} of them wrong")
    return 1 if wrong else 0


if __name__ == "__main__":
    sys.exit(main())
