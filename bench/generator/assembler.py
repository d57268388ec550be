"""A small assembler: words by an instruction's name and fields, and listings with labels."""

from __future__ import annotations

import re
from dataclasses import dataclass

from reference.opcode_maps import ENCODINGS

KERNEL = 0xC000_0000  # where a guest's memory begins for its kernel

SHIFTS = {"rs": 21, "rt": 16, "rd": 11, "sa": 6, "code": 6, "immediate": 0, "index": 0}
WIDTHS = {"rs": 5, "rt": 5, "rd": 5, "sa": 5, "code": 20, "immediate": 16, "index": 26}

THREE_REGISTERS = ("rd", "rs", "rt")
TWO_REGISTERS_AND_NUMBER = ("rt", "rs", "immediate")
MEMORY = ("rt", "immediate", "rs")
COPROCESSOR = ("rt", "rd")

# the operands of an instruction as a listing has them, in order
OPERANDS = {
    **dict.fromkeys(("ADD", "ADDU", "SUB", "SUBU", "AND", "OR", "XOR", "NOR", "SLT", "SLTU"), THREE_REGISTERS),
    **dict.fromkeys(("ADDI", "ADDIU", "SLTI", "SLTIU", "ANDI", "ORI", "XORI"), TWO_REGISTERS_AND_NUMBER),
    **dict.fromkeys(("SLL", "SRL", "SRA"), ("rd", "rt", "sa")),
    **dict.fromkeys(("LB", "LBU", "LH", "LHU", "LW", "LL", "SB", "SH", "SW", "SC"), MEMORY),
    **dict.fromkeys(("BEQ", "BNE", "BEQL", "BNEL"), ("rs", "rt", "immediate")),
    **dict.fromkeys(("BLEZ", "BGTZ", "BLTZ", "BGEZ"), ("rs", "immediate")),
    **dict.fromkeys(("MFC0", "MTC0"), COPROCESSOR),
    **dict.fromkeys(("MFHI", "MFLO"), ("rd",)),
    **dict.fromkeys(("SYSCALL", "ERET", "TLBR", "TLBWI", "TLBWR", "TLBP", "SYNC"), ()),
    "LUI": ("rt", "immediate"),
    "JR": ("rs",),
    "J": ("index",),
    "JAL": ("index",),
}

COPROCESSOR_REGISTERS = {
    "index": 0,
    "random": 1,
    "entrylo0": 2,
    "entrylo1": 3,
    "context": 4,
    "pagemask": 5,
    "wired": 6,
    "badvaddr": 8,
    "count": 9,
    "entryhi": 10,
    "compare": 11,
    "status": 12,
    "cause": 13,
    "epc": 14,
    "prid": 15,
}
REGISTERS = {
    "zero": 0,
    "k0": 26,
    "k1": 27,
    "ra": 31,
    **{f"r{number}": number for number in range(32)},
    **COPROCESSOR_REGISTERS,
}

NOP = 0


def encode(name: str, **fields: int) -> int:
    """The word of an instruction with these fields; the others are 0."""
    word = ENCODINGS[name][0]
    for field, value in fields.items():
        word |= (value & (1 << WIDTHS[field]) - 1) << SHIFTS[field]
    return word


def constant(register: int, value: int) -> list[int]:
    """Two words that put a value into a register."""
    return [encode("LUI", rt=register, immediate=value >> 16), encode("ORI", rt=register, rs=register, immediate=value)]


@dataclass(frozen=True)
class Reference:
    """A label that a word names before its place is known."""

    place: int
    field: str
    label: str


class Assembler:
    """Words one after the other, from an address on."""

    def __init__(self, address: int) -> None:
        self.begin = address
        self.words: list[int] = []
        self.labels: dict[str, int] = {}
        self.references: list[Reference] = []

    @property
    def here(self) -> int:
        """The address of the next word."""
        return self.begin + 4 * len(self.words)

    def add(self, *words: int) -> None:
        self.words += words

    def op(self, name: str, **fields: int) -> None:
        self.add(encode(name, **fields))

    def constant(self, register: int, value: int) -> None:
        self.add(*constant(register, value))

    def label(self, name: str) -> None:
        self.labels[name] = self.here

    def address(self, register: int, label: str) -> None:
        """Two words that put a label's address into a register."""
        for name, field in (("LUI", "high"), ("ORI", "low")):
            self.references.append(Reference(len(self.words), field, label))
            self.op(name, rt=register, rs=register if name == "ORI" else 0)

    def listing(self, text: str) -> None:
        """A line is a label with a colon, or an instruction with its operands; what comes after a # is a note."""
        for line in text.splitlines():
            statement = line.partition("#")[0].strip()
            if statement.endswith(":"):
                self.label(statement[:-1])
            elif statement == "nop":
                self.add(NOP)
            elif statement:
                self.statement(*re.split(r"[\s,()]+", statement.rstrip(")")))

    def statement(self, name: str, *operands: str) -> None:
        fields = {}
        for field, operand in zip(OPERANDS[name.upper()], operands, strict=True):
            if operand in REGISTERS:
                fields[field] = REGISTERS[operand]
            elif operand[0].isdigit() or operand[0] == "-":
                fields[field] = int(operand, 0)
            else:
                self.references.append(Reference(len(self.words), field, operand))
        self.op(name.upper(), **fields)

    def finished(self) -> list[int]:
        """The words, with each label in its place."""
        for reference in self.references:
            target = self.labels[reference.label]
            here = self.begin + 4 * reference.place
            value, field = {
                "immediate": ((target - here - 4) // 4, "immediate"),
                "index": (target // 4, "index"),
                "high": (target >> 16, "immediate"),
                "low": (target, "immediate"),
            }[reference.field]
            self.words[reference.place] |= (value & (1 << WIDTHS[field]) - 1) << SHIFTS[field]
        return self.words
