"""The opcode maps: which instruction a word is, by three of its fields, as the processor's manual has them."""

from __future__ import annotations

from dataclasses import dataclass
from functools import lru_cache

from . import arithmetic
from . import instructions as does
from .exceptions import Code
from .instructions import Decoded, Execute
from .words import WORD, sign_extended

# the fields of a word
RS = 0x1F << 21
RT = 0x1F << 16
RD = 0x1F << 11
SA = 0x1F << 6
IMMEDIATE = 0xFFFF
INDEX = 0x03FF_FFFF
CODE = 0xFFFFF << 6  # of SYSCALL and BREAK
TRAP_CODE = 0x3FF << 6


@dataclass(frozen=True)
class Row:
    """An instruction of a map. All bits that its free fields don't take have to be as its place in the map gives them."""

    name: str
    free: int
    execute: Execute


PRIMARY = {
    0x02: Row("J", INDEX, does.j),
    0x03: Row("JAL", INDEX, does.jal),
    0x04: Row("BEQ", RS | RT | IMMEDIATE, does.branch(arithmetic.equal)),
    0x05: Row("BNE", RS | RT | IMMEDIATE, does.branch(arithmetic.differs)),
    0x06: Row("BLEZ", RS | IMMEDIATE, does.branch_by_sign(lambda rs: rs <= 0)),
    0x07: Row("BGTZ", RS | IMMEDIATE, does.branch_by_sign(lambda rs: rs > 0)),
    0x08: Row("ADDI", RS | RT | IMMEDIATE, does.of_sign_extended(arithmetic.add)),
    0x09: Row("ADDIU", RS | RT | IMMEDIATE, does.of_sign_extended(arithmetic.add_modulo)),
    0x0A: Row("SLTI", RS | RT | IMMEDIATE, does.of_sign_extended(arithmetic.less)),
    0x0B: Row("SLTIU", RS | RT | IMMEDIATE, does.of_sign_extended(arithmetic.less_unsigned)),
    0x0C: Row("ANDI", RS | RT | IMMEDIATE, does.of_zero_extended(arithmetic.and_)),
    0x0D: Row("ORI", RS | RT | IMMEDIATE, does.of_zero_extended(arithmetic.or_)),
    0x0E: Row("XORI", RS | RT | IMMEDIATE, does.of_zero_extended(arithmetic.xor)),
    0x0F: Row("LUI", RT | IMMEDIATE, does.lui),
    0x11: Row("COP1", INDEX, does.unusable(1)),
    0x12: Row("COP2", INDEX, does.unusable(2)),
    0x14: Row("BEQL", RS | RT | IMMEDIATE, does.branch(arithmetic.equal, likely=True)),
    0x15: Row("BNEL", RS | RT | IMMEDIATE, does.branch(arithmetic.differs, likely=True)),
    0x16: Row("BLEZL", RS | IMMEDIATE, does.branch_by_sign(lambda rs: rs <= 0, likely=True)),
    0x17: Row("BGTZL", RS | IMMEDIATE, does.branch_by_sign(lambda rs: rs > 0, likely=True)),
    0x20: Row("LB", RS | RT | IMMEDIATE, does.load(1, is_signed=True)),
    0x21: Row("LH", RS | RT | IMMEDIATE, does.load(2, is_signed=True)),
    0x22: Row("LWL", RS | RT | IMMEDIATE, does.load_part(arithmetic.merge_left)),
    0x23: Row("LW", RS | RT | IMMEDIATE, does.lw),
    0x24: Row("LBU", RS | RT | IMMEDIATE, does.load(1, is_signed=False)),
    0x25: Row("LHU", RS | RT | IMMEDIATE, does.load(2, is_signed=False)),
    0x26: Row("LWR", RS | RT | IMMEDIATE, does.load_part(arithmetic.merge_right)),
    0x28: Row("SB", RS | RT | IMMEDIATE, does.store(1)),
    0x29: Row("SH", RS | RT | IMMEDIATE, does.store(2)),
    0x2A: Row("SWL", RS | RT | IMMEDIATE, does.swl),
    0x2B: Row("SW", RS | RT | IMMEDIATE, does.sw),
    0x2E: Row("SWR", RS | RT | IMMEDIATE, does.swr),
    0x30: Row("LL", RS | RT | IMMEDIATE, does.ll),
    0x31: Row("LWC1", INDEX, does.unusable(1)),
    0x32: Row("LWC2", INDEX, does.unusable(2)),
    0x35: Row("LDC1", INDEX, does.unusable(1)),
    0x36: Row("LDC2", INDEX, does.unusable(2)),
    0x38: Row("SC", RS | RT | IMMEDIATE, does.sc),
    0x39: Row("SWC1", INDEX, does.unusable(1)),
    0x3A: Row("SWC2", INDEX, does.unusable(2)),
    0x3D: Row("SDC1", INDEX, does.unusable(1)),
    0x3E: Row("SDC2", INDEX, does.unusable(2)),
}

SPECIAL = {
    0x00: Row("SLL", RT | RD | SA, does.shift(arithmetic.shift_left)),
    0x02: Row("SRL", RT | RD | SA, does.shift(arithmetic.shift_right)),
    0x03: Row("SRA", RT | RD | SA, does.shift(arithmetic.shift_right_signed)),
    0x04: Row("SLLV", RS | RT | RD, does.shift_variable(arithmetic.shift_left)),
    0x06: Row("SRLV", RS | RT | RD, does.shift_variable(arithmetic.shift_right)),
    0x07: Row("SRAV", RS | RT | RD, does.shift_variable(arithmetic.shift_right_signed)),
    0x08: Row("JR", RS, does.jr),
    0x09: Row("JALR", RS | RD, does.jalr),
    0x0C: Row("SYSCALL", CODE, does.exception(Code.SYS)),
    0x0D: Row("BREAK", CODE, does.exception(Code.BP)),
    0x0F: Row("SYNC", 0, does.sync),
    0x10: Row("MFHI", RD, does.mfhi),
    0x11: Row("MTHI", RS, does.mthi),
    0x12: Row("MFLO", RD, does.mflo),
    0x13: Row("MTLO", RS, does.mtlo),
    0x18: Row("MULT", RS | RT, does.hi_lo(arithmetic.multiply)),
    0x19: Row("MULTU", RS | RT, does.hi_lo(arithmetic.multiply_unsigned)),
    0x1A: Row("DIV", RS | RT, does.hi_lo(arithmetic.divide)),
    0x1B: Row("DIVU", RS | RT, does.hi_lo(arithmetic.divide_unsigned)),
    0x20: Row("ADD", RS | RT | RD, does.of_registers(arithmetic.add)),
    0x21: Row("ADDU", RS | RT | RD, does.of_registers(arithmetic.add_modulo)),
    0x22: Row("SUB", RS | RT | RD, does.of_registers(arithmetic.subtract)),
    0x23: Row("SUBU", RS | RT | RD, does.of_registers(arithmetic.subtract_modulo)),
    0x24: Row("AND", RS | RT | RD, does.of_registers(arithmetic.and_)),
    0x25: Row("OR", RS | RT | RD, does.of_registers(arithmetic.or_)),
    0x26: Row("XOR", RS | RT | RD, does.of_registers(arithmetic.xor)),
    0x27: Row("NOR", RS | RT | RD, does.of_registers(arithmetic.nor)),
    0x2A: Row("SLT", RS | RT | RD, does.of_registers(arithmetic.less)),
    0x2B: Row("SLTU", RS | RT | RD, does.of_registers(arithmetic.less_unsigned)),
    0x30: Row("TGE", RS | RT | TRAP_CODE, does.trap(arithmetic.at_least)),
    0x31: Row("TGEU", RS | RT | TRAP_CODE, does.trap(arithmetic.at_least_unsigned)),
    0x32: Row("TLT", RS | RT | TRAP_CODE, does.trap(arithmetic.less)),
    0x33: Row("TLTU", RS | RT | TRAP_CODE, does.trap(arithmetic.less_unsigned)),
    0x34: Row("TEQ", RS | RT | TRAP_CODE, does.trap(arithmetic.equal)),
    0x36: Row("TNE", RS | RT | TRAP_CODE, does.trap(arithmetic.differs)),
}

REGISTER_IMMEDIATE = {
    0x00: Row("BLTZ", RS | IMMEDIATE, does.branch_by_sign(lambda rs: rs < 0)),
    0x01: Row("BGEZ", RS | IMMEDIATE, does.branch_by_sign(lambda rs: rs >= 0)),
    0x02: Row("BLTZL", RS | IMMEDIATE, does.branch_by_sign(lambda rs: rs < 0, likely=True)),
    0x03: Row("BGEZL", RS | IMMEDIATE, does.branch_by_sign(lambda rs: rs >= 0, likely=True)),
    0x08: Row("TGEI", RS | IMMEDIATE, does.trap_immediate(arithmetic.at_least)),
    0x09: Row("TGEIU", RS | IMMEDIATE, does.trap_immediate(arithmetic.at_least_unsigned)),
    0x0A: Row("TLTI", RS | IMMEDIATE, does.trap_immediate(arithmetic.less)),
    0x0B: Row("TLTIU", RS | IMMEDIATE, does.trap_immediate(arithmetic.less_unsigned)),
    0x0C: Row("TEQI", RS | IMMEDIATE, does.trap_immediate(arithmetic.equal)),
    0x0E: Row("TNEI", RS | IMMEDIATE, does.trap_immediate(arithmetic.differs)),
    0x10: Row("BLTZAL", RS | IMMEDIATE, does.branch_by_sign(lambda rs: rs < 0, links=True)),
    0x11: Row("BGEZAL", RS | IMMEDIATE, does.branch_by_sign(lambda rs: rs >= 0, links=True)),
    0x12: Row("BLTZALL", RS | IMMEDIATE, does.branch_by_sign(lambda rs: rs < 0, likely=True, links=True)),
    0x13: Row("BGEZALL", RS | IMMEDIATE, does.branch_by_sign(lambda rs: rs >= 0, likely=True, links=True)),
}

COPROCESSOR_0_MOVES = {
    0x00: Row("MFC0", RT | RD, does.mfc0),
    0x04: Row("MTC0", RT | RD, does.mtc0),
}

COPROCESSOR_0_OPERATIONS = {
    0x01: Row("TLBR", 0, does.tlbr),
    0x02: Row("TLBWI", 0, does.tlbwi),
    0x06: Row("TLBWR", 0, does.tlbwr),
    0x08: Row("TLBP", 0, does.tlbp),
    0x18: Row("ERET", 0, does.eret),
}

SPECIAL_OPCODE, REGISTER_IMMEDIATE_OPCODE, COPROCESSOR_0_OPCODE = 0x00, 0x01, 0x10
OPERATION = 0x10  # the rs field of a coprocessor's operation

RESERVED = Row("RESERVED", WORD, does.exception(Code.RI))

MAPS = (
    (PRIMARY, 0, 26),
    (SPECIAL, SPECIAL_OPCODE << 26, 0),
    (REGISTER_IMMEDIATE, REGISTER_IMMEDIATE_OPCODE << 26, 16),
    (COPROCESSOR_0_MOVES, COPROCESSOR_0_OPCODE << 26, 21),
    (COPROCESSOR_0_OPERATIONS, COPROCESSOR_0_OPCODE << 26 | OPERATION << 21, 0),
)

# each instruction with its word where all its free fields are 0
ENCODINGS = {row.name: (base | place << shift_by, row) for rows, base, shift_by in MAPS for place, row in rows.items()}


def row_of(word: int) -> Row:
    """The row whose fixed bits a word has."""
    row = place_in_maps(word)
    return row if row is not None and word & ~row.free & WORD == ENCODINGS[row.name][0] else RESERVED


def place_in_maps(word: int) -> Row | None:
    """The row at a word's place, whatever its other bits are."""
    opcode = word >> 26
    if opcode == SPECIAL_OPCODE:
        return SPECIAL.get(word & 0x3F)
    if opcode == REGISTER_IMMEDIATE_OPCODE:
        return REGISTER_IMMEDIATE.get(word >> 16 & 0x1F)
    if opcode != COPROCESSOR_0_OPCODE:
        return PRIMARY.get(opcode)
    operation = word >> 21 & 0x1F
    return COPROCESSOR_0_OPERATIONS.get(word & 0x3F) if operation == OPERATION else COPROCESSOR_0_MOVES.get(operation)


@lru_cache(maxsize=1 << 16)
def decode(word: int) -> Decoded:
    """A word's instruction and fields. All words of coprocessor 0 are for the kernel alone, also those that are reserved."""
    row = row_of(word)
    return Decoded(
        name=row.name,
        execute=row.execute,
        rs=word >> 21 & 0x1F,
        rt=word >> 16 & 0x1F,
        rd=word >> 11 & 0x1F,
        sa=word >> 6 & 0x1F,
        immediate=word & IMMEDIATE,
        offset=sign_extended(word & IMMEDIATE, 16),
        index=word & INDEX,
        needs_kernel=word >> 26 == COPROCESSOR_0_OPCODE,
    )
