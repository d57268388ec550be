"""Pieces of random programs that compute, branch and reach memory."""

from __future__ import annotations

from collections.abc import Callable
from dataclasses import dataclass
from random import Random

from reference.opcode_maps import ENCODINGS

from . import operands
from .assembler import KERNEL, NOP, Assembler, encode
from .kernel import add_to_sum

COUNTER, SCRATCH = 23, 21
DEVICE_BASE, USER_DEVICE_BASE = 16, 22
DATA_BASES = (18, 18, 19, 19, 20, 20)

SIZES = {
    **dict.fromkeys(("LB", "LBU", "SB", "LWL", "LWR", "SWL", "SWR"), 1),
    **dict.fromkeys(("LH", "LHU", "SH"), 2),
    **dict.fromkeys(("LW", "SW", "LL", "SC"), 4),
}
LOADS = ("LB", "LBU", "LH", "LHU", "LW", "LWL", "LWR", "LL")
STORES = ("SB", "SH", "SW", "SWL", "SWR", "SC")

TO_RD = ("ADD", "ADDU", "SUB", "SUBU", "AND", "OR", "XOR", "NOR", "SLT", "SLTU", "SLLV", "SRLV", "SRAV")
SHIFTS = ("SLL", "SRL", "SRA")
TO_RT = ("ADDI", "ADDIU", "SLTI", "SLTIU", "ANDI", "ORI", "XORI")
PRODUCTS = ("MULT", "MULTU", "DIV", "DIVU")
TRAPS = ("TGE", "TGEU", "TLT", "TLTU", "TEQ", "TNE")
TRAPS_IMMEDIATE = ("TGEI", "TGEIU", "TLTI", "TLTIU", "TEQI", "TNEI")
BRANCHES_OF_TWO = ("BEQ", "BNE", "BEQL", "BNEL")
BRANCHES_OF_ONE = (
    *("BLEZ", "BGTZ", "BLEZL", "BGTZL", "BLTZ", "BGEZ", "BLTZL", "BGEZL"),
    *("BLTZAL", "BGEZAL", "BLTZALL", "BGEZALL"),
)
COPROCESSORS = ("COP1", "COP2", "LWC1", "LWC2", "LDC1", "LDC2", "SWC1", "SWC2", "SDC1", "SDC2")


@dataclass
class Context:
    """What a piece is made for: the program so far, the guest's pages, and whom it may send to."""

    code: Assembler
    random: Random
    pages: int
    receivers: tuple[int, ...]
    view: int = 0  # what is added to a kernel's address of the code to get the one at which it runs
    labels: int = 0

    def new_label(self) -> str:
        self.labels += 1
        return f"label {self.labels}"

    def here(self) -> int:
        return self.code.here + self.view


# single words


def arithmetic(random: Random) -> int:
    """An instruction that computes, with its result in a register."""
    kind = random.randrange(10)
    if kind < 4:
        registers = {"rs": operands.source(random), "rt": operands.source(random)}
        return encode(random.choice(TO_RD), rd=operands.destination(random), **registers)
    if kind < 7:
        registers = {"rs": operands.source(random), "rt": operands.destination(random)}
        return encode(random.choice(TO_RT), immediate=operands.immediate(random), **registers)
    if kind < 9:
        registers = {"rt": operands.source(random), "rd": operands.destination(random)}
        return encode(random.choice(SHIFTS), sa=random.choice((0, 1, 31, random.randrange(32))), **registers)
    return encode("LUI", rt=operands.destination(random), immediate=operands.immediate(random))


def hi_lo(random: Random) -> int:
    """An instruction on HI and LO."""
    name = random.choice((*PRODUCTS, *PRODUCTS, "MFHI", "MFLO", "MTHI", "MTLO"))
    if name in PRODUCTS:
        return encode(name, rs=operands.source(random), rt=operands.source(random))
    if name in ("MFHI", "MFLO"):
        return encode(name, rd=operands.destination(random))
    return encode(name, rs=operands.source(random))


def trap(random: Random) -> int:
    if random.random() < 0.5:
        registers = {"rs": operands.source(random), "rt": operands.source(random)}
        return encode(random.choice(TRAPS), code=random.getrandbits(10), **registers)
    return encode(random.choice(TRAPS_IMMEDIATE), rs=operands.source(random), immediate=operands.immediate(random))


def call_kernel(random: Random) -> int:
    return encode(random.choice(("SYSCALL", "BREAK")), code=random.getrandbits(20))


def memory_access(random: Random) -> int:
    """A load or a store of data, seldom unaligned, and seldom far from the middle of its page."""
    name = random.choice(LOADS + STORES)
    offset = random.randrange(-64, 64) if random.random() < 0.85 else random.choice((-0x1000, -0x804, -0x800, 0x7FC, 0x800, 0x1000))
    if random.random() < 0.85:
        offset -= offset % SIZES[name]
    register = operands.source(random) if name in STORES and name != "SC" else operands.destination(random)
    return encode(name, rs=random.choice(DATA_BASES), rt=register, immediate=offset)


def device_access(random: Random) -> int:
    """Mostly LW and SW of registers that are there. A halt and a printed byte are left to others."""
    name = random.choice(("LW", "LW", "SW")) if random.random() < 0.85 else random.choice(LOADS + STORES)
    offset = random.choice(range(8, 0x4C, 4)) if random.random() < 0.75 else random.choice((0x4C, 0x4C, 0x50, 0xFFC, 9, 0x0A))
    register = operands.destination(random) if name in LOADS else operands.source(random)
    return encode(name, rs=random.choice((DEVICE_BASE, DEVICE_BASE, USER_DEVICE_BASE)), rt=register, immediate=offset)


def move_from_coprocessor(random: Random) -> int:
    return encode("MFC0", rt=operands.destination(random), rd=random.choice((*range(16), random.randrange(32))))


def coprocessor_that_is_not_there(random: Random) -> int:
    return encode(random.choice(COPROCESSORS), index=random.getrandbits(26))


def near_reserved(random: Random) -> int:
    """An instruction with one bit wrong that has to be as it is, or any word."""
    if random.random() < 0.3:
        return random.getrandbits(32)
    base, row = random.choice(list(ENCODINGS.values()))
    fixed = [bit for bit in range(32) if not row.free >> bit & 1]
    return (base | random.getrandbits(32) & row.free) ^ 1 << random.choice(fixed)


def any_legal(random: Random) -> int:
    """Any instruction of the table but jumps to anywhere, with any fields."""
    name = random.choice([name for name in ENCODINGS if name not in ("J", "JAL", "JR", "JALR", "ERET")])
    base, row = ENCODINGS[name]
    return base | random.getrandbits(32) & row.free


WORDS = (
    *(arithmetic,) * 10,
    *(hi_lo,) * 3,
    *(memory_access,) * 6,
    device_access,
    trap,
    move_from_coprocessor,
)


def any_word(random: Random) -> int:
    """A word that is safe wherever it stands."""
    return random.choice(WORDS)(random)


def slot_word(random: Random) -> int:
    """What stands in a delay slot: anything, and sometimes what mustn't."""
    chance = random.random()
    if chance < 0.75:
        return any_word(random)
    if chance < 0.85:
        return call_kernel(random)
    if chance < 0.95:
        return encode(random.choice(BRANCHES_OF_TWO), rs=operands.source(random), rt=operands.source(random), immediate=2)
    return random.choice((encode("ERET"), encode("J", index=0x100), encode("JR", rs=31), encode("TLBP"), near_reserved(random)))


# pieces


def words(context: Context) -> None:
    for _ in range(context.random.randrange(1, 5)):
        context.code.add(any_word(context.random))


def fresh_operands(context: Context) -> None:
    """Two values near an edge, what instructions make of them, and the results in the sum."""
    left, right = context.random.sample(operands.FREE_REGISTERS, 2)
    context.code.constant(left, operands.value(context.random))
    context.code.constant(right, operands.value(context.random))
    for _ in range(context.random.randrange(1, 5)):
        result = context.random.choice(operands.FREE_REGISTERS)
        context.code.add(*computation(context.random, left, right, result))
        context.code.listing(add_to_sum(result))


def computation(random: Random, left: int, right: int, result: int) -> list[int]:
    """A register from two others, or from one and a number."""
    match random.choice(("sum", "two", "two", "number", "product", "trap")):
        case "sum":
            return [encode(random.choice(("ADD", "SUB")), rd=result, rs=left, rt=right)]
        case "two":
            return [encode(random.choice(TO_RD), rd=result, rs=left, rt=right)]
        case "number":
            return [encode(random.choice(TO_RT), rt=result, rs=left, immediate=operands.immediate(random))]
        case "product":
            return [encode(random.choice(PRODUCTS), rs=left, rt=right), encode(random.choice(("MFHI", "MFLO")), rd=result)]
    return [encode(random.choice(TRAPS), rs=left, rt=right)]


def sum_up(context: Context) -> None:
    """Registers join the sum, so that what they hold now counts."""
    for register in context.random.sample(operands.FREE_REGISTERS, 4):
        context.code.listing(add_to_sum(register))


def edge_access(context: Context) -> None:
    """An access on either side of where a range begins or ends."""
    name = context.random.choice(LOADS + STORES)
    context.code.constant(SCRATCH, operands.address(context.random, context.pages))
    context.code.op(name, rs=SCRATCH, rt=operands.destination(context.random), immediate=context.random.choice((0, 0, 0, 4, -4, 1)))


def unaligned_word(context: Context) -> None:
    """The pair of instructions by which a word is moved that isn't aligned, at the end of a page too."""
    base = context.random.choice(DATA_BASES)
    offset = context.random.choice((context.random.randrange(-32, 32), 0x7FD, 0x7FE, 0x7FF, -0x803, -0x801))
    register = context.random.choice(operands.FREE_REGISTERS)
    names = context.random.choice((("LWL", "LWR"), ("SWL", "SWR")))
    for name, further in zip(names, (0, 3), strict=True):
        context.code.op(name, rs=base, rt=register, immediate=offset + further)
    context.code.listing(add_to_sum(register))


def linked_update(context: Context) -> None:
    """A linked load and a conditional store, of its line or another, with something in between or not."""
    base = context.random.choice(DATA_BASES)
    offset = 4 * context.random.randrange(16)
    register = context.random.choice(operands.FREE_REGISTERS)
    context.code.op("LL", rs=base, rt=register, immediate=offset)
    for _ in range(context.random.choice((0, 1, 1, 2, 8))):
        context.code.add(any_word(context.random))
    stored = context.random.choice(operands.FREE_REGISTERS)
    other = context.random.choice((offset, offset, offset ^ 4, offset + 32))
    context.code.op("SC", rs=base, rt=stored, immediate=other)
    context.code.listing(add_to_sum(stored))


def loads_and_unmade_stores(context: Context) -> None:
    """Conditional stores without a link, and loads, of a line of the code that is seldom written."""
    context.code.constant(15, KERNEL + 0x1000)
    for _ in range(context.random.randrange(2, 7)):
        context.code.op(context.random.choice(("LW", "LBU", "SC")), rs=15, rt=14, immediate=4 * context.random.randrange(8))
        context.code.listing(add_to_sum(14))


def locked_counter(context: Context) -> None:
    """Adds to a word that all virtual processors count in."""
    context.code.constant(COUNTER, context.random.randrange(2, 12))
    again = context.new_label()
    context.code.label(again)
    context.code.op("LL", rs=18, rt=14, immediate=0x40)
    context.code.op("ADDIU", rs=14, rt=14, immediate=1)
    context.code.op("SC", rs=18, rt=14, immediate=0x40)
    context.code.listing(add_to_sum(14))
    count_down(context, again)


def count_down(context: Context, again: str) -> None:
    """The end of a loop."""
    context.code.op("ADDIU", rt=COUNTER, rs=COUNTER, immediate=-1)
    context.code.statement("BGTZ", f"r{COUNTER}", again)
    context.code.add(any_word(context.random))


def loop(context: Context) -> None:
    """A few words, a few times."""
    context.code.op("ADDIU", rt=COUNTER, immediate=context.random.randrange(1, 9))
    again = context.new_label()
    context.code.label(again)
    for _ in range(context.random.randrange(1, 6)):
        context.code.add(any_word(context.random))
    count_down(context, again)


def conditional_branch(context: Context) -> None:
    """A branch over a few words."""
    over = context.random.randrange(1, 6)
    if context.random.random() < 0.4:
        registers = {"rs": operands.source(context.random), "rt": operands.source(context.random)}
        context.code.op(context.random.choice(BRANCHES_OF_TWO), immediate=over, **registers)
    else:
        rs = context.random.choice((operands.source(context.random), 0, 31))
        context.code.op(context.random.choice(BRANCHES_OF_ONE), rs=rs, immediate=over)
    put_slot_and_skipped(context, over)


def jump(context: Context) -> None:
    """A jump over a few words, by a register or not."""
    over = context.random.randrange(1, 6)
    name = context.random.choice(("J", "JAL", "JR", "JALR"))
    register = context.random.choice(operands.FREE_REGISTERS)
    if name in ("JR", "JALR"):
        context.code.constant(register, context.here() + 4 * (3 + over) + context.random.choice((0,) * 12 + (1, 2)))
    if name == "JR":
        context.code.op(name, rs=register)
    elif name == "JALR":
        context.code.op(name, rs=register, rd=context.random.choice((31, register, 0, operands.destination(context.random))))
    else:
        context.code.op(name, index=(context.here() + 4 * (1 + over)) // 4)
    put_slot_and_skipped(context, over)


def put_slot_and_skipped(context: Context, over: int) -> None:
    """The delay slot and the words up to the target."""
    context.code.add(slot_word(context.random))
    for _ in range(over - 1):
        context.code.add(any_word(context.random))


def jump_over_an_end(context: Context) -> None:
    """A jump at the end of 256 MB, with its delay slot and its target in the next. The code is put where a refill leads."""
    end = 0x1000_0000
    context.code.constant(28, KERNEL + 0x5000)
    put_word(context, encode("J", index=(end + 0x10) // 4), 0xFFC)
    context.code.constant(28, KERNEL + 0x2000)
    put_word(context, NOP, 0)
    put_word(context, encode("JR", rs=30), 0x10)
    put_word(context, NOP, 0x14)
    context.code.constant(SCRATCH, end - 4)
    context.code.op("JR", rs=SCRATCH)
    context.code.add(NOP)


def put_word(context: Context, word: int, offset: int) -> None:
    """Stores a word behind the address in register 28."""
    context.code.constant(SCRATCH, word)
    context.code.op("SW", rs=28, rt=SCRATCH, immediate=offset)


def exceptions(context: Context) -> None:
    makers: tuple[Callable[[Random], int], ...] = (trap, trap, call_kernel, coprocessor_that_is_not_there, near_reserved, any_legal)
    context.code.add(context.random.choice(makers)(context.random))


def reserved_words(context: Context) -> None:
    """Words that aren't quite instructions."""
    for _ in range(context.random.randrange(1, 6)):
        context.code.add(near_reserved(context.random))


def changed_code(context: Context) -> None:
    """A word of the program is stored right before it is reached."""
    target = context.code.here + 4 * 6  # in the direct segment, wherever the program runs
    context.code.constant(SCRATCH, arithmetic(context.random))
    context.code.constant(28, target)
    context.code.op("SW", rs=28, rt=SCRATCH)
    context.code.add(any_word(context.random), NOP)
