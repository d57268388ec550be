"""What the instructions do.

An instruction's function gets the processor and the decoded word. It raises an exception before it changes anything, and answers where
the processor goes on if that isn't the following word.
"""

from __future__ import annotations

from collections.abc import Callable
from dataclasses import dataclass

from .exceptions import Code, GuestException, coprocessor_unusable
from .processor import Place, VirtualProcessor
from .words import WORD, sign_extended, signed


@dataclass(frozen=True, slots=True)
class Decoded:
    """A word with its fields. The offset is the immediate with its sign extended."""

    name: str
    execute: Execute
    rs: int
    rt: int
    rd: int
    sa: int
    immediate: int
    offset: int
    index: int
    needs_kernel: bool


Execute = Callable[[VirtualProcessor, Decoded], Place | None]


# functions of groups of instructions


def of_registers(operation: Callable[[int, int], int]) -> Execute:
    """rd becomes a function of rs and rt."""

    def execute(cpu: VirtualProcessor, word: Decoded) -> None:
        cpu.write(word.rd, operation(cpu.registers[word.rs], cpu.registers[word.rt]))

    return execute


def of_sign_extended(operation: Callable[[int, int], int]) -> Execute:
    """rt becomes a function of rs and the immediate with its sign."""

    def execute(cpu: VirtualProcessor, word: Decoded) -> None:
        cpu.write(word.rt, operation(cpu.registers[word.rs], word.offset))

    return execute


def of_zero_extended(operation: Callable[[int, int], int]) -> Execute:
    """rt becomes a function of rs and the immediate with zeros."""

    def execute(cpu: VirtualProcessor, word: Decoded) -> None:
        cpu.write(word.rt, operation(cpu.registers[word.rs], word.immediate))

    return execute


def shift(operation: Callable[[int, int], int]) -> Execute:
    """rd becomes rt, shifted by the number in the word."""

    def execute(cpu: VirtualProcessor, word: Decoded) -> None:
        cpu.write(word.rd, operation(cpu.registers[word.rt], word.sa))

    return execute


def shift_variable(operation: Callable[[int, int], int]) -> Execute:
    """rd becomes rt, shifted by the lowest five bits of rs."""

    def execute(cpu: VirtualProcessor, word: Decoded) -> None:
        cpu.write(word.rd, operation(cpu.registers[word.rt], cpu.registers[word.rs] & 0x1F))

    return execute


def hi_lo(operation: Callable[[int, int], tuple[int, int]]) -> Execute:
    """HI and LO become a function of rs and rt."""

    def execute(cpu: VirtualProcessor, word: Decoded) -> None:
        cpu.hi, cpu.lo = operation(cpu.registers[word.rs], cpu.registers[word.rt])

    return execute


def trap(holds: Callable[[int, int], bool]) -> Execute:
    def execute(cpu: VirtualProcessor, word: Decoded) -> None:
        if holds(cpu.registers[word.rs], cpu.registers[word.rt]):
            raise GuestException(Code.TR)

    return execute


def trap_immediate(holds: Callable[[int, int], bool]) -> Execute:
    def execute(cpu: VirtualProcessor, word: Decoded) -> None:
        if holds(cpu.registers[word.rs], word.offset):
            raise GuestException(Code.TR)

    return execute


def branch(holds: Callable[[int, int], bool], likely: bool = False, links: bool = False) -> Execute:
    """A branch by rs and rt, to the delay slot's address and four times the offset. A link is left whether it is taken or not."""

    def execute(cpu: VirtualProcessor, word: Decoded) -> Place:
        taken = holds(cpu.registers[word.rs], cpu.registers[word.rt])
        after = cpu.branch(taken, cpu.pc + 4 + 4 * signed(word.offset), likely)
        if links:
            cpu.link_return()
        return after

    return execute


def branch_by_sign(holds: Callable[[int], bool], likely: bool = False, links: bool = False) -> Execute:
    """A branch by rs alone."""
    return branch(lambda rs, _: holds(signed(rs)), likely, links)


def load(size: int, is_signed: bool) -> Execute:
    def execute(cpu: VirtualProcessor, word: Decoded) -> None:
        value = cpu.load(data_address(cpu, word), size)
        cpu.write(word.rt, sign_extended(value, 8 * size) if is_signed else value)

    return execute


def load_part(merge: Callable[[int, int, int], int]) -> Execute:
    """LWL and LWR: bytes of a word that need not be aligned join those of rt."""

    def execute(cpu: VirtualProcessor, word: Decoded) -> None:
        address = data_address(cpu, word)
        cpu.write(word.rt, merge(cpu.load_word_around(address), cpu.registers[word.rt], address % 4))

    return execute


def store(size: int) -> Execute:
    def execute(cpu: VirtualProcessor, word: Decoded) -> None:
        cpu.store(data_address(cpu, word), size, cpu.registers[word.rt])

    return execute


def exception(code: Code) -> Execute:
    def execute(cpu: VirtualProcessor, word: Decoded) -> None:
        raise GuestException(code)

    return execute


def unusable(unit: int) -> Execute:
    """There is no coprocessor but 0."""

    def execute(cpu: VirtualProcessor, word: Decoded) -> None:
        raise coprocessor_unusable(unit)

    return execute


# single instructions


def data_address(cpu: VirtualProcessor, word: Decoded) -> int:
    return cpu.registers[word.rs] + word.offset & WORD


def lui(cpu: VirtualProcessor, word: Decoded) -> None:
    cpu.write(word.rt, word.immediate << 16)


def jr(cpu: VirtualProcessor, word: Decoded) -> Place:
    return cpu.jump(cpu.registers[word.rs])


def jalr(cpu: VirtualProcessor, word: Decoded) -> Place:
    after = cpu.jump(cpu.registers[word.rs])
    cpu.write(word.rd, cpu.pc + 8)
    return after


def j(cpu: VirtualProcessor, word: Decoded) -> Place:
    """A jump within the 256 MB in which the delay slot lies."""
    return cpu.jump(cpu.pc + 4 & 0xF000_0000 | word.index << 2)


def jal(cpu: VirtualProcessor, word: Decoded) -> Place:
    after = j(cpu, word)
    cpu.link_return()
    return after


def sync(cpu: VirtualProcessor, word: Decoded) -> None:
    """Each step sees all that was stored before it."""


def mfhi(cpu: VirtualProcessor, word: Decoded) -> None:
    cpu.write(word.rd, cpu.hi)


def mflo(cpu: VirtualProcessor, word: Decoded) -> None:
    cpu.write(word.rd, cpu.lo)


def mthi(cpu: VirtualProcessor, word: Decoded) -> None:
    cpu.hi = cpu.registers[word.rs]


def mtlo(cpu: VirtualProcessor, word: Decoded) -> None:
    cpu.lo = cpu.registers[word.rs]


def lw(cpu: VirtualProcessor, word: Decoded) -> None:
    cpu.write(word.rt, cpu.load_word(data_address(cpu, word)))


def ll(cpu: VirtualProcessor, word: Decoded) -> None:
    cpu.write(word.rt, cpu.load_linked(data_address(cpu, word)))


def sw(cpu: VirtualProcessor, word: Decoded) -> None:
    cpu.store_word(data_address(cpu, word), cpu.registers[word.rt])


def swl(cpu: VirtualProcessor, word: Decoded) -> None:
    cpu.store_left(data_address(cpu, word), cpu.registers[word.rt])


def swr(cpu: VirtualProcessor, word: Decoded) -> None:
    cpu.store_right(data_address(cpu, word), cpu.registers[word.rt])


def sc(cpu: VirtualProcessor, word: Decoded) -> None:
    """rt tells whether the word was stored."""
    cpu.write(word.rt, int(cpu.store_conditional(data_address(cpu, word), cpu.registers[word.rt])))


def mfc0(cpu: VirtualProcessor, word: Decoded) -> None:
    cpu.write(word.rt, cpu.coprocessor.read(word.rd))


def mtc0(cpu: VirtualProcessor, word: Decoded) -> None:
    cpu.coprocessor.write(word.rd, cpu.registers[word.rt])


def tlbr(cpu: VirtualProcessor, word: Decoded) -> None:
    cpu.read_tlb(cpu.coprocessor.index & 0x3F)


def tlbwi(cpu: VirtualProcessor, word: Decoded) -> None:
    cpu.write_tlb(cpu.coprocessor.index & 0x3F)


def tlbwr(cpu: VirtualProcessor, word: Decoded) -> None:
    cpu.write_tlb(cpu.coprocessor.random)


def tlbp(cpu: VirtualProcessor, word: Decoded) -> None:
    cpu.probe_tlb()


def eret(cpu: VirtualProcessor, word: Decoded) -> Place:
    return cpu.return_from_exception()
