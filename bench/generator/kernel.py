"""The kernel of a random guest: its start, its handlers, and what it prints in the end.

Memory is laid out like this, in pages of 4096 bytes:

    0, 1    the handlers, a few words that they keep, and the program
    2 to 5  data, and the page table of guests that have one
    6, 7    what comes from the disk or in packets
    others  for sweeps

The program uses registers 1 to 15 freely, 21 and 28 within a piece. Register 16 has the device page's address, 17 a sum of all that was
computed, 18 to 20 and 22 lead to data by the direct segment, a user's page, a kernel's page and the device page's user mapping, 23 counts
loops, 24 and 25 are the marks that a refill gives to pages, 29 leads from the kernel's addresses of code to the user's, and 30 is where to
go on after a program counter that leads nowhere.
The handlers use registers 26 and 27 alone.
"""

from __future__ import annotations

from dataclasses import dataclass

from .assembler import KERNEL, Assembler

HANDLERS_END = 0x3F0
EXCEPTIONS_LEFT, REFILLS_LEFT, LAST_WORDS, PASSES_LEFT = 0x3F0, 0x3F4, 0x3F8, 0x3FC  # the words that the kernel keeps
PROGRAM = 0x400
DEVICE = 0xCFFF_F000
USER_CODE = 0x0040_0000  # pages 0 and 1 for user code
USER_DATA = 0x0040_2000
USER_DEVICE = 0x0060_0000
KERNEL_DATA = 0xD000_2000
DATA = KERNEL + 0x2000
PAGE_TABLE_ENTRIES = 256  # one page of them


@dataclass(frozen=True)
class Handlers:
    """How a guest's handlers differ from another's."""

    by_page_table: bool  # refills come from a table in memory
    period: int  # of the timer
    has_register_page: bool = False


def refill_by_rule() -> str:
    """An address's pair lies on pages 2 and 3, or 4 and 5."""
    return """
        mfc0  k0, badvaddr
        srl   k0, k0, 13
        andi  k0, k0, 1
        sll   k0, k0, 7
        addiu k0, k0, 0x80
        or    k1, k0, r25
        mtc0  k1, entrylo0
        addiu k0, k0, 0x40
        or    k1, k0, r24
        mtc0  k1, entrylo1
        tlbwr
        eret
    """


def refill_by_page_table() -> str:
    """Context points to the entry in the table. Where no table is, that is an exception within the refill."""
    return """
        mfc0  k0, context
        lw    k1, 0(k0)
        mtc0  k1, entrylo0
        lw    k1, 4(k0)
        mtc0  k1, entrylo1
        tlbwr
        eret
    """


def refill_on_register_page() -> str:
    """The same from the table, by loads and stores of the register page."""
    return """
        lui   k1, 0xCFFF
        ori   k1, k1, 0xE000
        lw    k0, 0x10(k1)        # Context
        lw    k0, 0(k0)
        sw    k0, 0x08(k1)        # EntryLo0
        lw    k0, 0x10(k1)
        lw    k0, 4(k0)
        sw    k0, 0x0C(k1)        # EntryLo1
        tlbwr
        eret
    """


def refill_body(handlers: Handlers) -> str:
    if not handlers.by_page_table:
        return refill_by_rule()
    return refill_on_register_page() if handlers.has_register_page else refill_by_page_table()


def refill_vector(handlers: Handlers) -> str:
    """A raw image is entered here too, with no exception being handled. A guest with too many refills gives up."""
    return f"""
        mfc0  k0, status
        andi  k0, k0, 2
        beq   k0, zero, program
        lui   k0, 0xC000
        lw    k1, {REFILLS_LEFT}(k0)
        addiu k1, k1, -1
        blez  k1, give_up
        sw    k1, {REFILLS_LEFT}(k0)
        {refill_body(handlers)}
    """


def general_vector(handlers: Handlers) -> str:
    """Each exception is printed. What it stopped at is skipped, or the program goes on at its next block."""
    return f"""
        lui   k1, 0xCFFF
        ori   k1, k1, 0xF000
        mfc0  k0, cause
        srl   k0, k0, 2
        andi  k0, k0, 0x1F
        addiu k0, k0, 0x40
        sw    k0, 0(k1)           # the code, as a letter from @ on
        lui   k0, 0xC000
        lw    k1, {EXCEPTIONS_LEFT}(k0)
        addiu k1, k1, -1
        sw    k1, {EXCEPTIONS_LEFT}(k0)
        bgtz  k1, which
        nop
    give_up:
        lui   k0, 0xC000
        lw    k0, {LAST_WORDS}(k0)
        mtc0  k0, epc
        addiu k0, zero, 2
        mtc0  k0, status
        eret
    which:
        lui   k1, 0xCFFF
        ori   k1, k1, 0xF000
        mfc0  k0, cause
        andi  k0, k0, 0x7C
        bne   k0, zero, no_interrupt
        nop
        mfc0  k0, cause
        srl   k0, k0, 8
        sw    k0, 0(k1)           # which interrupts
        mtc0  zero, cause
        mfc0  k0, count
        addiu k0, k0, {handlers.period}
        mtc0  k0, compare
        sw    zero, 0x1C(k1)
        lw    k0, 0x08(k1)
        sw    k0, 0(k1)           # an input byte
        lw    k0, 0x40(k1)
        sw    k0, 0(k1)           # the last packet's length and sender
        lw    k0, 0x44(k1)
        sw    k0, 0(k1)
        sw    zero, 0x48(k1)
        eret
    no_interrupt:
        addiu k0, k0, -0x18
        beq   k0, zero, next_block   # no memory to fetch from
        addiu k0, k0, -8
        bne   k0, zero, no_call
        nop
        mfc0  k0, status
        andi  k0, k0, 0x18
        beq   k0, zero, skip      # a call by the kernel itself
        nop
    next_block:
        mtc0  r30, epc
        mfc0  k0, status
        andi  k0, k0, 0xFF03
        mtc0  k0, status
        eret
    no_call:
        mfc0  k0, badvaddr
        sw    k0, 0(k1)
        mfc0  k1, epc
        beq   k0, k1, next_block  # the fetch itself
        nop
    skip:
        lui   k1, 0xCFFF
        ori   k1, k1, 0xF000
        mfc0  k0, epc
        sw    k0, 0(k1)
        srl   k0, k0, 8
        sw    k0, 0(k1)
        mfc0  k0, cause
        sra   k0, k0, 31
        andi  k0, k0, 4           # behind the delay slot
        mfc0  k1, epc
        addu  k0, k0, k1
        addiu k0, k0, 4
        mtc0  k0, epc
        eret
    """


def print_word(register: int) -> str:
    """Prints the four bytes of a register, which is 0 afterwards."""
    return f"""
        sw    r{register}, 0(r16)
        srl   r{register}, r{register}, 8
    """ * 4


def print_registers() -> str:
    """All registers but those that the handlers use."""
    names = [number for number in range(1, 32) if number not in (16, 26, 27)]
    return "".join(print_word(number) for number in names) + "".join(
        f"{move} r1\n" + print_word(1) for move in ("mfhi", "mflo")
    )


def print_coprocessor() -> str:
    """The registers of coprocessor 0."""
    return "".join(f"mfc0 r1, r{number}\n" + print_word(1) for number in (0, 1, 2, 3, 4, 6, 8, 9, 10, 11, 12, 13, 14))


def add_to_sum(register: int) -> str:
    """Register 17 is rotated by five bits and gets this one added, so that order counts."""
    return f"""
        addu  r17, r17, r{register}
        sll   r28, r17, 5
        srl   r17, r17, 27
        or    r17, r17, r28
    """


def sum_of_tlb() -> str:
    """Each entry of the TLB."""
    return f"""
        addiu r2, zero, 48
    next_entry:
        addiu r2, r2, -1
        mtc0  r2, index
        tlbr
        mfc0  r3, entryhi
        {add_to_sum(3)}
        mfc0  r3, entrylo0
        {add_to_sum(3)}
        mfc0  r3, entrylo1
        {add_to_sum(3)}
        bgtz  r2, next_entry
        nop
    """


def sum_of_memory() -> str:
    """The words in the middle of each page of data and of each buffer, where most stores go."""
    return f"""
        lui   r2, 0xC000
        ori   r2, r2, 0x27C0
        lui   r3, 0xC000
        ori   r3, r3, 0x8000
    next_page:
        addiu r4, zero, 32
    next_word:
        lw    r5, 0(r2)
        {add_to_sum(5)}
        addiu r4, r4, -1
        bgtz  r4, next_word
        addiu r2, r2, 4
        addiu r2, r2, 0xF80
        sltu  r5, r2, r3
        bne   r5, zero, next_page
        nop
    """


def next_pass() -> str:
    """The program begins again, with what its registers hold now."""
    return f"""
        lui   r21, 0xC000
        lw    r28, {PASSES_LEFT}(r21)
        addiu r28, r28, -1
        bltz  r28, last_block
        sw    r28, {PASSES_LEFT}(r21)
        j     first_block
        nop
    """


def last_words() -> str:
    """What a virtual processor prints before it halts."""
    return f"""
    last_block:
        syscall                   # in case that it is user code by now
    last_words:
        mtc0  zero, status
        lui   r16, 0xCFFF
        ori   r16, r16, 0xF000
        {print_registers()}
        {print_coprocessor()}
        {sum_of_tlb()}
        {sum_of_memory()}
        {print_word(17)}
        sw    zero, 4(r16)
    halted:
        j     halted
        nop
    """


def put_handlers(code: Assembler, handlers: Handlers) -> None:
    """The two vectors, from the beginning of memory to where the words begin that they keep."""
    code.listing(refill_vector(handlers))
    fill_up_to(code, KERNEL + 0x180)
    code.listing(general_vector(handlers))
    fill_up_to(code, KERNEL + HANDLERS_END)


def fill_up_to(code: Assembler, address: int) -> None:
    if code.here > address:
        raise ValueError("no room")
    code.add(*[0] * ((address - code.here) // 4))
