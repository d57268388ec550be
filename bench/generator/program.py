"""A random guest's memory: its kernel, its program and its data."""

from __future__ import annotations

from collections.abc import Callable
from dataclasses import dataclass
from random import Random

from . import operands, pieces, sharing_pieces, system_pieces
from .assembler import KERNEL, Assembler, encode
from .kernel import EXCEPTIONS_LEFT, HANDLERS_END, LAST_WORDS, PAGE_TABLE_ENTRIES, PASSES_LEFT, PROGRAM, REFILLS_LEFT
from .kernel import Handlers, last_words, next_pass, put_handlers
from .pieces import Context

CODE_END = 0x2000
LAST_WORDS_ROOM = 0x700  # for what is printed in the end
BLOCK_ROOM = 0x300  # no block of the program is longer
TABLE_END = CODE_END + 16 * PAGE_TABLE_ENTRIES
BUFFERS_BEGIN = 0x6000
BUFFERS_END = 0x8000

Piece = Callable[[Context], None]
Weighted = tuple[tuple[int, Piece], ...]  # each with how often it is to come among the others

PIECES: Weighted = (
    (12, pieces.words),
    (8, pieces.fresh_operands),
    (4, pieces.sum_up),
    (5, pieces.edge_access),
    (4, pieces.unaligned_word),
    (5, pieces.linked_update),
    (2, pieces.locked_counter),
    (3, pieces.loads_and_unmade_stores),
    (4, pieces.loop),
    (8, pieces.conditional_branch),
    (5, pieces.jump),
    (1, pieces.jump_over_an_end),
    (6, pieces.exceptions),
    (3, pieces.reserved_words),
    (2, pieces.changed_code),
    (4, system_pieces.coprocessor),
    (1, system_pieces.any_coprocessor_register),
    (7, system_pieces.tlb),
    (4, system_pieces.marks),
    (2, system_pieces.status),
    (3, system_pieces.timer),
    (6, system_pieces.user_code),
    (2, system_pieces.kernel_in_mapped_code),
    (2, system_pieces.registers_of_devices),
    (2, system_pieces.printing),
    (1, system_pieces.call_in_kernel),
    (2, system_pieces.restored_bases),
)
WITH_PROCESSORS: Weighted = ((6, system_pieces.processor_interrupt), (6, pieces.locked_counter))
WITH_DISK: Weighted = (
    (12, system_pieces.disk),
    (4, system_pieces.disk_and_link),
    (2, system_pieces.code_from_disk),
)
WITHOUT_DISK: Weighted = ((1, system_pieces.disk),)
WITH_PACKETS: Weighted = (
    (8, system_pieces.send),
    (8, system_pieces.arm),
    (3, system_pieces.many_sends),
    (3, system_pieces.many_receipts),
)
WITHOUT_PACKETS: Weighted = ((1, system_pieces.send), (1, system_pieces.arm))
WITH_SHARING: Weighted = ((16, sharing_pieces.blocks),)
WITH_WHOLE_PAGES: Weighted = (
    (2, system_pieces.send),
    (4, system_pieces.arm),
    (1, system_pieces.many_sends),
    (8, system_pieces.many_receipts),
    (12, sharing_pieces.whole_pages),
    (24, sharing_pieces.armed_page),
)
WITH_MANY_PAGES: Weighted = ((8, system_pieces.sweep),)
WITH_REGISTER_PAGE: Weighted = ((12, system_pieces.register_page),)
WITHOUT_REGISTER_PAGE: Weighted = ((1, system_pieces.register_page),)


@dataclass(frozen=True)
class Traits:
    """What a guest is."""

    pages: int
    processors: int
    has_disk: bool
    has_packets: bool
    receivers: tuple[int, ...]  # whom it may send to
    shares: bool = False  # does most with few blocks and pages that others have too
    profile: int = 1

    def pieces(self) -> list[Piece]:
        """The pieces that make sense for it, each as often as it is to come."""
        rows = [
            *PIECES,
            *(WITH_PROCESSORS if self.processors > 1 else ()),
            *(WITH_DISK if self.has_disk else WITHOUT_DISK),
            *self.packet_pieces(),
            *(WITH_MANY_PAGES if self.pages > 48 else ()),
            *(WITH_SHARING if self.shares else ()),
            *(WITH_REGISTER_PAGE if self.profile == 2 else WITHOUT_REGISTER_PAGE),
        ]
        return [piece for weight, piece in rows for _ in range(weight)]

    def packet_pieces(self) -> Weighted:
        if not self.has_packets:
            return WITHOUT_PACKETS
        return WITH_WHOLE_PAGES if self.shares else WITH_PACKETS


def image(random: Random, traits: Traits) -> bytes:
    """The memory of a guest of these traits, whose kernel begins at the first word and whose program at its own."""
    handlers = Handlers(
        by_page_table=random.random() < 0.3,
        period=random.choice((60, 70, 100, 250, 1000)),
        has_register_page=traits.profile == 2,
    )
    code = Assembler(KERNEL)
    put_handlers(code, handlers)
    code.add(*kept_words(random, traits))
    code.label("program")
    put_program(Context(code, random, traits.pages, traits.receivers), traits)
    code.listing(next_pass())
    code.listing(last_words())
    words = code.finished()
    words[LAST_WORDS // 4] = code.labels["last_words"]
    memory = bytearray(as_bytes(words))
    if len(memory) > CODE_END:
        raise ValueError("the program is too long")
    memory += bytes(CODE_END - len(memory))
    memory += page_table(random) if handlers.by_page_table else data(random, CODE_END, TABLE_END)
    memory += data(random, TABLE_END, BUFFERS_BEGIN)
    memory += bytes(BUFFERS_END - BUFFERS_BEGIN)
    for _ in range(BUFFERS_END // 4096, traits.pages):
        memory += further_page(random)
    return bytes(memory)


def kept_words(random: Random, traits: Traits) -> list[int]:
    """The words that the kernel keeps. Where the program's last words stand comes later."""
    words = dict.fromkeys(range(HANDLERS_END, PROGRAM, 4), 0)
    words[EXCEPTIONS_LEFT] = traits.processors * random.choice((30, 150, 300))
    words[REFILLS_LEFT] = traits.processors * 300
    words[PASSES_LEFT] = traits.processors * random.choice((0, 1, 3, 6))
    return list(words.values())


def put_program(context: Context, traits: Traits) -> None:
    """The start, and then blocks of pieces until the place is used up. The virtual processors begin at different blocks."""
    code, random = context.code, context.random
    put_start(context)
    makers = traits.pieces()
    starts = put_dispatch(context, traits)
    number, most = 0, random.choice((4, 10, 80, 80))
    while code.here - KERNEL + BLOCK_ROOM + LAST_WORDS_ROOM < CODE_END and number < most:
        put_block(context, number, makers)
        number += 1
    for start in starts:
        code.labels[start] = code.labels[f"block {random.randrange(number)}"]
    code.labels["first_block"] = code.labels["block 0"]
    code.labels[f"block {number}"] = code.here


def put_start(context: Context) -> None:
    """Registers, the entries that last, and which interrupts there are."""
    code, random = context.code, context.random
    system_pieces.restored_bases(context)
    for register in operands.FREE_REGISTERS:
        code.constant(register, operands.value(random))
    for register in (24, 25):
        code.op("ORI", rt=register, immediate=random.choice((6, 6, 7, 2)))
    code.address(30, "block 0")
    system_pieces.lasting_entries(context)
    if random.random() < 0.5:
        context.code.constant(pieces.SCRATCH, random.randrange(120, 400))
        code.op("MTC0", rt=pieces.SCRATCH, rd=11)
    code.constant(pieces.SCRATCH, random.choice((0, 0xFF01, 0x8001, 0x1C01)))
    code.op("MTC0", rt=pieces.SCRATCH, rd=12)


def put_dispatch(context: Context, traits: Traits) -> list[str]:
    """Each virtual processor but 0 goes to a block of its own; the labels are given their places later."""
    code = context.code
    code.listing("lw r15, 0x10(r16)")
    labels = []
    for number in range(1, traits.processors):
        labels.append(f"start {number}")
        code.listing(f"addiu r21, zero, {number}")
        code.statement("BEQ", "r15", "r21", labels[-1])
        code.add(0)
    return labels


def put_block(context: Context, number: int, makers: list[Piece]) -> None:
    """A few pieces. A program counter that leads nowhere goes on at the next block."""
    code = context.code
    code.label(f"block {number}")
    begin = code.here
    code.address(30, f"block {number + 1}")
    for _ in range(context.random.randrange(2, 7)):
        if code.here - begin < BLOCK_ROOM // 2:
            context.random.choice(makers)(context)


def as_bytes(words: list[int]) -> bytes:
    return b"".join(word.to_bytes(4, "big") for word in words)


def page_table(random: Random) -> bytes:
    """A page's entries: mostly pages of data that may be written."""
    halves = [
        random.choice((2, 3, 4, 5, 6, 7, 2, 3, 4, 5, 0xFFFF, 0x10_0000)) << 6 | random.choice((6, 6, 6, 7, 7, 2, 3, 0))
        for _ in range(2 * PAGE_TABLE_ENTRIES)
    ]
    return as_bytes([word for even, odd in zip(halves[::2], halves[1::2], strict=True) for word in (even, odd, 0, 0)])


def data(random: Random, begin: int, end: int) -> bytes:
    """Numbers, and instructions in case that the program comes by."""
    return as_bytes([operands.value(random) if random.random() < 0.5 else pieces.any_word(random) for _ in range(begin, end, 4)])


def further_page(random: Random) -> bytes:
    """A page for sweeps: back to the program, and a word in the middle."""
    page = bytearray(4096)
    page[:8] = as_bytes([encode("JR", rs=30), 0])
    page[0x800:0x804] = as_bytes([random.getrandbits(32)])
    return bytes(page)


def disk(random: Random, size: int) -> bytes:
    """Blocks that begin with a few instructions and a return."""
    content = bytearray(random.randbytes(size))
    for block in range(0, size, 4096):
        words = [pieces.arithmetic(random) for _ in range(random.randrange(1, 8))]
        begin = as_bytes([*words, encode("JR", rs=31), 0])
        content[block : block + len(begin)] = begin
    return bytes(content[:size])

