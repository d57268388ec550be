"""What the monitor does for a guest: the TLBs of its processors, the moves of its pages, and what its accesses are to the policy."""

from __future__ import annotations

from collections import Counter
from collections.abc import Mapping
from dataclasses import dataclass, field
from enum import Enum, auto

from .devices import PAGE
from .frames import Frame, Machine
from .hardware_tlb import Half, HardwareTlb
from .machine import StepPutOff, Watcher
from .moves import BlockRead, Cause, Collapse, Kind, Operation, OpenMove, PageMove, Policy
from .pages import Pages
from .processor import VirtualProcessor
from .tlb import DIRTY, Entry, Use, is_direct


class Answer(Enum):
    """What came of a call to a guest."""

    STEPPED = auto()
    REFILLED = auto()
    ACKNOWLEDGED = auto()
    BEGUN = auto()
    FINISHED = auto()
    WAITS = auto()
    HALTED = auto()  # the virtual processor
    ENDED = auto()  # the guest
    SKIPPED = auto()
    BUSY = auto()
    DELIVERED = auto()
    DISCARDED = auto()
    NONE_IN_HAND = auto()
    NOT_ARMED = auto()
    CELL_FAILED = auto()  # for the guest


class PutOff(StepPutOff):
    """What was done in the place of a step."""

    def __init__(self, answer: Answer) -> None:
        super().__init__(answer)
        self.answer = answer


@dataclass
class Seat:
    """A processor of the machine, the virtual processor that is loaded on it, its TLB, and what it has still to ask for."""

    processor: int
    node: int
    loaded: int
    tlb: HardwareTlb = field(default_factory=HardwareTlb)
    due: PageMove | None = None
    code: int | None = None  # the page of the instruction at hand
    data: Half | None = None  # of the data access at hand


class Host(Watcher):
    """The processors on which a guest is loaded, and its pages. A step is put off by each refill and each change of a move before it."""

    def __init__(
        self, number: int, machine: Machine, pages: Pages, policy: Policy, blocks: Mapping[int, Frame], hands_on: bool
    ) -> None:
        self.number = number  # of the guest
        self.machine = machine
        self.pages = pages
        self.policy = policy
        self.blocks = blocks  # of the guest's disk that its home cell keeps
        self.hands_on = hands_on  # whole pages; else each packet is copied
        self.dead = set[int]()  # the cells that have failed
        self.seats: dict[int, Seat] = {}  # by the processor's number
        self.seat: Seat | None = None  # whose step is made
        self.refills = 0
        self.sends_without_frame = 0  # of pages that could have been handed on
        self.accesses = 0
        self.misses = 0
        self.distances = Counter[int]()  # how many nodes on the frame lies that an access reaches

    # processors

    def load(self, processor: int, virtual: int) -> Seat:
        """A processor begins with an empty TLB."""
        self.seats[processor] = Seat(processor, self.machine.processors[processor], virtual)
        return self.seats[processor]

    def unload(self, seat: Seat) -> None:
        """What is due lapses."""
        for number in range(len(self.pages.pages)):
            self.pages.leave(number, seat.processor)
        del self.seats[seat.processor]

    # cells that fail

    def uses(self, cell: int) -> bool:
        """Whether a frame that the guest needs lies in a cell, or one of its virtual processors is loaded there. A replica is no such frame."""
        nodes = self.machine.cells[cell]
        is_needed = any(frame.node in nodes for frame in self.pages.needed())
        return is_needed or any(seat.node in nodes for seat in self.seats.values())

    def is_dead(self, node: int) -> bool:
        """Whether the cell of a node has failed."""
        return self.machine.cell_of(node) in self.dead

    def is_dead_processor(self, processor: int) -> bool:
        return self.is_dead(self.machine.processors[processor])

    def spare_order(self) -> list[int]:
        """The nodes of a boot in their order, without those of cells that have failed."""
        return [node for node in self.machine.boot_order(self.machine.homes[self.number]) if not self.is_dead(node)]

    # what a step reaches

    def fetched(self, processor: VirtualProcessor, address: int, place: int) -> None:
        self.reach(processor, address, place >> 12, is_store=False)
        self.seat.code = place >> 12

    def accessed(self, processor: VirtualProcessor, address: int, place: int, use: Use) -> None:
        self.seat.data = self.reach(processor, address, place >> 12, use is Use.STORE)

    def reach(self, processor: VirtualProcessor, address: int, page: int, is_store: bool) -> Half:
        """The half by which an access goes that the guest allows."""
        half = self.seat.tlb.find(address >> 12, processor.coprocessor.asid)
        if half is None:
            self.pass_move(page)
            self.refill(processor, address, page)
            raise PutOff(Answer.REFILLED)
        assert half.page == page
        if self.is_dead(half.frame.node):
            self.pass_move(page)
            self.begin(page, Kind.COLLAPSE)
            raise PutOff(Answer.BEGUN)
        if is_store and not half.is_writable:
            self.pass_move(page)
            self.begin_needed(page)
            raise PutOff(Answer.BEGUN)
        return half

    def begin_needed(self, number: int) -> None:
        """The move without which the page's bytes may not change."""
        need = self.pages[number].need()
        assert need is not None
        self.begin(number, need)

    def pass_move(self, number: int) -> None:
        """An access waits for the page's move, or ends it where it waits for another operation than this one."""
        if self.pages[number].move is not None:
            raise PutOff(self.finish_ready(number))

    def refill(self, processor: VirtualProcessor, address: int, number: int) -> None:
        self.refills += 1
        page = self.pages[number]
        page.mapped.add(self.seat.processor)
        is_global = is_alike_in_all_spaces(processor, address)
        is_writable = page.is_writable() and is_granted_to_stores(processor, address)
        frame = page.nearest(self.seat.node, self.is_dead)
        self.seat.tlb.fill(address >> 12, processor.coprocessor.asid, is_global, number, frame, is_writable)

    def tlb_written(self, processor: VirtualProcessor, old: Entry, new: Entry) -> None:
        for entry in (old, new):
            self.seat.tlb.drop_pair(entry.hi >> 13)

    def loaded(self, place: int) -> None:
        self.note(place >> 12, is_store=False)

    def stored(self, place: int) -> None:
        assert self.seat.data.is_writable
        self.note(place >> 12, is_store=True)

    def note(self, number: int, is_store: bool) -> None:
        """What the policy chooses after a miss is due from now on, unless the page is to stay."""
        seat = self.seat
        assert seat.data.page == number
        self.accesses += 1
        self.distances[abs(seat.data.frame.node - seat.node)] += 1
        is_miss = seat.data.frame.node != seat.node
        self.pages[number].note(seat.node, is_miss, is_store)
        if is_miss:
            self.misses += 1
            seat.due = self.policy.choice(number, self.pages[number], seat.node) or seat.due

    # what a step brings and sends

    def block_comes(self, processor: VirtualProcessor, page: int, block: int, is_own: bool) -> None:
        """Why a block is copied: the guest has written it; or its home cell doesn't keep it, or has failed; or it comes
        into the page of the read's own instruction, which could never be made while the page has a move."""
        is_copied = is_own or page == self.seat.code or self.machine.home_cell(self.number) in self.dead
        frame = None if is_copied else self.blocks.get(block)
        answer = self.make_way(page, frame, None if is_copied else BlockRead(processor.number, block))
        if answer is not None:
            raise PutOff(answer)

    def make_way(self, number: int, frame: Frame | None, operation: Operation | None) -> Answer | None:
        """What comes before a page's bytes are replaced, by sharing a frame or by copying; nothing where they may be now."""
        page = self.pages[number]
        if page.move is not None:
            return self.pass_or_take(number, page.move, operation)
        if frame is not None and self.pages.holder.share(frame):
            self.begin(number, Kind.TAKE_SHARED, frame, operation)
            return Answer.BEGUN
        if page.is_writable():
            return None
        self.begin_needed(number)
        return Answer.BEGUN

    def pass_or_take(self, number: int, move: OpenMove, operation: Operation | None) -> Answer | None:
        """An operation ends its own move, and shares the frame."""
        if not move.is_for(operation):
            return self.finish_ready(number)
        self.pages.take(number)
        self.clear_dues(number)
        return None

    def block_goes(self, processor: VirtualProcessor, page: int) -> None:
        self.pass_move(page)

    def page_goes(self, processor: VirtualProcessor, page: int, length: int, receiver: int) -> Frame | None:
        """A page of the guest's own becomes shared first, where a frame is found that is spare then. Else it is copied."""
        self.pass_move(page)
        if length < PAGE or not self.hands_on or not self.may_hand_on(page, receiver):
            return None
        if self.pages[page].is_shared:
            return self.pages[page].master
        target = self.pages.holder.find(self.spare_order())
        if target is None:
            self.sends_without_frame += 1
            return None
        self.begin(page, Kind.GIVE_SHARED, target)
        raise PutOff(Answer.BEGUN)

    def may_hand_on(self, page: int, receiver: int) -> bool:
        """Whether the receiver is another guest that is there, on whose home cell the page's frame lies."""
        if receiver == self.number or receiver >= len(self.machine.homes):
            return False
        return self.cell_of_page(page) == self.machine.home_cell(receiver)

    def cell_of_page(self, page: int) -> int:
        return self.machine.cell_of(self.pages[page].master.node)

    # moves of pages

    def ask(self, asker: int, move: PageMove) -> Answer:
        """The plan or the policy asks for a move through a processor."""
        if self.pages.has_ended():
            return self.skip(move.page, Cause.ENDED)
        page = self.pages[move.page]
        if page.move is not None:
            return Answer.BUSY
        cause = Cause.DEAD_CELL if self.meets_dead_cell(asker, move) else page.cause_against(move)
        if cause is not None:
            return self.skip(move.page, cause)
        target = self.pages.target_of(move)
        if target is None and not isinstance(move, Collapse):
            return self.skip(move.page, Cause.NO_FRAME)
        self.begin(move.page, move.kind, target)
        return Answer.BEGUN

    def meets_dead_cell(self, asker: int, move: PageMove) -> bool:
        """Whether the cell of the processor that asks has failed, or that of the node on which a frame is sought."""
        return self.is_dead_processor(asker) or not isinstance(move, Collapse) and self.is_dead(move.node)

    def skip(self, number: int, cause: Cause) -> Answer:
        self.pages.skip(number, cause)
        self.clear_dues(number)
        return Answer.SKIPPED

    def begin(self, number: int, kind: Kind, target: Frame | None = None, operation: Operation | None = None) -> None:
        self.pages.begin(number, kind, target, operation)
        self.clear_dues(number)

    def finish_ready(self, number: int) -> Answer:
        """The page's move ends, unless it waits for a processor."""
        if self.pages[number].move.waiting:
            return Answer.WAITS
        self.pages.finish(number)
        self.clear_dues(number)
        return Answer.FINISHED

    def errand(self, seat: Seat) -> Answer | None:
        """What a processor does for moves before its step."""
        waiting = self.pages.first_waiting(seat.processor)
        if waiting is not None:
            seat.tlb.drop_page(waiting)
            self.pages.leave(waiting, seat.processor)
            return Answer.ACKNOWLEDGED
        ready = self.pages.first_ready()
        return None if ready is None else self.finish_ready(ready)

    def clear_dues(self, number: int) -> None:
        for seat in self.seats.values():
            if seat.due is not None and seat.due.page == number:
                seat.due = None

    def finish_all_ready(self) -> None:
        """At the end of the plan, in order of page."""
        for number in sorted(self.pages.moving):
            self.finish_ready(number)

    def end(self) -> None:
        """What is due of a page that moves lapses."""
        for number in self.pages.moving:
            self.clear_dues(number)
        self.pages.end()


def is_alike_in_all_spaces(processor: VirtualProcessor, address: int) -> bool:
    """A direct address leads to the same page in each address space; a mapped one where its entry is global and no other is of its pair."""
    if is_direct(address):
        return True
    index = processor.tlb.find(address, processor.coprocessor.asid)
    return index is not None and processor.tlb.entries[index].is_global and processor.tlb.is_alone(address)


def is_granted_to_stores(processor: VirtualProcessor, address: int) -> bool:
    """Whether the guest allows a store at an address that it allows to be read."""
    if is_direct(address):
        return True
    index = processor.tlb.find(address, processor.coprocessor.asid)
    return processor.tlb.entries[index].lo_of(address) & DIRTY != 0
