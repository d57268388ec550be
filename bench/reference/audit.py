"""What has to hold of a monitor after each turn."""

from __future__ import annotations

from collections import Counter

from .frames import Frame
from .host import Answer, Host, Seat, is_granted_to_stores
from .machine import Guest, Watcher
from .monitor import Monitor
from .monitored import Monitored
from .moves import Kind, Page
from .processor import VirtualProcessor
from .tlb import DIRECT_BEGIN, Use, is_direct

QUIET = (Answer.STEPPED, Answer.WAITS, Answer.HALTED, Answer.ENDED)  # after which one turn of so many is looked at
QUIET_TURNS = 97


class Audit:
    """Looks at a monitor's guests and frames, and keeps each guest's own history."""

    def __init__(self, monitor: Monitor) -> None:
        self.monitor = monitor
        self.turns = 0
        self.contents: dict[Frame, bytes] = {}  # of shared frames, which nobody may write
        self.private = [Guest(start, Watcher()) for start in monitor.starts]
        self.seen = [0] * len(self.private)  # packets that came into the private machine too
        for monitored in monitor.guests:
            self.keep_blocks(monitored)
        monitor.watch = self.after_turn

    def keep_blocks(self, monitored: Monitored) -> None:
        for block, frame in monitored.host.blocks.items():
            data = monitored.guest.devices.disk[block]
            assert self.contents.setdefault(frame, data) == data

    # turns

    def after_turn(self, monitored: Monitored, seat: Seat, answer: Answer) -> None:
        self.follow(monitored)
        if answer is Answer.STEPPED:
            self.private[monitored.number].step(seat.loaded)
        self.turns += 1
        if answer not in QUIET or self.turns % QUIET_TURNS == 0:
            self.look_at_guest(monitored)
            self.look_at_frames()

    def follow(self, monitored: Monitored) -> None:
        """The private machine gets the packets that came in."""
        for packet in monitored.received[self.seen[monitored.number] :]:
            self.private[monitored.number].devices.receive(packet.sender, packet.data)
        self.seen[monitored.number] = len(monitored.received)

    def look_at_end(self) -> None:
        """All frames are free but those of caches, and each guest is as its private machine."""
        kept = {frame.number for cache in self.monitor.caches for frame in cache.frames}
        assert all(count == (number in kept) for number, count in enumerate(self.monitor.frames.counts))
        assert not any(self.monitor.frames.loans)
        for monitored, private in zip(self.monitor.guests, self.private, strict=True):
            self.follow(monitored)
            pages = monitored.host.pages
            assert not pages.holder.held.total() and not monitored.host.seats
            assert pages.shared == pages.begun[Kind.TAKE_SHARED] - pages.finished[Kind.TAKE_SHARED]
            assert state_of(monitored.guest) == state_of(private)

    # guests

    def look_at_guest(self, monitored: Monitored) -> None:
        host = monitored.host
        assert Counter(host.pages.held()) == +host.pages.holder.held
        if host.pages.has_ended():
            return
        for number, page in enumerate(host.pages.pages):
            look_at_page(page)
            if page.is_shared:
                self.look_at_content(page.master, monitored.guest.page(number))
        assert host.pages.moving == {number for number, page in enumerate(host.pages.pages) if page.move is not None}
        unbroken = sum(page.is_shared and not is_moving(page, Kind.BREAK) for page in host.pages.pages)
        assert len(host.pages.spares) >= unbroken
        assert not any(host.uses(cell) for cell in host.dead)
        for seat in host.seats.values():
            look_at_seat(host, seat, monitored.guest.processors[seat.loaded])

    def look_at_content(self, frame: Frame, data: bytes) -> None:
        """A shared frame has the same bytes as long as it is held."""
        assert self.contents.setdefault(frame, data) == data

    # frames

    def look_at_frames(self) -> None:
        """A frame's count is the number of its holds, and a cell's that of its loans, which are as many as frames held elsewhere."""
        frames = self.monitor.frames
        holders = [cache.holder for cache in self.monitor.caches]
        holders += [monitored.host.pages.holder for monitored in self.monitor.guests]
        counts, loans = Counter[int](), Counter[int]()
        for holder in holders:
            for frame, times in holder.held.items():
                assert not times or frame.generation == frames.generations[frame.number]
                counts[frame.number] += times
                cell = frames.machine.cell_of(frame.node)
                loans[cell] += times * (cell != holder.home)
        assert all(counts[number] == count for number, count in enumerate(frames.counts))
        assert all(loans[cell] == lent <= frames.machine.lend_of(cell) for cell, lent in enumerate(frames.loans))


def is_moving(page: Page, kind: Kind) -> bool:
    return page.move is not None and page.move.kind is kind


def look_at_page(page: Page) -> None:
    """A shared page has no replicas, frames are of different nodes, and who is waited for is who may name the page."""
    frames = list(page.frames())
    if is_moving(page, Kind.REPLICATE):
        frames.append(page.move.target)
    assert len({frame.node for frame in frames}) == len(frames)
    assert not (page.is_shared and page.replicas)
    assert page.move is None or page.move.waiting == page.mapped


def look_at_seat(host: Host, seat: Seat, processor: VirtualProcessor) -> None:
    """Each half leads to a frame of its page, and may be written exactly where the page is its own, without replicas, and granted."""
    assert processor.number == seat.loaded
    for (number, asid), half in seat.tlb.halves.items():
        page = host.pages[half.page]
        assert half.page == page_at(processor, number << 12, asid)
        assert seat.processor in page.mapped
        assert half.frame in page.frames()
        if half.is_writable:
            assert page.is_writable()
        elif page.is_writable() and asid in (None, processor.coprocessor.asid):
            assert not is_granted_to_stores(processor, number << 12)


def page_at(processor: VirtualProcessor, address: int, asid: int | None) -> int:
    """Where the guest's own TLB leads in an address space, or in any one."""
    if is_direct(address):
        return address - DIRECT_BEGIN >> 12
    return processor.tlb.translate(address, processor.coprocessor.asid if asid is None else asid, Use.LOAD) >> 12


def state_of(guest: Guest) -> tuple:
    """What a guest is to itself."""
    devices = guest.devices
    return (
        bytes(guest.memory),
        bytes(devices.console),
        devices.disk,
        [(packet.receiver, packet.data) for packet in devices.sent],
        devices.armed,
        list(devices.queue),
        [vars(processor.coprocessor) for processor in guest.processors],
        [(processor.registers, processor.pc, processor.slot, processor.link, processor.halted) for processor in guest.processors],
    )
