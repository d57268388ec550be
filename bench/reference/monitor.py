"""Runs of several guests, each alone or under the monitor, and their reports.

Under the monitor a guest's console is the same, and some things come on top. The processor on which a virtual processor is loaded has a TLB
of its own, which the monitor fills as pages are used, and the report counts these refills. Pages move as the plan and the policy ask and as
steps need it, and come to lie on frames that others hold too, of which a guest sees nothing. And what guests send to each other arrives.
"""

from __future__ import annotations

from collections.abc import Callable, Iterable, Iterator, Sequence
from random import Random

from .cache import Cache, blocks_at_home, disk_numbers
from .frames import AdmissionFault, Frames, Holder, Machine
from .host import Answer, Host, Seat
from .machine import Coverage, Guest, Start, Watcher
from .monitored import Monitored
from .moves import Policy
from .openness import Openness, acting, openness
from .pages import Pages
from .plan import Ask, Fail, Item, Run, processor_of
from .wires import Wires

MOST_TURNS = 100  # without a step, where nobody else takes any

Watch = Callable[[Monitored, Seat, Answer], None]


class NeverGoesOn(Exception):
    """A virtual processor takes turn after turn and makes no step."""


class Monitor:
    """All guests of a plan, carried out item by item in the order of the file.

    All runs of a guest have one processor of the machine, its host, so that their order is the file's in each run. Guests of other hosts
    see nothing of each other but packets, and when these arrive is open.
    """

    def __init__(
        self, starts: Sequence[Start], hosts: Sequence[int], machine: Machine, policy: Policy, hands_on: bool = True
    ) -> None:
        """Whole pages that are sent are handed on where they can be, or each packet is copied."""
        self.starts = starts
        self.machine = machine
        self.policy = policy
        self.hosts = hosts
        self.hands_on = hands_on
        self.frames = Frames(machine)
        self.wires = Wires(len(starts))
        self.caches = [Cache(self.frames, cell) for cell in range(len(machine.cells))]
        numbers = disk_numbers(starts)
        for cache in self.caches:
            at_home = [start for number, start in enumerate(starts) if machine.home_cell(number) == cache.cell]
            cache.keep(blocks_at_home(at_home, numbers))
        self.guests = [self.booted(number, start, numbers) for number, start in enumerate(starts)]
        self.is_open = False  # whether another run of the same plan may print something else
        self.openness: list[Openness] = []  # of each guest
        self.failing: list[int] = []  # the cells, in the order of the plan
        self.watch: Watch = lambda monitored, seat, answer: None  # is told of each turn

    def booted(self, number: int, start: Start, disks: dict[str, int]) -> Monitored:
        """A guest with its frames, in the order of the guests."""
        machine = self.machine
        holder = Holder(self.frames, machine.home_cell(number))
        if holder.room() < start.pages:
            raise AdmissionFault(f"guest {number}", start.pages, holder.room())
        pages = Pages(holder, machine.boot_order(machine.homes[number]), start.pages)
        disk = None if start.disk is None else disks[start.disk.name]
        host = Host(number, machine, pages, self.policy, self.caches[holder.home].blocks(disk), self.hands_on)
        return Monitored(number, start, host, self.wires)

    # a plan

    def carry_out(self, plan: Sequence[Item]) -> None:
        self.failing = failing_cells(plan)
        boots = [{page.master.node for page in monitored.host.pages.pages} for monitored in self.guests]
        self.openness = openness(self.machine, self.policy, plan, self.hosts, self.starts, boots)
        for item in plan:
            for answer in self.item(item):
                if answer is Answer.WAITS:
                    raise NeverGoesOn(f"{item} waits for a processor that does nothing")
        self.close()
        is_met = any(monitored.was_armed and self.has_foreign_packets(monitored.number) for monitored in self.guests)
        fails_aside = bool(self.failing) and len(acting(plan, self.hosts)) > 1
        self.is_open = is_met or fails_aside and self.have_packets_alone(plan)

    def has_foreign_packets(self, receiver: int) -> bool:
        """Whether a guest of another processor has sent it something."""
        senders = [monitored for monitored in self.guests if self.hosts[monitored.number] != self.hosts[receiver]]
        return any(packet.receiver == receiver for monitored in senders for packet in monitored.guest.devices.sent)

    def have_packets_alone(self, plan: Iterable[Item]) -> bool:
        """Whether the guests, each alone, send to each other. Else none does where failures end some earlier."""
        others = [set(range(len(self.starts))) - {number} for number in range(len(self.starts))]
        alone = zip(private_guests(self.starts, plan), others, strict=True)
        return any(packet.receiver in there for guest, there in alone for packet in guest.devices.sent)

    def carry_out_mixed(self, plan: Sequence[Item], random: Random) -> None:
        """Each processor has its items in order, and each turn is one of any processor that has some left."""
        self.is_open = True
        self.failing = failing_cells(plan)
        work = {processor: self.items(processor, plan) for processor in range(len(self.machine.processors))}
        while work:
            processor = random.choice(list(work))
            if next(work[processor], None) is None:
                del work[processor]
        self.close()

    def items(self, processor: int, plan: Iterable[Item]) -> Iterator[Answer]:
        for item in plan:
            if processor_of(item, self.hosts) == processor:
                yield from self.item(item)

    def item(self, item: Item) -> Iterator[Answer]:
        """An item turn by turn."""
        match item:
            case Run():
                return self.run(item)
            case Ask():
                return self.ask(item)
            case Fail():
                return self.fail(item)

    def fail(self, item: Fail) -> Iterator[Answer]:
        """The cell fails for each guest in order."""
        for monitored in self.guests:
            yield monitored.cell_fails(item.cell)

    def run(self, item: Run) -> Iterator[Answer]:
        """A guest that has ended, or for which the processor's cell has failed, makes no steps."""
        monitored, processor = self.guests[item.guest], processor_of(item, self.hosts)
        while monitored.may_be_loaded(processor) and monitored.is_loaded(item.processor):
            yield Answer.WAITS
        if not monitored.may_be_loaded(processor):
            return
        seat = monitored.host.load(processor, item.processor)
        steps, idle = 0, 0
        while steps < item.steps:
            answer = monitored.turn(seat)
            self.watch(monitored, seat, answer)
            yield answer
            if answer in (Answer.HALTED, Answer.ENDED):
                break
            steps, idle = (steps + 1, 0) if answer is Answer.STEPPED else (steps, idle + 1)
            if idle > MOST_TURNS and len(monitored.host.seats) == 1:
                raise NeverGoesOn(f"{item} at {monitored.guest.processors[item.processor].pc:08X}")
        monitored.host.unload(seat)

    def ask(self, item: Ask) -> Iterator[Answer]:
        """Asks until the move begins or is skipped, and waits for its end."""
        host, page = self.guests[item.guest].host, item.move.page
        while (answer := host.ask(item.asker, item.move)) is Answer.BUSY:
            yield host.finish_ready(page)
        move = None if answer is Answer.SKIPPED else host.pages[page].move
        while move is not None and not host.pages.has_ended() and host.pages[page].move is move:
            yield host.finish_ready(page)

    def close(self) -> None:
        """The plan is done: who waits for a packet takes it, and then all guests end."""
        for monitored in self.guests:
            monitored.take_last_packet()
        for monitored in self.guests:
            if not monitored.has_ended:
                monitored.end_by_budget()

    # reports

    def packets_arrived(self) -> bool:
        return any(monitored.received for monitored in self.guests)

    def report_without_sums(self) -> bytes:
        """What the guests' reports are alone too, where no packet arrived."""
        return b"".join(report_of(number, monitored.guest) for number, monitored in enumerate(self.guests))

    def report(self) -> bytes:
        guests = [report_of(number, each.guest, each.killer) + sums_of(each) for number, each in enumerate(self.guests)]
        return b"".join((*guests, *map(self.failure_line, self.failing)))

    def failure_line(self, cell: int) -> bytes:
        """Which guests a failure ended."""
        ended = [str(number) for number, monitored in enumerate(self.guests) if monitored.killer == cell]
        return f"failure cell {cell} ended {' '.join(ended) or 'none'}\n".encode()

    def coverage(self) -> Coverage:
        total = Coverage.none()
        for monitored in self.guests:
            total.add(monitored.guest.coverage)
        return total


def failing_cells(plan: Iterable[Item]) -> list[int]:
    return [item.cell for item in plan if isinstance(item, Fail)]


def report_of(number: int, guest: Guest, killer: int | None = None) -> bytes:
    """What a report says of a guest: what it printed, and how it ended, by the failure of a cell if one is named."""
    console = guest.devices.console
    end = f"cell {killer}" if killer is not None else "halted" if guest.has_halted() else "budget"
    return f"guest {number} console {len(console)}\n".encode() + console + f"\nend {end}\n".encode()


def sums_of(monitored: Monitored) -> bytes:
    host, pages = monitored.host, monitored.host.pages
    return (
        f"sums steps {monitored.steps} refills {host.refills} moves {pages.moves} skips {pages.skips} "
        f"breaks {pages.breaks} shared {pages.shared} "
        f"received {len(monitored.received)} discarded {len(monitored.discarded)}\n"
    ).encode()


def private_report(starts: Sequence[Start], plan: Iterable[Item]) -> bytes:
    """The report of the guests, each alone."""
    return b"".join(report_of(number, guest) for number, guest in enumerate(private_guests(starts, plan)))


def private_guests(starts: Sequence[Start], plan: Iterable[Item]) -> list[Guest]:
    """The guests after their runs, each alone: what one sends goes nowhere, and no cell fails."""
    guests = [Guest(start, Watcher()) for start in starts]
    for item in plan:
        if not isinstance(item, Run):
            continue
        guest = guests[item.guest]
        for _ in range(item.steps):
            if guest.processors[item.processor].halted:
                break
            guest.step(item.processor)
    return guests
