"""What of a report may be another when the same plan is carried out again.

Each processor carries out its own items in order, and those of several processors come in any order. What is done to a guest has an order
where one processor does it all. Which moves find a frame has one where one processor does all, or where no frame can be wanting. A kept
block is copied where the word of its frame changes just then, which another processor alone can do.

A cell that fails is something that is done to each guest that may ever use the cell, and to each guest of which a
processor of the cell asks for moves. Whether such a guest ends by it is told where the processor of the failure
does all that is done to the guest, and where it is told whether the guest's frames lie in the cell then: if it has
those of its boot for ever, if all that it may ever hold lie in the cell, or if its moves find their frames in
order. A guest that never uses the cell goes on. Of each other guest all is open: what it prints, how it ends, and
its sums. Guests of several processors that send to each other aren't looked at here.
"""

from __future__ import annotations

from collections.abc import Iterable, Sequence
from dataclasses import dataclass, field

from .frames import Machine
from .machine import Start
from .moves import Collapse, Policy, Replicate
from .plan import Ask, Fail, Item, processor_of


@dataclass(frozen=True)
class Openness:
    """What is open of a guest."""

    refills: bool = False
    moves: bool = False  # which of the moves begin that are asked for
    asked: bool = False  # how many are, those that a step or a packet needs counted too
    shared: bool = False  # how many blocks are shared, and how many pages are broken
    fate: bool = False  # whether and when a cell that fails ends it, and so all that is told of it


@dataclass
class Part:
    """What a plan has of a guest."""

    processors: set[int] = field(default_factory=set)  # that do something to it
    hosts: set[int] = field(default_factory=set)  # that run it
    asks: list[Ask] = field(default_factory=list)
    nodes: set[int] = field(default_factory=set)  # on which it may ever hold a frame
    is_fixed: bool = False  # whether it has the frames of its boot for ever
    cells: set[int] = field(default_factory=set)  # that fail and that it may use

    def may_use(self, cell: int, machine: Machine) -> bool:
        return any(machine.cell_of(node) == cell for node in self.nodes | nodes_of(self.hosts, machine))

    def is_asked_from(self, cell: int, machine: Machine) -> bool:
        return any(machine.cell_of(node) == cell for node in nodes_of((ask.asker for ask in self.asks), machine))

    def is_certain_to_use(self, cell: int, machine: Machine) -> bool:
        """Whether the guest uses a cell or not whichever of its moves begin, while it is loaded nowhere."""
        return self.is_fixed or all(machine.cell_of(node) == cell for node in self.nodes)


def nodes_of(processors: Iterable[int], machine: Machine) -> set[int]:
    return {machine.processors[processor] for processor in processors}


def parts_of(plan: Sequence[Item], hosts: Sequence[int]) -> list[Part]:
    """What the plan's runs and moves are to each guest."""
    parts = [Part() for _ in hosts]
    for item in plan:
        if isinstance(item, Fail):
            continue
        part, processor = parts[item.guest], processor_of(item, hosts)
        part.processors.add(processor)
        if isinstance(item, Ask):
            part.asks.append(item)
        else:
            part.hosts.add(processor)
    return parts


def put_frames(part: Part, number: int, machine: Machine, policy: Policy, start: Start, boot: set[int]) -> None:
    """Where the frames of a guest may ever lie that sends to nobody: as at boot, or where moves and blocks lead."""
    shares = machine.cache > 0 and start.disk is not None
    part.is_fixed = not (part.asks or policy.is_on() or shares)
    part.nodes = boot | {ask.move.node for ask in part.asks if not isinstance(ask.move, Collapse)}
    if policy.is_on():
        part.nodes |= nodes_of(part.hosts, machine)
    if shares:
        part.nodes |= set(machine.cells[machine.home_cell(number)])


def put_failures(part: Part, failures: Iterable[Fail], machine: Machine) -> None:
    """Which failures concern a guest."""
    for failure in failures:
        if part.may_use(failure.cell, machine):
            part.cells.add(failure.cell)
        if part.may_use(failure.cell, machine) or part.is_asked_from(failure.cell, machine):
            part.processors.add(failure.asker)


def openness(
    machine: Machine,
    policy: Policy,
    plan: Sequence[Item],
    hosts: Sequence[int],
    starts: Sequence[Start],
    boots: Sequence[set[int]],
) -> list[Openness]:
    """For each guest, of which the nodes of its frames at boot are told."""
    parts = parts_of(plan, hosts)
    failures = [item for item in plan if isinstance(item, Fail)]
    for number, part in enumerate(parts):
        put_frames(part, number, machine, policy, starts[number], boots[number])
        put_failures(part, failures, machine)
    is_contended = len(acting(plan, hosts)) > 1 and not has_frames_enough(machine, sum(start.pages for start in starts))
    told = []
    for number, part in enumerate(parts):
        is_shared = any(shares_a_disk(number, other, machine, hosts, starts) for other in range(len(hosts)))
        fate = has_open_fate(part, is_contended or is_shared, machine)
        is_open = fate or is_shared
        all_sums = Openness(True, True, True, True, fate)
        told.append(all_sums if is_open else openness_of(part, policy, is_contended, machine))
    return told


def acting(plan: Iterable[Item], hosts: Sequence[int]) -> set[int]:
    """The processors that carry out a plan."""
    return {processor_of(item, hosts) for item in plan}


def has_open_fate(part: Part, is_contended: bool, machine: Machine) -> bool:
    """Whether it is open how a failure finds a guest. One that is contended may have other frames then."""
    if len(part.processors) > 1:
        return bool(part.cells)
    return is_contended and not all(part.is_certain_to_use(cell, machine) for cell in part.cells)


def shares_a_disk(guest: int, other: int, machine: Machine, hosts: Sequence[int], starts: Sequence[Start]) -> bool:
    """Whether guests of two processors read blocks that one cell keeps."""
    if not machine.cache or hosts[guest] == hosts[other] or machine.home_cell(guest) != machine.home_cell(other):
        return False
    disks = [starts[number].disk for number in (guest, other)]
    return None not in disks and disks[0].name == disks[1].name


def has_frames_enough(machine: Machine, pages: int) -> bool:
    """Whether no move is ever skipped for want of a frame.

    A page has one frame on a node at most, or a spare one. That there are twice as many is for searches during which others take frames and
    give some back. A loan may be missed because another takes one at the same time, so there mustn't be any.
    """
    return machine.frames >= 2 * pages + machine.cache and len(machine.cells) == 1


def openness_of(part: Part, policy: Policy, is_contended: bool, machine: Machine) -> Openness:
    """Where the plan alone asks for moves, and for no replica, the guest's steps need none, and as many are asked for as the plan has.

    On one node no move begins, and nothing is a miss.
    """
    if len(machine.nodes()) == 1:
        return Openness()
    has_order = len(part.processors) <= 1
    moves_in_runs = policy.is_on() or any(isinstance(ask.move, Replicate) for ask in part.asks)
    return Openness(
        refills=not has_order or is_contended and moves_in_runs,
        moves=(not has_order or is_contended) and (policy.is_on() or bool(part.asks)),
        asked=(not has_order or is_contended) and moves_in_runs,
    )
