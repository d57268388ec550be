"""The machine's nodes and cells, its frames, and who holds them."""

from __future__ import annotations

from collections import Counter
from collections.abc import Iterable, Sequence
from dataclasses import dataclass


@dataclass(frozen=True)
class Machine:
    """Nodes and cells, and where guests and processors are at home."""

    cells: Sequence[Sequence[int]]  # the nodes of each
    frames: int  # of each node
    homes: Sequence[int]  # the node of each guest
    processors: Sequence[int]  # the node of each
    lends: Sequence[int] = ()  # how many frames each cell lends to guests of others
    cache: int = 0  # how many frames each cell has for blocks of disks

    def nodes(self) -> list[int]:
        return [node for cell in self.cells for node in cell]

    def cell_of(self, node: int) -> int:
        return next(number for number, nodes in enumerate(self.cells) if node in nodes)

    def home_cell(self, guest: int) -> int:
        return self.cell_of(self.homes[guest])

    def lend_of(self, cell: int) -> int:
        return self.lends[cell] if self.lends else 0

    def boot_order(self, home: int) -> list[int]:
        """The nodes that are asked for a guest's frames: the home node, the others of its cell, and those of other cells."""
        own = next(cell for cell in self.cells if home in cell)
        others = sorted(node for cell in self.cells if cell is not own for node in cell)
        return [home, *sorted(node for node in own if node != home), *others]


class AdmissionFault(Exception):
    """Who needs more frames at boot than there are left to it."""

    def __init__(self, who: str, needs: int, has: int) -> None:
        super().__init__(f"fault admission {who} needs {needs} has {has}")


@dataclass(frozen=True)
class Frame:
    """A frame as somebody holds it: how often it had been taken then tells it from the same frame at other times."""

    number: int
    node: int
    generation: int


class Frames:
    """How often each frame is held, how often it was taken, and how many frames each cell has lent."""

    def __init__(self, machine: Machine) -> None:
        self.machine = machine
        self.counts = [0] * (machine.frames * len(machine.nodes()))
        self.generations = [0] * len(self.counts)
        self.loans = [0] * len(machine.cells)

    def numbers(self, node: int) -> range:
        return range(node * self.machine.frames, (node + 1) * self.machine.frames)

    def free(self, nodes: Iterable[int]) -> int:
        """How many frames of these nodes nobody holds."""
        return sum(self.counts[number] == 0 for node in nodes for number in self.numbers(node))

    def take(self, node: int) -> Frame | None:
        """The first frame of the node that nobody holds."""
        for number in self.numbers(node):
            if self.counts[number] == 0:
                self.counts[number] = 1
                self.generations[number] += 1
                return Frame(number, node, self.generations[number])
        return None

    def share(self, frame: Frame) -> bool:
        """Whether the frame is still held as it was then; it is held once more if so."""
        if self.counts[frame.number] == 0 or self.generations[frame.number] != frame.generation:
            return False
        self.counts[frame.number] += 1
        return True

    def give_back(self, frame: Frame) -> None:
        assert self.counts[frame.number] > 0 and self.generations[frame.number] == frame.generation
        self.counts[frame.number] -= 1

    def borrow(self, cell: int) -> bool:
        """Whether the cell lends one more frame."""
        if self.loans[cell] >= self.machine.lend_of(cell):
            return False
        self.loans[cell] += 1
        return True

    def repay(self, cell: int) -> None:
        assert self.loans[cell] > 0
        self.loans[cell] -= 1


class Holder:
    """A guest or a cell's cache, with the frames that it holds. A frame of another cell than the home takes a loan."""

    def __init__(self, frames: Frames, home: int) -> None:
        self.frames = frames
        self.home = home
        self.held = Counter[Frame]()

    def room_at_home(self) -> int:
        """How many frames of the home cell nobody holds."""
        return self.frames.free(self.frames.machine.cells[self.home])

    def room(self) -> int:
        """How many frames there are for it: those of the home cell, and of each other one as many as it still lends."""
        machine, frames = self.frames.machine, self.frames
        others = [cell for cell in range(len(machine.cells)) if cell != self.home]
        lent = [min(frames.free(machine.cells[cell]), machine.lend_of(cell) - frames.loans[cell]) for cell in others]
        return self.room_at_home() + sum(lent)

    def find(self, nodes: Sequence[int]) -> Frame | None:
        """The first frame of the first of these nodes that has one, and lends it where it is of another cell."""
        for node in nodes:
            frame = self.take(node)
            if frame is not None:
                self.held[frame] += 1
                return frame
        return None

    def take(self, node: int) -> Frame | None:
        cell = self.frames.machine.cell_of(node)
        if cell == self.home:
            return self.frames.take(node)
        if not self.frames.borrow(cell):
            return None
        frame = self.frames.take(node)
        if frame is None:
            self.frames.repay(cell)
        return frame

    def share(self, frame: Frame) -> bool:
        """Whether it holds the frame once more, which others hold and which lies in the home cell."""
        assert self.frames.machine.cell_of(frame.node) == self.home
        if not self.frames.share(frame):
            return False
        self.held[frame] += 1
        return True

    def release(self, frame: Frame) -> None:
        assert self.held[frame] > 0
        self.held[frame] -= 1
        self.frames.give_back(frame)
        cell = self.frames.machine.cell_of(frame.node)
        if cell != self.home:
            self.frames.repay(cell)
