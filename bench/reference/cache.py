"""The frames in which a cell keeps blocks of disks."""

from __future__ import annotations

from collections.abc import Iterable, Sequence

from .devices import blocks_of
from .frames import AdmissionFault, Frame, Frames, Holder
from .machine import Start

DiskBlock = tuple[int, int]  # a disk's number, and a block's


class Cache:
    """So many frames of a cell, each with a block at most. Nobody changes them after boot."""

    def __init__(self, frames: Frames, cell: int) -> None:
        self.cell = cell
        self.holder = Holder(frames, cell)
        machine = frames.machine
        if self.holder.room_at_home() < machine.cache:
            raise AdmissionFault(f"cell {cell}", machine.cache, self.holder.room_at_home())
        self.frames = [self.holder.find(sorted(machine.cells[cell])) for _ in range(machine.cache)]
        self.entries: dict[DiskBlock, Frame] = {}

    def keep(self, blocks: Iterable[DiskBlock]) -> None:
        """The first block has the frame that was taken first."""
        self.entries = dict(zip(blocks, self.frames, strict=False))

    def blocks(self, disk: int | None) -> dict[int, Frame]:
        """The blocks of a disk that are kept."""
        return {block: frame for (of, block), frame in self.entries.items() if of == disk}


def disk_numbers(starts: Sequence[Start]) -> dict[str, int]:
    """Disks are numbered by the order in which guests name their files."""
    names = dict.fromkeys(start.disk.name for start in starts if start.disk is not None)
    return {name: number for number, name in enumerate(names)}


def blocks_at_home(starts: Iterable[Start], numbers: dict[str, int]) -> list[DiskBlock]:
    """The blocks of the disks of these guests, by disk and block."""
    counts = {numbers[start.disk.name]: len(blocks_of(start.disk.content)) for start in starts if start.disk is not None}
    return [(disk, block) for disk in sorted(counts) for block in range(counts[disk])]
