"""The TLB of a processor, which the monitor fills."""

from __future__ import annotations

from collections.abc import Iterable
from dataclasses import dataclass

from .frames import Frame

HARDWARE_ENTRIES = 48

VirtualPage = tuple[int, int | None]  # its number and its address space; None: it is the same in all


@dataclass(frozen=True)
class Tag:
    """What an entry is for. The address space is that of its first half, also where the halves are of all of them."""

    pair: int
    asid: int
    is_global: bool


@dataclass(frozen=True)
class Half:
    """The entry in which it stands, to which page of the guest and which frame it leads, and whether stores may go through it."""

    entry: int
    page: int
    frame: Frame
    is_writable: bool


class HardwareTlb:
    """Entries of two halves, one for each virtual page of a pair.

    A half is filled in the entry of the same tag if there is one, and else the next entry in turn gives way. A write of the guest's own TLB
    drops the halves of the pairs of the old and the new entry. So all halves of a pair were filled under the same entries of the guest, all
    of them are of all address spaces or none is, and a new half never clashes with an old one. A move of a page drops all halves that lead
    to it before it ends.
    """

    def __init__(self) -> None:
        self.tags: list[Tag | None] = [None] * HARDWARE_ENTRIES
        self.halves: dict[VirtualPage, Half] = {}
        self.next_entry = 0

    def find(self, number: int, asid: int) -> Half | None:
        return self.halves.get((number, asid)) or self.halves.get((number, None))

    def fill(self, number: int, asid: int, is_global: bool, page: int, frame: Frame, is_writable: bool) -> None:
        """The half of a virtual page, which has none yet."""
        tag = Tag(number >> 1, asid, is_global)
        if tag not in self.tags:
            self.drop([virtual for virtual, half in self.halves.items() if half.entry == self.next_entry])
            self.tags[self.next_entry] = tag
            self.next_entry = (self.next_entry + 1) % HARDWARE_ENTRIES
        self.halves[number, None if is_global else asid] = Half(self.tags.index(tag), page, frame, is_writable)

    def drop_pair(self, pair: int) -> None:
        self.drop([virtual for virtual in self.halves if virtual[0] >> 1 == pair])

    def drop_page(self, page: int) -> None:
        self.drop([virtual for virtual, half in self.halves.items() if half.page == page])

    def drop(self, virtual_pages: Iterable[VirtualPage]) -> None:
        """An entry without a half is no longer found by its tag."""
        for virtual in virtual_pages:
            entry = self.halves.pop(virtual).entry
            if all(half.entry != entry for half in self.halves.values()):
                self.tags[entry] = None

    def empty(self) -> None:
        self.tags = [None] * HARDWARE_ENTRIES
        self.halves.clear()
