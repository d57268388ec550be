"""The TLB that a guest's kernel fills, and where it leads."""

from dataclasses import dataclass
from enum import Enum

from .coprocessor import ASID, ENTRY_LO_KEPT, PROBE_FAILED, TLB_ENTRIES, VPN2
from .exceptions import address_error, modification, tlb_fault

GLOBAL = 1 << 0
VALID = 1 << 1
DIRTY = 1 << 2

DIRECT_BEGIN = 0xC000_0000
MAPPED_KERNEL_BEGIN = 0xD000_0000
MAPPED_KERNEL_END = 0xE000_0000
USER_END = 0x8000_0000


class Use(Enum):
    """What an address is used for."""

    FETCH = "fetch"
    LOAD = "load"
    STORE = "store"


@dataclass(frozen=True)
class Entry:
    """An entry: a pair of pages of an address space, or of all of them, and what the pages lie on."""

    hi: int
    lo0: int
    lo1: int

    @property
    def is_global(self) -> bool:
        return self.lo0 & self.lo1 & GLOBAL != 0

    def matches(self, address: int, asid: int) -> bool:
        return (self.hi ^ address) & VPN2 == 0 and (self.hi & ASID == asid or self.is_global)

    def lo_of(self, address: int) -> int:
        """The half for an address of the pair."""
        return self.lo1 if address >> 12 & 1 else self.lo0


def entry_of(hi: int, lo0: int, lo1: int) -> Entry:
    """An entry as the registers write it. Both halves show the global mark that the two had in common."""
    mark = lo0 & lo1 & GLOBAL
    kept = ENTRY_LO_KEPT & ~GLOBAL
    return Entry(hi & (VPN2 | ASID), lo0 & kept | mark, lo1 & kept | mark)


class Tlb:
    """The entries. Where several match, the lowest counts."""

    def __init__(self) -> None:
        """At the start no entry can match, as none is of a range that is mapped."""
        self.entries = [Entry(0x8000_0000 + 0x2000 * index, 0, 0) for index in range(TLB_ENTRIES)]

    def find(self, address: int, asid: int) -> int | None:
        """The number of the entry that counts for an address."""
        for index, entry in enumerate(self.entries):
            if entry.matches(address, asid):
                return index
        return None

    def read(self, index: int) -> Entry:
        """TLBR: an entry past the last one gives zeros."""
        return self.entries[index] if index < TLB_ENTRIES else Entry(0, 0, 0)

    def write(self, index: int, entry: Entry) -> None:
        self.entries[index] = entry

    def probe(self, entry_hi: int) -> int:
        """TLBP: what Index becomes."""
        index = self.find(entry_hi, entry_hi & ASID)
        return PROBE_FAILED if index is None else index

    def is_alone(self, address: int) -> bool:
        """Whether one entry at most is of this address's pair, in whatever address space."""
        return sum((entry.hi ^ address) & VPN2 == 0 for entry in self.entries) <= 1

    def translate(self, address: int, asid: int, use: Use) -> int:
        """The physical address that the entries give."""
        is_store = use is Use.STORE
        index = self.find(address, asid)
        if index is None:
            raise tlb_fault(address, is_store, is_miss=True)
        half = self.entries[index].lo_of(address)
        if not half & VALID:
            raise tlb_fault(address, is_store, is_miss=False)
        if is_store and not half & DIRTY:
            raise modification(address)
        return half >> 6 << 12 | address & 0xFFF


def is_direct(address: int) -> bool:
    """Whether an address is of the kernel's segment that needs no TLB."""
    return DIRECT_BEGIN <= address < MAPPED_KERNEL_BEGIN


def physical(tlb: Tlb, asid: int, in_user_mode: bool, address: int, use: Use, size: int) -> int:
    """Where an address leads: first its alignment and the mode's ranges, then the direct segment or the TLB."""
    if address % size:
        raise address_error(address, use is Use.STORE)
    if address < USER_END:
        return tlb.translate(address, asid, use)
    if in_user_mode or not DIRECT_BEGIN <= address < MAPPED_KERNEL_END:
        raise address_error(address, use is Use.STORE)
    if is_direct(address):
        return address - DIRECT_BEGIN
    return tlb.translate(address, asid, use)
