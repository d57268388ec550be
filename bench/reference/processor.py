"""A virtual processor: its registers, where it goes on, and what its instructions ask of memory."""

from __future__ import annotations

from collections.abc import Collection
from typing import TYPE_CHECKING

from .coprocessor import Coprocessor0
from .devices import Transfer
from .exceptions import Code, GuestException
from .tlb import Entry, Tlb, Use, entry_of, physical
from .words import WORD

if TYPE_CHECKING:
    from .machine import Guest

RETURN_ADDRESS = 31

# the register page: at 4 times their numbers, the registers of coprocessor 0 that are loaded there, and those that are stored
REGISTER_PAGE = 0xCFFF_E000
LOADED_REGISTERS = (0, 2, 3, 4, 8, 10, 14)
STORED_REGISTERS = (0, 2, 3, 14)

Place = tuple[int, int | None]  # a program counter, and in a delay slot the address after it


class VirtualProcessor:
    """A virtual processor as a guest's boot leaves it, from its entry on."""

    def __init__(self, guest: Guest, number: int, entry: int) -> None:
        self.guest = guest
        self.number = number
        self.registers = [0] * 32
        self.hi = 0
        self.lo = 0
        self.pc = entry
        self.slot: int | None = None
        self.coprocessor = Coprocessor0()
        self.tlb = Tlb()
        self.link: int | None = None  # a line of the guest's physical memory
        self.halted = False
        self.steps = 0
        self.transfer = Transfer()

    # registers and the program counter

    def write(self, register: int, value: int) -> None:
        """Register 0 stays 0."""
        if register:
            self.registers[register] = value & WORD

    def following(self) -> Place:
        """Where an instruction that doesn't branch goes on."""
        return (self.pc + 4 & WORD if self.slot is None else self.slot), None

    def jump(self, target: int) -> Place:
        """The next instruction is in the delay slot, and the target comes after it. No branch stands in a delay slot."""
        self.refuse_in_slot()
        return self.pc + 4 & WORD, target & WORD

    def branch(self, taken: bool, target: int, likely: bool) -> Place:
        """The delay slot is done in any case, but for a likely branch that isn't taken, which skips it."""
        if taken:
            return self.jump(target)
        if not likely:
            return self.jump(self.pc + 8)
        self.refuse_in_slot()
        return self.pc + 8 & WORD, None

    def link_return(self) -> None:
        """The address behind the delay slot is where a call returns to."""
        self.write(RETURN_ADDRESS, self.pc + 8)

    def refuse_in_slot(self) -> None:
        if self.slot is not None:
            raise GuestException(Code.RI)

    def return_from_exception(self) -> Place:
        """ERET ends a link too."""
        self.refuse_in_slot()
        self.link = None
        return self.coprocessor.return_from_exception(), None

    # memory

    def physical(self, address: int, use: Use, size: int) -> int:
        coprocessor = self.coprocessor
        return physical(self.tlb, coprocessor.asid, coprocessor.in_user_mode(), address, use, size)

    def fetch(self) -> int:
        """The word at the program counter."""
        place = self.physical(self.pc, Use.FETCH, 4)
        if not self.guest.has_memory(place):
            raise GuestException(Code.IBE)
        self.guest.watcher.fetched(self, self.pc, place)
        return self.guest.word(place)

    def memory_place(self, address: int, use: Use, size: int) -> int:
        """Where the data at an address lies in memory."""
        return self.granted(self.physical(address, use, size), address, use)

    def granted(self, place: int, address: int, use: Use) -> int:
        """A place of memory; a bus error where there is none."""
        if not self.guest.has_memory(place):
            raise GuestException(Code.DBE)
        self.guest.watcher.accessed(self, address, place, use)
        return place

    def load(self, address: int, size: int) -> int:
        return self.read_memory(self.memory_place(address, Use.LOAD, size), size)

    def register_at(self, address: int, numbers: Collection[int]) -> int | None:
        """The register of coprocessor 0 at an address of the register page, which a kernel may have, if it is one of these."""
        if not self.guest.has_register_page or self.coprocessor.in_user_mode() or address % 4:
            return None
        number = (address - REGISTER_PAGE) // 4
        return number if number in numbers else None

    def load_word(self, address: int) -> int:
        """LW, which reaches the register page and the device page too."""
        register = self.register_at(address, LOADED_REGISTERS)
        if register is not None:
            return self.coprocessor.read(register)
        place = self.physical(address, Use.LOAD, 4)
        if not self.guest.is_device(place):
            return self.read_memory(self.granted(place, address, Use.LOAD), 4)
        value = self.guest.devices.load(self, place & 0xFFF)
        if value is None:
            raise GuestException(Code.DBE)
        return value

    def load_word_around(self, address: int) -> int:
        """The aligned word in which the byte at an address lies."""
        return self.read_memory(self.memory_place(address, Use.LOAD, 1) & ~3, 4)

    def load_linked(self, address: int) -> int:
        place = self.memory_place(address, Use.LOAD, 4)
        self.link = line_of(place)
        return self.read_memory(place, 4)

    def store(self, address: int, size: int, value: int) -> None:
        """The lowest bytes of a register, most significant byte first."""
        place = self.memory_place(address, Use.STORE, size)
        self.write_memory(place, (value & (1 << 8 * size) - 1).to_bytes(size, "big"))

    def store_word(self, address: int, value: int) -> None:
        """SW, which reaches the register page and the device page too."""
        register = self.register_at(address, STORED_REGISTERS)
        if register is not None:
            self.coprocessor.write(register, value)
            return
        place = self.physical(address, Use.STORE, 4)
        if not self.guest.is_device(place):
            self.write_memory(self.granted(place, address, Use.STORE), value.to_bytes(4, "big"))
        elif not self.guest.devices.store(self, place & 0xFFF, value):
            raise GuestException(Code.DBE)

    def store_left(self, address: int, value: int) -> None:
        """SWL: the register's highest bytes, from the address to the end of its word."""
        place = self.memory_place(address, Use.STORE, 1)
        self.write_memory(place, value.to_bytes(4, "big")[: 4 - place % 4])

    def store_right(self, address: int, value: int) -> None:
        """SWR: the register's lowest bytes, from the beginning of the address's word to the address."""
        place = self.memory_place(address, Use.STORE, 1)
        self.write_memory(place - place % 4, value.to_bytes(4, "big")[3 - place % 4 :])

    def store_conditional(self, address: int, value: int) -> bool:
        """Whether the link was to the address's line, and the word is stored. The link is cleared; a fault leaves it."""
        place = self.memory_place(address, Use.STORE, 4)
        linked = self.link == line_of(place)
        self.link = None
        if linked:
            self.write_memory(place, value.to_bytes(4, "big"))
        else:
            self.guest.watcher.loaded(place)
        return linked

    def read_memory(self, place: int, size: int) -> int:
        """So many bytes, most significant byte first, as a number."""
        self.guest.watcher.loaded(place)
        return int.from_bytes(self.guest.memory[place : place + size], "big")

    def write_memory(self, place: int, data: bytes) -> None:
        """A store into a line clears the links of the other virtual processors to it."""
        self.guest.watcher.stored(place)
        self.guest.memory[place : place + len(data)] = data
        for other in self.guest.processors:
            if other is not self and other.link == line_of(place):
                other.link = None

    # the TLB

    def write_tlb(self, index: int) -> None:
        """TLBWI and TLBWR: past the last entry nothing is written."""
        if index >= len(self.tlb.entries):
            return
        old = self.tlb.read(index)
        new = entry_of(self.coprocessor.entry_hi, *self.coprocessor.entry_lo)
        self.tlb.write(index, new)
        self.guest.watcher.tlb_written(self, old, new)

    def read_tlb(self, index: int) -> None:
        entry: Entry = self.tlb.read(index)
        self.coprocessor.write_entry_hi(entry.hi)
        self.coprocessor.entry_lo = [entry.lo0, entry.lo1]

    def probe_tlb(self) -> None:
        self.coprocessor.index = self.tlb.probe(self.coprocessor.entry_hi)


def line_of(place: int) -> int:
    """A line has 32 bytes."""
    return place >> 5
