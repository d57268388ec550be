"""Coprocessor 0: the registers that control a virtual processor."""

from .exceptions import GENERAL_VECTOR, REFILL_VECTOR, Code, GuestException
from .words import WORD

TLB_ENTRIES = 48

# Status
IE = 1 << 0  # interrupts may come
EXL = 1 << 1  # an exception is being handled
KSU = 3 << 3  # 10: user code
USER = 2 << 3
INTERRUPT_MASK = 0xFF << 8
STATUS_KEPT = IE | EXL | KSU | INTERRUPT_MASK

# the interrupts, as they stand in the lowest eight bits of what Cause shows from bit 8 on
SOFTWARE_INTERRUPTS = 0x03
INPUT_INTERRUPT = 0x04
PACKET_INTERRUPT = 0x08
PROCESSOR_INTERRUPT = 0x10
TIMER_INTERRUPT = 0x80

PROBE_FAILED = 0x8000_0000
ENTRY_LO_KEPT = 0x3FFF_FFFF
VPN2 = 0xFFFF_E000
ASID = 0xFF
PTE_BASE = 0xFF80_0000
PRID = 0x0000_0400


class Coprocessor0:
    """The registers, each as the word that MFC0 reads, but for Cause, Context and EntryHi, which come of several parts."""

    def __init__(self) -> None:
        self.index = 0
        self.random = TLB_ENTRIES - 1
        self.entry_lo = [0, 0]
        self.pte_base = 0
        self.bad_vpn2 = 0  # as it stands in Context
        self.wired = 0
        self.bad_address = 0
        self.count = 0
        self.entry_hi_vpn2 = 0  # as it stands in EntryHi
        self.asid = 0
        self.compare = 0
        self.status = 0
        self.interrupts = 0
        self.exception_code = 0
        self.unit = 0
        self.in_branch_delay = False
        self.epc = 0

    @property
    def entry_hi(self) -> int:
        return self.entry_hi_vpn2 | self.asid

    @property
    def cause(self) -> int:
        return self.in_branch_delay << 31 | self.unit << 28 | self.interrupts << 8 | self.exception_code << 2

    def read(self, number: int) -> int:
        """What MFC0 of this register gives; 0 where there is none."""
        register = READS.get(number)
        return register(self) if register else 0

    def write(self, number: int, value: int) -> None:
        """MTC0: the register keeps the bits that can be written, and no other register but the few named here changes."""
        if number in WRITES:
            WRITES[number](self, value)

    def write_index(self, value: int) -> None:
        self.index = value & 0x3F

    def write_entry_lo0(self, value: int) -> None:
        self.entry_lo[0] = value & ENTRY_LO_KEPT

    def write_entry_lo1(self, value: int) -> None:
        self.entry_lo[1] = value & ENTRY_LO_KEPT

    def write_context(self, value: int) -> None:
        self.pte_base = value & PTE_BASE

    def write_wired(self, value: int) -> None:
        """Random begins anew from the last entry."""
        self.wired = value & 0x3F
        self.random = TLB_ENTRIES - 1

    def write_count(self, value: int) -> None:
        self.count = value

    def write_entry_hi(self, value: int) -> None:
        self.entry_hi_vpn2 = value & VPN2
        self.asid = value & ASID

    def write_compare(self, value: int) -> None:
        """The timer's interrupt is answered by a new value."""
        self.compare = value
        self.interrupts &= ~TIMER_INTERRUPT

    def write_status(self, value: int) -> None:
        """There is no supervisor mode: it and the mode that is reserved become user mode."""
        kept = value & STATUS_KEPT
        self.status = kept & ~KSU | USER if kept & KSU else kept

    def write_cause(self, value: int) -> None:
        self.interrupts = self.interrupts & ~SOFTWARE_INTERRUPTS | value >> 8 & SOFTWARE_INTERRUPTS

    def write_epc(self, value: int) -> None:
        self.epc = value

    def in_user_mode(self) -> bool:
        return self.status & (KSU | EXL) == USER

    def interrupt_comes(self) -> bool:
        """Whether an interrupt is enabled and pending."""
        return self.status & (IE | EXL) == IE and self.status >> 8 & self.interrupts & 0xFF != 0

    def set_line(self, interrupt: int, on: bool) -> None:
        self.interrupts = self.interrupts | interrupt if on else self.interrupts & ~interrupt

    def enter(self, exception: GuestException, pc: int, in_slot: bool) -> int:
        """What an exception leaves, and where it goes on. Under EXL the place to return to stays as it was."""
        vector = GENERAL_VECTOR
        if not self.status & EXL:
            self.epc = (pc - 4 if in_slot else pc) & WORD
            self.in_branch_delay = in_slot
            if exception.is_miss:
                vector = REFILL_VECTOR
        self.exception_code = int(exception.code)
        self.unit = exception.unit if exception.code is Code.CPU else 0
        if exception.address is not None:
            self.bad_address = exception.address
            if exception.is_tlb:
                self.bad_vpn2 = exception.address >> 13 << 4
                self.entry_hi_vpn2 = exception.address & VPN2
        self.status |= EXL
        return vector

    def return_from_exception(self) -> int:
        """ERET: where it goes on."""
        self.status &= ~EXL
        return self.epc

    def tick(self) -> None:
        """What each step does to the timer and to Random, once its instruction or exception is done."""
        self.count = self.count + 1 & WORD
        if self.count == self.compare:
            self.interrupts |= TIMER_INTERRUPT
        self.random = TLB_ENTRIES - 1 if self.random <= self.wired else self.random - 1


READS = {
    0: lambda registers: registers.index,
    1: lambda registers: registers.random,
    2: lambda registers: registers.entry_lo[0],
    3: lambda registers: registers.entry_lo[1],
    4: lambda registers: registers.pte_base | registers.bad_vpn2,
    6: lambda registers: registers.wired,
    8: lambda registers: registers.bad_address,
    9: lambda registers: registers.count,
    10: lambda registers: registers.entry_hi,
    11: lambda registers: registers.compare,
    12: lambda registers: registers.status,
    13: lambda registers: registers.cause,
    14: lambda registers: registers.epc,
    15: lambda registers: PRID,
}

WRITES = {
    0: Coprocessor0.write_index,
    2: Coprocessor0.write_entry_lo0,
    3: Coprocessor0.write_entry_lo1,
    4: Coprocessor0.write_context,
    6: Coprocessor0.write_wired,
    9: Coprocessor0.write_count,
    10: Coprocessor0.write_entry_hi,
    11: Coprocessor0.write_compare,
    12: Coprocessor0.write_status,
    13: Coprocessor0.write_cause,
    14: Coprocessor0.write_epc,
}
