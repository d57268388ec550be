"""The exceptions of a guest."""

from dataclasses import dataclass
from enum import IntEnum

from .words import WORD


class Code(IntEnum):
    """ExcCode: why the processor went to a vector."""

    INT = 0
    MOD = 1
    TLBL = 2
    TLBS = 3
    ADEL = 4
    ADES = 5
    IBE = 6
    DBE = 7
    SYS = 8
    BP = 9
    RI = 10
    CPU = 11
    OV = 12
    TR = 13


REFILL_VECTOR = 0xC000_0000
GENERAL_VECTOR = 0xC000_0180


@dataclass
class GuestException(Exception):
    """What a step raises in the place of its instruction's effect."""

    code: Code
    address: int | None = None  # what BadVAddr becomes
    is_tlb: bool = False  # Context and EntryHi get the address's page too
    is_miss: bool = False  # no entry of the TLB matched
    unit: int = 0  # the coprocessor that can't be used


def address_error(address: int, is_store: bool) -> GuestException:
    """An address that isn't aligned, or out of the ranges of the mode."""
    return GuestException(Code.ADES if is_store else Code.ADEL, address & WORD)


def tlb_fault(address: int, is_store: bool, is_miss: bool) -> GuestException:
    """An address that no entry matches, or whose half isn't valid."""
    return GuestException(Code.TLBS if is_store else Code.TLBL, address, is_tlb=True, is_miss=is_miss)


def modification(address: int) -> GuestException:
    """A store through a half that may not be written."""
    return GuestException(Code.MOD, address, is_tlb=True)


def coprocessor_unusable(unit: int) -> GuestException:
    """An instruction of a coprocessor that isn't there, or not for user code."""
    return GuestException(Code.CPU, unit=unit)
