"""Random operands: registers, values and numbers, with those near an edge more often than others."""

from __future__ import annotations

from random import Random

from .kernel import DATA, DEVICE, KERNEL_DATA, USER_CODE, USER_DATA, USER_DEVICE

FREE_REGISTERS = range(1, 16)

EDGE_VALUES = (
    0,
    1,
    2,
    3,
    0x1F,
    0x20,
    0x7F,
    0x80,
    0xFF,
    0x7FFF,
    0x8000,
    0xFFFF,
    0x1_0000,
    0x7FFF_FFFE,
    0x7FFF_FFFF,
    0x8000_0000,
    0x8000_0001,
    0xFFFF_0000,
    0xFFFF_7FFF,
    0xFFFF_8000,
    0xFFFF_FFFE,
    0xFFFF_FFFF,
)

EDGE_IMMEDIATES = (0, 1, 2, 4, 0x1F, 0x7FFE, 0x7FFF, 0x8000, 0x8001, 0xFFFC, 0xFFFE, 0xFFFF)

# addresses on both sides of where the ranges of a mode, memory and the device page begin and end
EDGE_ADDRESSES = (
    0x0000_0000,
    0x0000_0FFC,
    0x7FFF_FFFC,
    0x8000_0000,
    0xBFFF_FFFC,
    0xC000_0000,
    0xCFFF_EFFC,
    DEVICE,
    DEVICE + 0x4C,
    DEVICE + 0xFFC,
    0xD000_0000,
    0xDFFF_FFFC,
    0xE000_0000,
    0xFFFF_FFFC,
    USER_CODE,
    USER_DATA,
    USER_DATA + 0xFFC,
    USER_DEVICE,
    USER_DEVICE + 0x1000,
    KERNEL_DATA + 0xFFC,
    DATA + 0xFFC,
)


def source(random: Random) -> int:
    """A register that is read."""
    return random.choice(FREE_REGISTERS) if random.random() < 0.92 else random.randrange(32)


def destination(random: Random) -> int:
    """A register that is written: seldom one on which the program depends."""
    chance = random.random()
    if chance < 0.94:
        return random.choice(FREE_REGISTERS)
    return random.choice((0, 0, 17, 31) if chance < 0.997 else (16, 18, 19, 20, 22, 24, 25))


def value(random: Random) -> int:
    """What a register is set to."""
    chance = random.random()
    if chance < 0.5:
        return random.choice(EDGE_VALUES)
    if chance < 0.65:
        return 1 << random.randrange(32)
    return random.getrandbits(32)


def immediate(random: Random) -> int:
    return random.choice(EDGE_IMMEDIATES) if random.random() < 0.5 else random.getrandbits(16)


def address(random: Random, pages: int) -> int:
    """An address near an edge."""
    end = 0xC000_0000 + 4096 * pages
    return random.choice((*EDGE_ADDRESSES, end - 4, end)) + random.choice((0, 0, 0, 0, 1, 2, 3, 4))
