"""Words of 32 bits, kept as numbers from 0 to FFFFFFFF."""

WORD = 0xFFFF_FFFF


def signed(word: int) -> int:
    """The number that a word is in two's complement."""
    return word - (1 << 32) if word >> 31 else word


def sign_extended(value: int, bits: int) -> int:
    """The word that a value of so many bits is with its sign extended."""
    sign = 1 << (bits - 1)
    return ((value ^ sign) - sign) & WORD
