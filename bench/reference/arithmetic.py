"""What instructions compute: functions of words alone."""

from .exceptions import Code, GuestException
from .words import WORD, signed


def fitting(number: int) -> int:
    """The word of a signed number, or overflow."""
    if not -(1 << 31) <= number < 1 << 31:
        raise GuestException(Code.OV)
    return number & WORD


def add(left: int, right: int) -> int:
    return fitting(signed(left) + signed(right))


def subtract(left: int, right: int) -> int:
    return fitting(signed(left) - signed(right))


def add_modulo(left: int, right: int) -> int:
    return left + right & WORD


def subtract_modulo(left: int, right: int) -> int:
    return left - right & WORD


def and_(left: int, right: int) -> int:
    return left & right


def or_(left: int, right: int) -> int:
    return left | right


def xor(left: int, right: int) -> int:
    return left ^ right


def nor(left: int, right: int) -> int:
    return (left | right) ^ WORD


def equal(left: int, right: int) -> bool:
    return left == right


def differs(left: int, right: int) -> bool:
    return left != right


def less(left: int, right: int) -> bool:
    return signed(left) < signed(right)


def less_unsigned(left: int, right: int) -> bool:
    return left < right


def at_least(left: int, right: int) -> bool:
    return signed(left) >= signed(right)


def at_least_unsigned(left: int, right: int) -> bool:
    return left >= right


def shift_left(word: int, amount: int) -> int:
    return word << amount & WORD


def shift_right(word: int, amount: int) -> int:
    return word >> amount


def shift_right_signed(word: int, amount: int) -> int:
    return signed(word) >> amount & WORD


def halves(product: int) -> tuple[int, int]:
    """HI and LO of a product."""
    return product >> 32 & WORD, product & WORD


def multiply(left: int, right: int) -> tuple[int, int]:
    return halves(signed(left) * signed(right))


def multiply_unsigned(left: int, right: int) -> tuple[int, int]:
    return halves(left * right)


def divide(left: int, right: int) -> tuple[int, int]:
    """The quotient is rounded towards zero, so that the remainder in HI has the dividend's sign. By zero: HI keeps the dividend."""
    if right == 0:
        return left, WORD
    dividend, divisor = signed(left), signed(right)
    quotient = abs(dividend) // abs(divisor)
    if (dividend < 0) != (divisor < 0):
        quotient = -quotient
    return dividend - quotient * divisor & WORD, quotient & WORD


def divide_unsigned(left: int, right: int) -> tuple[int, int]:
    return (left, WORD) if right == 0 else (left % right, left // right)


def merge_left(word: int, register: int, byte: int) -> int:
    """LWL: the word's bytes from this one on become the register's highest; the register's others stay."""
    kept = (1 << 8 * byte) - 1
    return word << 8 * byte & WORD | register & kept


def merge_right(word: int, register: int, byte: int) -> int:
    """LWR: the word's bytes up to this one become the register's lowest; the register's others stay."""
    replaced = (1 << 8 * (byte + 1)) - 1
    return register & ~replaced & WORD | word >> 24 - 8 * byte & replaced
