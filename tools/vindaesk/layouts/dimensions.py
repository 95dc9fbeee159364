"""Dimensions and fractions of compiled files: a word of 32 bits with a number and its unit. The highest 24 bits are a
mantissa with a sign, two bits say by which power of 2 it is divided, and the lowest four are the unit."""
from typing import Optional

# the units of a dimension by their numbers: pixels, density-independent and scaled pixels, points, inches, millimetres
UNITS = ("px", "dp", "sp", "pt", "in", "mm")
# by what a mantissa is divided, as a power of 2, by its radix
RADIXES = (0, 7, 15, 23)


def signed(word: int, bits: int) -> int:
    """A whole number with a sign, stored in this number of bits."""
    return word - (word >> bits - 1 << bits)


def mantissa(word: int) -> int:
    """The mantissa of a word, from -(2 ** 23) to 2 ** 23 - 1."""
    return signed(word >> 8, 24)


def divisor(word: int) -> int:
    """By what the mantissa of a word is divided: a power of 2."""
    return 1 << RADIXES[word >> 4 & 3]


def number(word: int) -> float:
    """The number of a word, exactly."""
    return mantissa(word) / divisor(word)


def unit(word: int) -> Optional[str]:
    """The unit of a dimension; None where there is none of this number."""
    return UNITS[word & 15] if word & 15 < len(UNITS) else None


def text(word: int) -> str:
    """A dimension as sources have it, in six digits; its unit is `?` where there is none of this number."""
    return "%g%s" % (number(word), unit(word) or "?")


def whole(word: int) -> Optional[int]:
    """The number of a word where it is a whole one that a line of a script can say, and else None."""
    if mantissa(word) % divisor(word) or mantissa(word) == -(1 << 23):
        return None
    return mantissa(word) // divisor(word)
