"""Typed values of resources: `Res_value` of Android's ResourceTypes.h. Dimensions and fractions are exact."""
import struct
from dataclasses import dataclass
from enum import Enum, IntEnum
from fractions import Fraction
from typing import Optional

from ..common.failures import Failure


class Type(IntEnum):
    """The types of values."""

    NULL = 0x00
    REFERENCE = 0x01
    ATTRIBUTE = 0x02
    STRING = 0x03
    FLOAT = 0x04
    DIMENSION = 0x05
    FRACTION = 0x06
    DYNAMIC_REFERENCE = 0x07
    DYNAMIC_ATTRIBUTE = 0x08
    INT_DEC = 0x10
    INT_HEX = 0x11
    INT_BOOLEAN = 0x12
    COLOR_ARGB8 = 0x1C
    COLOR_RGB8 = 0x1D
    COLOR_ARGB4 = 0x1E
    COLOR_RGB4 = 0x1F


TYPES = {int(it): it for it in Type}
# the word of a NULL that is @empty and not @null
EMPTY = 1


class Unit(Enum):
    """The units of dimensions and fractions; the value is what is written after the number."""

    PX = "px"
    DP = "dp"
    SP = "sp"
    PT = "pt"
    IN = "in"
    MM = "mm"
    FRACTION = "%"
    FRACTION_PARENT = "%p"


DIMENSIONS = (Unit.PX, Unit.DP, Unit.SP, Unit.PT, Unit.IN, Unit.MM)
FRACTIONS = (Unit.FRACTION, Unit.FRACTION_PARENT)
# how many bits of a mantissa are after the point, by the number of its radix
POINTS = (0, 7, 15, 23)
INCH = Fraction(254, 10)


@dataclass(frozen=True)
class Complex:
    """A dimension or a fraction: its amount (of a fraction 1 for 100 %) and its unit."""

    amount: Fraction
    unit: Unit

    def pixels(self, density: int, font_scale: Fraction = Fraction(1)) -> Fraction:
        """How many pixels a dimension is at a density in dpi, not rounded; Failure for a fraction."""
        scales = {
            Unit.PX: Fraction(1), Unit.DP: Fraction(density, 160), Unit.SP: Fraction(density, 160) * font_scale,
            Unit.PT: Fraction(density, 72), Unit.IN: Fraction(density), Unit.MM: density / INCH,
        }
        if self.unit not in scales:
            raise Failure("a fraction has no length in pixels")
        return self.amount * scales[self.unit]


def complex_of(kind: int, data: int) -> Optional[Complex]:
    """The dimension or fraction of a word, or None where it has no unit that Android knows."""
    units = DIMENSIONS if kind == Type.DIMENSION else FRACTIONS
    mantissa = (data >> 8) - (1 << 24 if data >> 31 else 0)
    if data & 15 >= len(units):
        return None
    return Complex(Fraction(mantissa, 1 << POINTS[data >> 4 & 3]), units[data & 15])


@dataclass(frozen=True)
class Value:
    """A value: its type (a plain number where Android has no name for it), its word of 32 bits, the text of a string,
    and the file whose table has it. References of shared libraries and of staged ids are those of the resource that
    they mean."""

    type: int
    data: int
    text: Optional[str] = None
    source: str = ""

    @property
    def is_null(self) -> bool:
        """Whether it is @null."""
        return self.data == 0 and self.type in (Type.NULL, Type.REFERENCE, Type.DYNAMIC_REFERENCE)

    @property
    def is_unset(self) -> bool:
        """Whether an item of a theme with it counts as none: a NULL that is not @empty."""
        return self.type == Type.NULL and self.data != EMPTY

    @property
    def is_empty(self) -> bool:
        """Whether it is @empty."""
        return self.type == Type.NULL and self.data == EMPTY

    @property
    def is_reference(self) -> bool:
        """Whether it is a reference to a resource."""
        return self.type == Type.REFERENCE and self.data != 0

    @property
    def is_foreign(self) -> bool:
        """Whether it refers to a shared library that is not there: its word is an id of that library's own."""
        return self.type in (Type.DYNAMIC_REFERENCE, Type.DYNAMIC_ATTRIBUTE) and self.data != 0

    @property
    def is_attribute(self) -> bool:
        """Whether it is a reference to an attribute of the theme."""
        return self.type == Type.ATTRIBUTE

    @property
    def is_string(self) -> bool:
        """Whether it is a text, or the path of a file."""
        return self.type == Type.STRING

    @property
    def is_color(self) -> bool:
        """Whether it is a colour."""
        return Type.COLOR_ARGB8 <= self.type <= Type.COLOR_RGB4

    @property
    def is_int(self) -> bool:
        """Whether it is a whole number, but no colour and no boolean."""
        return self.type in (Type.INT_DEC, Type.INT_HEX)

    @property
    def is_boolean(self) -> bool:
        """Whether it is true or false."""
        return self.type == Type.INT_BOOLEAN

    def complex(self) -> Complex:
        """The dimension or fraction that it is, exactly; Failure where it is none."""
        found = complex_of(self.type, self.data) if self.type in (Type.DIMENSION, Type.FRACTION) else None
        if found is None:
            raise Failure("%s is no dimension and no fraction" % self)
        return found

    def real(self) -> float:
        """The number that a FLOAT is, with the precision of 32 bits."""
        return float(struct.unpack("<f", struct.pack("<I", self.data))[0])

    def number(self) -> int:
        """The word as a signed number."""
        return self.data - (1 << 32 if self.data >> 31 else 0)

    def boolean(self) -> bool:
        """Whether the word is not 0."""
        return self.data != 0

    def color(self) -> int:
        """The colour as 0xAARRGGBB."""
        return self.data

    def __str__(self) -> str:
        return write_value(self)


def write_value(it: Value) -> str:
    """A value as a source of resources has it."""
    if it.type == Type.STRING:
        return '"%s"' % it.text
    if it.is_null or it.is_empty:
        return "@empty" if it.is_empty else "@null"
    if it.is_reference or it.is_attribute or it.is_foreign:
        return "%s0x%08x" % ("?" if it.type in (Type.ATTRIBUTE, Type.DYNAMIC_ATTRIBUTE) else "@", it.data)
    if it.type in (Type.DIMENSION, Type.FRACTION):
        found = complex_of(it.type, it.data)
        if found is not None:
            scale = 100 if it.type == Type.FRACTION else 1
            return "%s%s" % (decimal(found.amount * scale), found.unit.value)
    if it.is_boolean:
        return "true" if it.data else "false"
    if it.is_color:
        return "#%08x" % it.data
    words = {Type.INT_DEC: "%d" % it.number(), Type.INT_HEX: "0x%08x" % it.data, Type.FLOAT: "%g" % it.real()}
    return words.get(TYPES.get(it.type, Type.NULL), "(type 0x%02x) 0x%08x" % (it.type, it.data))


def decimal(amount: Fraction) -> str:
    """An amount with as many digits as it has; all have an end, since the denominators are powers of two."""
    whole, rest = divmod(abs(amount), 1)
    digits = ""
    while rest:
        digit, rest = divmod(rest * 10, 1)
        digits += str(digit)
    return "%s%d%s" % ("-" if amount < 0 else "", whole, "." + digits if digits else "")
