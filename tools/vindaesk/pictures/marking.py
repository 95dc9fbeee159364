"""Which pixels of two pictures differ. A row is calculated with as one whole number."""
from typing import List, NamedTuple

from .bytewise import repeated
from .png import Picture
from .regions import CELL

# the greatest difference that there is
MOST = 255
# rows are compared in an order that jumps by this part of them, so that the greatest difference is met soon
JUMP = 0.618


class Marks(NamedTuple):
    """The pixels that differ: for each CELL rows a byte for each of their columns, in which bit k is of row k; and the
    greatest difference of a channel, 0 where no pixel differs."""

    rows: List[bytes]
    greatest: int


class Limit:
    """A difference that bytes of a row may have."""

    def __init__(self, most: int, size: int):
        self.most = most
        # bit 9 of the sum with a difference is set where it is greater, and of that with its opposite where it is less
        self.even, self.odd = ((511 - most) * repeated(it, size) for it in (b"\1\0", b"\0\1"))
        self.over_even, self.over_odd = (repeated(it, size) << 9 for it in (b"\1\0", b"\0\1"))

    def beyond(self, even: int, odd: int) -> int:
        """A bit in each byte whose difference is beyond; given are those at even places, and those at odd places, each
        with the room of two bytes."""
        evens = ((self.even + even) | (self.even - even)) & self.over_even
        odds = ((self.odd + odd) | (self.odd - odd)) & self.over_odd
        return (evens | odds) >> 9


class Marker:
    """Finds the pixels of rows of a width that differ by more than a tolerance."""

    def __init__(self, width: int, tolerance: int):
        self.size = 3 * width
        self.tolerance = Limit(tolerance, self.size)
        # no difference that was found is greater
        self.greatest = self.tolerance
        self.even = repeated(b"\xff\0", self.size)
        self.tops, self.rest = repeated(b"\0\0\x80", self.size), repeated(b"\xff\xff\x7f", self.size)

    def marked(self, before: bytes, after: bytes) -> int:
        """The top bit of each pixel that differs."""
        one, other = (int.from_bytes(it, "little") for it in (before, after))
        found = one ^ other
        if self.tolerance.most or self.greatest.most < MOST:
            evens, others = one & self.even, other & self.even
            parts = evens - others, (one ^ evens) - (other ^ others)
            if self.tolerance.most:
                found = self.tolerance.beyond(*parts)
            if self.greatest.most < MOST and self.greatest.beyond(*parts):
                self.greatest = Limit(max(abs(a - b) for a, b in zip(before, after)), self.size)
        # what is added carries into the top bit where another one is set
        return (((found & self.rest) + self.rest) | found) & self.tops

    def together(self, rows: List[int]) -> bytes:
        """What was marked in up to CELL rows, as `Marks` has it."""
        if not any(rows):
            return bytes(self.size // 3)
        if all(it == self.tops for it in rows):
            return bytes([(1 << len(rows)) - 1]) * (self.size // 3)
        bits = 0
        for k, it in enumerate(rows):
            bits |= it >> (23 - k)
        return bits.to_bytes(self.size, "little")[::3]


def marks_of(before: Picture, after: Picture, tolerance: int) -> Marks:
    """The pixels of two pictures of one size that differ by more than a tolerance."""
    marker = Marker(before.width, tolerance)
    found = [0] * before.height
    for k in sorted(range(before.height), key=lambda k: k * JUMP % 1):
        # rows that are the same are not calculated with
        if before.rows[k] != after.rows[k]:
            found[k] = marker.marked(before.rows[k], after.rows[k])
    rows = [marker.together(found[top : top + CELL]) for top in range(0, before.height, CELL)]
    return Marks(rows, marker.greatest.most if any(found) else 0)
