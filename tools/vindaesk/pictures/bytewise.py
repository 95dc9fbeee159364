"""Sums and shares of many bytes at once, each byte by itself: as whole numbers with all of the bytes in
them, since Python takes a hundred times as long for one after the other."""
from typing import List, Tuple


def repeated(part: bytes, count: int) -> int:
    """The number of this many bytes, which are a part again and again."""
    return int.from_bytes((part * (count // len(part) + 1))[:count], "little")


class Lanes:
    """Calculates with rows of this number of bytes."""

    def __init__(self, count: int):
        self.count = count
        self.tops, self.rest = repeated(b"\x80", count), repeated(b"\x7f", count)

    def number(self, row: bytes) -> int:
        """A row as a number."""
        return int.from_bytes(row, "little")

    def row(self, number: int) -> bytes:
        """The row of a number."""
        return number.to_bytes(self.count, "little")

    def sums(self, one: int, other: int) -> int:
        """The sum of each two bytes, less 256 where it is that or more."""
        return ((one & self.rest) + (other & self.rest)) ^ ((one ^ other) & self.tops)


class Wide:
    """The same with two bytes of room for each."""

    def __init__(self, count: int):
        self.count = count
        self.ones = repeated(b"\1\0", 2 * count)

    def number(self, row: bytes) -> int:
        """A row as a number."""
        made = bytearray(2 * self.count)
        made[::2] = row
        return int.from_bytes(made, "little")

    def row(self, number: int) -> bytes:
        """The row of a number of which each part is below 256."""
        return number.to_bytes(2 * self.count, "little")[::2]

    def masks(self, row: bytes) -> List[int]:
        """For each of the eight bits of bytes, from the lowest, all bits where it is set."""
        number = self.number(row)
        return [((number >> bit) & self.ones) * 0xFFFF for bit in range(8)]

    def shares(self, row: bytes, masks: List[int]) -> bytes:
        """Each byte times another one, by the masks of these, over 255, to the nearest."""
        number = self.number(row)
        product = 128 * self.ones
        for bit, mask in enumerate(masks):
            product += (number << bit) & mask
        # x + 128 with its 256th added, over 256, is x over 255 to the nearest, where x is at most 255 * 255
        quotient = (product + ((product >> 8) & (255 * self.ones))) >> 8
        return self.row(quotient & (255 * self.ones))


def stretched(row: bytes, step: int, times: int) -> bytes:
    """A row with each group of `step` bytes a number of times."""
    made = bytearray(len(row) * times)
    for place in range(step):
        for copy in range(times):
            made[place + step * copy :: step * times] = row[place::step]
    return bytes(made)


def interleaved(parts: Tuple[bytes, bytes, bytes]) -> bytes:
    """The bytes of three rows in turn."""
    made = bytearray(3 * len(parts[0]))
    made[0::3], made[1::3], made[2::3] = parts
    return bytes(made)
