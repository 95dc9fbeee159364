"""Where two pictures differ."""
from typing import Iterator, NamedTuple, Tuple

from .bytewise import Lanes, repeated
from .marking import Marks, marks_of
from .png import Picture
from .regions import CELL, Box, Region, regions_in

QUARTER = bytes(it // 4 for it in range(256))
RED = b"\xff\0\0"
# for each row of a cell 1 for the bytes in which its bit is set
BITS = [bytes(it >> k & 1 for it in range(256)) for k in range(CELL)]


class Difference(NamedTuple):
    """How many pixels differ, the greatest difference of a channel, the box around them, and their regions, from the
    top; and which they are."""

    pixels: int
    greatest: int
    box: Box
    regions: Tuple[Region, ...]
    marks: Marks


def compared(before: Picture, after: Picture, tolerance: int = 0) -> Difference:
    """How two pictures of one size differ."""
    marks = marks_of(before, after, tolerance)
    regions = regions_in(marks.rows) if marks.greatest else ()
    if not regions:
        return Difference(0, 0, (0, 0, 0, 0), (), marks)
    boxes = list(zip(*(it.box for it in regions)))
    box = (min(boxes[0]), min(boxes[1]), max(boxes[2]), max(boxes[3]))
    return Difference(sum(it.pixels for it in regions), marks.greatest, box, regions, marks)


def dimmed(before: Picture, marks: Marks) -> Iterator[bytes]:
    """The rows of a picture at a quarter of its light, with a red pixel in the place of each that is marked."""
    lanes = Lanes(3 * before.width)
    rest = repeated(b"\0\xff\xff", lanes.count)
    for number, row in enumerate(before.rows):
        marked = marks.rows[number // CELL].translate(BITS[number % CELL])
        if 1 not in marked:
            yield row.translate(QUARTER)
        elif 0 not in marked:
            yield RED * before.width
        else:
            wide = bytearray(lanes.count)
            wide[::3] = marked
            mask = lanes.number(wide) * 0xFFFFFF
            yield lanes.row((lanes.number(row.translate(QUARTER)) | mask) ^ (mask & rest))


def drawn(before: Picture, found: Difference) -> Picture:
    """A picture of a difference: the first one dimmed, and red where they differ."""
    return Picture(before.width, before.height, list(dimmed(before, found.marks)))


def in_words(found: Difference) -> str:
    """A difference in words."""
    if not found.pixels:
        return "no pixel differs"
    verb = "pixel differs" if found.pixels == 1 else "pixels differ"
    return "%d %s, by at most %d, within %s" % (found.pixels, verb, found.greatest, "%d %d %d %d" % found.box)
