"""The regions of a picture in which pixels are marked."""
import re
from typing import Dict, Iterable, Iterator, List, NamedTuple, Sequence, Tuple

from .bytewise import Lanes

Box = Tuple[int, int, int, int]
# cells beside each other: the number of the first one, and the one after the last
Run = Tuple[int, int]
# marked pixels are in one region where less than two cells are between them; a cell is a square of this side
CELL = 4
RUN = re.compile(b"[^\0]+")
# of numbers of CELL bits: the first one set, the place after the last one, and how many are set
FIRST = bytes((it & -it).bit_length() - 1 if it else CELL for it in range(1 << CELL)).ljust(256, b"\0")
LAST = bytes(it.bit_length() for it in range(1 << CELL)).ljust(256, b"\0")
COUNT = bytes(bin(it).count("1") for it in range(1 << CELL)).ljust(256, b"\0")
ANY = bytes(it > 0 for it in range(256))


class Region(NamedTuple):
    """A part in which pixels are marked: the box around them, and how many there are."""

    box: Box
    pixels: int


class Cells:
    """The cells of a picture, row after row: which rows and which columns of each are marked, and how many pixels."""

    def __init__(self, marks: Sequence[bytes]):
        self.across = -(-len(marks[0]) // CELL)
        whole = b"".join(row.ljust(self.across * CELL, b"\0") for row in marks)
        lanes = Lanes(len(whole) // CELL)
        rows = columns = pixels = 0
        for place in range(CELL):
            column = whole[place::CELL]
            rows |= lanes.number(column)
            columns |= lanes.number(column.translate(ANY)) << place
            pixels += lanes.number(column.translate(COUNT))
        self.rows, self.columns, self.pixels = lanes.row(rows), lanes.row(columns), lanes.row(pixels)
        self.tops, self.bottoms = self.rows.translate(FIRST), self.rows.translate(LAST)

    def runs(self) -> Iterator[List[Run]]:
        """For each row of cells those that are beside each other."""
        for begin in range(0, len(self.rows), self.across):
            yield [it.span() for it in RUN.finditer(self.rows, begin, begin + self.across)]

    def region(self, run: Run) -> Tuple[int, ...]:
        """What is marked in a run: left, top, right and bottom, and how many pixels."""
        first, last = run
        row, place = divmod(first, self.across)
        left, top = place * CELL + FIRST[self.columns[first]], row * CELL
        right = (last - 1 - row * self.across) * CELL + LAST[self.columns[last - 1]]
        if last - first == 1:
            return left, top + self.tops[first], right, top + self.bottoms[first], self.pixels[first]
        own = slice(first, last)
        return left, top + min(self.tops[own]), right, top + max(self.bottoms[own]), sum(self.pixels[own])


class Joined:
    """Numbers, of which some are found to be one."""

    def __init__(self, count: int) -> None:
        self.parents = list(range(count))

    def top(self, number: int) -> int:
        """The number that represents this one by now."""
        parents = self.parents
        while parents[number] != number:
            parents[number] = parents[parents[number]]
            number = parents[number]
        return number

    def join(self, one: int, other: int) -> None:
        """Makes two numbers one."""
        self.parents[self.top(other)] = self.top(one)


def touching(rows: Iterable[List[Run]], across: int) -> Iterator[Tuple[int, int]]:
    """The numbers of each two runs that touch in two rows of cells, at a corner too."""
    above: List[Run] = []
    before = number = 0
    for here in rows:
        place = 0
        for first, last in here:
            first, last = first - across, last - across
            while place < len(above) and above[place][1] < first:
                place += 1
            # the last one that touches may touch the next run too
            at = place
            while at < len(above) and above[at][0] <= last:
                yield before + at, number
                at += 1
            number += 1
        before, above = number - len(here), here


def regions_in(marks: Sequence[bytes]) -> Tuple[Region, ...]:
    """The regions of a picture, of which these are the marks: for each CELL rows a byte for each column, in which bit k
    is of row k. From the top, then from the left. Cells that touch, at a corner too, are in one."""
    cells = Cells(marks)
    rows = list(cells.runs())
    runs = [run for row in rows for run in row]
    joined = Joined(len(runs))
    for one, other in touching(rows, cells.across):
        joined.join(one, other)
    parts: Dict[int, List[Tuple[int, ...]]] = {}
    for number, run in enumerate(runs):
        parts.setdefault(joined.top(number), []).append(cells.region(run))
    found = []
    for part in parts.values():
        if len(part) == 1:
            left, top, right, bottom, pixels = part[0]
            found.append(Region((left, top, right, bottom), pixels))
        else:
            lefts, tops, rights, bottoms, counts = zip(*part)
            found.append(Region((min(lefts), min(tops), max(rights), max(bottoms)), sum(counts)))
    return tuple(sorted(found, key=lambda it: (it.box[1], it.box[0], it)))
