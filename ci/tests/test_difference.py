"""Where pictures differ, beside a reckoning pixel by pixel."""
import random
from typing import List, Set, Tuple

from vindaesk.pictures import difference, png
from vindaesk.pictures.bytewise import Lanes, Wide
from vindaesk.pictures.marking import Marker
from vindaesk.pictures.png import Picture
from vindaesk.pictures.regions import Box

Point = Tuple[int, int]


def test_lanes() -> None:
    """Each two bytes there are."""
    lanes = Lanes(65536)
    one, other = bytes(k >> 8 for k in range(65536)), bytes(k & 255 for k in range(65536))
    numbers = lanes.number(one), lanes.number(other)
    pairs = list(zip(one, other))
    assert lanes.row(lanes.sums(*numbers)) == bytes((a + b) & 255 for a, b in pairs)
    wide = Wide(65536)
    assert wide.shares(one, wide.masks(other)) == bytes((a * b + 127) // 255 for a, b in pairs)


def groups(points: Set[Point]) -> List[Set[Point]]:
    """Points whose squares of 4 by 4 touch, at a corner too."""
    left, found = set(points), []
    while left:
        group, new = set(), {left.pop()}
        while new:
            group |= new
            cells = {(x // 4 + i, y // 4 + j) for x, y in new for i in (-1, 0, 1) for j in (-1, 0, 1)}
            new = {it for it in left if (it[0] // 4, it[1] // 4) in cells}
            left -= new
        found.append(group)
    return found


def box_of(points: Set[Point]) -> Box:
    """The box around points."""
    return (min(x for x, _ in points), min(y for _, y in points), max(x for x, _ in points) + 1, max(y for _, y in points) + 1)


def test_limits() -> None:
    """Each two bytes there are, at even places and at odd ones, beside differences that they may have."""
    one, other = bytes(k >> 8 for k in range(65536)), bytes(k & 255 for k in range(65536))
    for shift in (0, 1):
        before, after = (bytes(shift) + it + bytes(1 - shift) for it in (one, other))
        apart = [max(abs(before[k + i] - after[k + i]) for i in range(3)) for k in range(0, 65537 - 2, 3)]
        for most in (0, 1, 2, 63, 127, 128, 200, 254, 255):
            marker = Marker(len(apart), most)
            size = marker.size
            found = marker.marked(before[:size], after[:size]).to_bytes(size, "little")
            assert found == b"".join(b"\0\0\x80" if it > most else b"\0\0\0" for it in apart)
            assert marker.greatest.most == 255


def test_pictures() -> None:
    compares_pictures(2)


def compares_pictures(seed: int) -> None:
    """Compares pictures that are made at random."""
    numbers = random.Random(seed)
    for count in range(150):
        width, height, tolerance = numbers.randint(1, 40), numbers.randint(1, 30), numbers.choice((0, 0, 1, 5, 254, 255))
        before = [bytes(numbers.choice((0, 1, 255, numbers.randrange(256))) for _ in range(3 * width)) for _ in range(height)]
        after = [bytearray(row) for row in before]
        for _ in range(numbers.choice((0, 1, 4, 20, 300))):
            after[numbers.randrange(height)][numbers.randrange(3 * width)] = numbers.randrange(256)
        apart = {(x, y): max(abs(before[y][3 * x + k] - after[y][3 * x + k]) for k in range(3))
                 for x in range(width) for y in range(height)}
        points = {it for it in apart if apart[it] > tolerance}
        first = Picture(width, height, before)
        found = difference.compared(first, Picture(width, height, [bytes(it) for it in after]), tolerance)
        picture = difference.drawn(first, found)
        assert (count, found.pixels) == (count, len(points))
        assert found.greatest == max((apart[it] for it in points), default=0)
        assert found.box == (box_of(points) if points else (0, 0, 0, 0))
        assert sorted((it.box, it.pixels) for it in found.regions) == sorted((box_of(it), len(it)) for it in groups(points))
        for x, y in apart:
            dimmed = bytes(it // 4 for it in before[y][3 * x : 3 * x + 3])
            assert picture.rows[y][3 * x : 3 * x + 3] == (b"\xff\0\0" if (x, y) in points else dimmed)


def test_scale() -> None:
    numbers = random.Random(3)
    rows = [bytes(numbers.randrange(256) for _ in range(15)) for _ in range(4)]
    for scale in range(1, 9):
        found = png.parsed(png.written(Picture(5, 4, rows), scale))
        wanted = [b"".join(row[k : k + 3] * scale for k in range(0, 15, 3)) for row in rows for _ in range(scale)]
        assert (found.width, found.height, found.rows) == (5 * scale, 4 * scale, wanted)
