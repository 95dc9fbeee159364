"""The rows of a PNG file without the filters by which they are stored, by Pillow where it is installed, or row by row.

A row is stored as the differences to a guess: 0 none, 1 the pixel before, 2 the one above, 3 the mean of both, 4 that
of both and of the one between them that is nearest to the plane through them. Both ways have the same rows.
"""
import re
import zlib
from typing import Iterator

from . import pillow
from .bytewise import Lanes

NOT_ZERO = re.compile(b"[^\0]")


def summed(line: bytes, step: int, lanes: Lanes) -> bytes:
    """A row from its differences to the pixel before: the sums of two, of four and so on, up to all of them."""
    found, shift, bits = lanes.number(line), 8 * step, 8 * len(line)
    whole = (1 << bits) - 1
    while shift < bits:
        found = lanes.sums(found, (found << shift) & whole)
        shift *= 2
    return lanes.row(found)


def averaged(line: bytes, above: bytes, step: int) -> bytes:
    """A row from its differences to the mean of the pixel before and the one above."""
    row = bytearray(line)
    for k in range(step):
        row[k] = (row[k] + above[k] // 2) & 255
    for k in range(step, len(row)):
        row[k] = (row[k] + (row[k - step] + above[k]) // 2) & 255
    return bytes(row)


def below(left: int, up: int, corner: int) -> int:
    """Which of three neighbours is nearest to the plane through them."""
    across, down, both = abs(up - corner), abs(left - corner), abs(left + up - 2 * corner)
    if across <= down and across <= both:
        return left
    return up if down <= both else corner


def on_planes(line: bytes, above: bytes, step: int) -> bytes:
    """A row from its differences to what `below` chooses. Where a pixel is the one above, so are the next ones as long
    as the differences are 0; all others are calculated one by one, by `below` as it is written out here."""
    row = bytearray(above)
    at, size = 0, len(line)
    while True:
        found = NOT_ZERO.search(line, at)
        if not found:
            return bytes(row)
        start = found.start() - found.start() % step
        for at in range(start, size, step):
            for k in range(at, at + step):
                up = above[k]
                left, corner = (row[k - step], above[k - step]) if at else (0, 0)
                across, down = up - corner, left - corner
                both = abs(across + down)
                across, down = abs(across), abs(down)
                guess = left if across <= down and across <= both else up if down <= both else corner
                row[k] = (line[k] + guess) & 255
            if row[at : at + step] == above[at : at + step]:
                break
        at += step
        if at >= size:
            return bytes(row)


def unfiltered(kind: int, line: bytes, above: bytes, step: int, lanes: Lanes) -> bytes:
    """A row from its filtered bytes and the row above; a pixel has `step` bytes."""
    if kind == 0:
        return line
    if kind == 1:
        return summed(line, step, lanes)
    if kind == 2:
        return lanes.row(lanes.sums(lanes.number(line), lanes.number(above)))
    if kind > 4:
        raise ValueError("a row has an unknown filter")
    return averaged(line, above, step) if kind == 3 else on_planes(line, above, step)


def one_by_one(plain: bytes, size: int, step: int) -> Iterator[bytes]:
    """The rows of a picture, each of which has its filter and `size` bytes."""
    lanes = Lanes(size)
    above = bytes(size)
    for at in range(0, len(plain), size + 1):
        above = unfiltered(plain[at], plain[at + 1 : at + 1 + size], above, step, lanes)
        yield above


def rows(packed: bytes, width: int, height: int, step: int) -> Iterator[bytes]:
    """The rows of a picture of which this is the data, packed. What is wrong with it is a `ValueError`."""
    size = width * step
    wanted = height * (size + 1)
    plain = zlib.decompressobj().decompress(packed, wanted + 1)
    if len(plain) != wanted:
        raise ValueError("it has too few or too many rows")
    kinds = set(plain[:: size + 1])
    if max(kinds) > 4:
        raise ValueError("a row has an unknown filter")
    # those that are quick here are not worth the start of Pillow
    if kinds & {1, 3, 4} and pillow.is_here():
        return iter(pillow.rows(plain, size, step))
    return one_by_one(plain, size, step)
