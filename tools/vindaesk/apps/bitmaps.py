"""Bitmaps of apps: their size, the padding of a nine-patch, and the mean of their colours."""
import contextlib
import operator
import struct
import zlib
from typing import Iterable, Iterator, List, NamedTuple, Optional, Tuple

from ..pictures import chunks, filters, png

# the mean colour is that of this many pixels at the top: more would take a second
MAX_PIXELS = 1 << 15
MAX_SIDE = 1 << 14
# a nine-patch that is drawn by people has its marks at all four sides
MAX_SOURCE = 1 << 18
# where the padding of a compiled nine-patch is in its chunk: left, right, top and bottom
PADDING_AT = 12
Edges = Tuple[int, int, int, int]


class Bitmap(NamedTuple):
    """Width and height in its own pixels; the padding of a nine-patch as left, top, right and bottom; the mean colour,
    0xAARRGGBB, where it is known."""

    width: int
    height: int
    padding: Optional[Edges] = None
    colour: Optional[int] = None


def colour_parts(row: bytes, form: int, palette: bytes, alphas: bytes) -> List[Tuple[int, int, int, int]]:
    """Alpha, red, green and blue of the pixels of a row, by the colour type of its file."""
    if form == 0:
        return [(255, it, it, it) for it in row]
    if form == 2:
        return [(255, *it) for it in zip(row[0::3], row[1::3], row[2::3])]
    if form == 3:
        known = [(palette[3 * it], palette[3 * it + 1], palette[3 * it + 2]) for it in range(len(palette) // 3)]
        return [(alphas[it] if it < len(alphas) else 255, *known[it]) for it in row]
    if form == 4:
        return [(row[k + 1], row[k], row[k], row[k]) for k in range(0, len(row), 2)]
    return list(zip(row[3::4], row[0::4], row[1::4], row[2::4]))


def mean(pixels: List[Tuple[int, int, int, int]]) -> int:
    """The mean of colours: that of alpha, and of the others by their alpha."""
    weight = sum(it[0] for it in pixels)
    if not weight:
        return 0
    found = weight // len(pixels)
    for part in (1, 2, 3):
        found = found << 8 | sum(it[0] * it[part] for it in pixels) // weight
    return found


def planes(row: bytes, form: int, palette: bytes, alphas: bytes) -> Tuple[bytes, bytes, bytes, bytes]:
    """Alphas, reds, greens and blues of a row, by the colour type of its file."""
    if form == 3:
        red, green, blue = (row.translate(table(palette[part::3], 0)) for part in range(3))
        if 3 * max(row) + 2 >= len(palette):
            raise ValueError("a colour is not in the palette")
        return row.translate(table(alphas, 255)), red, green, blue
    if form in (4, 6):
        step = png.BYTES[form]
        red, green, blue = (row[min(part, step - 2) :: step] for part in range(3))
        return row[step - 1 :: step], red, green, blue
    red, green, blue = (row, row, row) if form == 0 else (row[0::3], row[1::3], row[2::3])
    return b"\xff" * len(red), red, green, blue


def table(known: bytes, otherwise: int) -> bytes:
    """The bytes that replace each of 256."""
    return known[:256] + bytes([otherwise]) * max(256 - len(known), 0)


def mean_of(rows: Iterable[bytes], parts: "PngParts") -> int:
    """The mean colour of rows, as `mean` has it."""
    form, count, weight, sums = parts.head[9], 0, 0, [0, 0, 0]
    for row in rows:
        alphas, *others = planes(row, form, parts.palette, parts.alphas)
        count += len(alphas)
        weight += sum(alphas)
        for part, it in enumerate(others):
            sums[part] += sum(map(operator.mul, alphas, it))
    if not weight:
        return 0
    found = weight // count
    for total in sums:
        found = found << 8 | total // weight
    return found


class PngParts(NamedTuple):
    """What a PNG file has: the fields of its header, its palette with alphas, its rows packed, and a nine-patch."""

    head: bytes
    palette: bytes
    alphas: bytes
    body: bytes
    patch: bytes


def parts_of(data: bytes) -> PngParts:
    """The parts of a PNG file."""
    head = palette = alphas = patch = b""
    body: List[bytes] = []
    for kind, part in png.chunks(data):
        head = part if kind == b"IHDR" else head
        palette = part if kind == b"PLTE" else palette
        alphas = part if kind == b"tRNS" else alphas
        patch = part if kind == b"npTc" else patch
        body += [part] if kind == b"IDAT" else []
    return PngParts(head, palette, alphas, b"".join(body), patch)


def rows_of(parts: PngParts, most: int) -> Iterator[bytes]:
    """The first rows of a PNG file, without filters."""
    width, height, _, form = struct.unpack_from(">IIBB", parts.head)
    step = png.BYTES[form]
    size = width * step
    wanted = min(height, most) * (size + 1)
    plain = zlib.decompressobj().decompress(parts.body, wanted)
    return filters.one_by_one(plain[: len(plain) // (size + 1) * (size + 1)], size, step)


def has_rows(parts: PngParts) -> bool:
    """Whether the rows can be read: 8 bits a channel, not interlaced, no side too long."""
    width, height, bits, form, *others = struct.unpack(">IIBBBBB", parts.head)
    return bits == 8 and form in png.BYTES and others == [0, 0, 0] and 0 < width <= MAX_SIDE and 0 < height <= MAX_SIDE


def pixels_of(parts: PngParts, most: int) -> Optional[List[List[Tuple[int, int, int, int]]]]:
    """The pixels of a PNG file, row by row, up to about `most` of them, where it has 8 bits a channel."""
    if not has_rows(parts):
        return None
    (width,) = struct.unpack_from(">I", parts.head)
    rows = rows_of(parts, max(most // width, 1))
    return [colour_parts(row, parts.head[9], parts.palette, parts.alphas) for row in rows]


def of_png(data: bytes, has_colour: bool = True) -> Bitmap:
    """The bitmap of a PNG file; what is wrong with it is a ValueError."""
    parts = parts_of(data)
    width, height = struct.unpack_from(">II", parts.head)
    padding = None
    if len(parts.patch) >= PADDING_AT + 16:
        left, right, top, bottom = struct.unpack_from(">iiii", parts.patch, PADDING_AT)
        padding = left, top, right, bottom
    colour = None
    if has_colour and has_rows(parts):
        with contextlib.suppress(ValueError, zlib.error, IndexError):
            colour = mean_of(rows_of(parts, max(MAX_PIXELS // width, 1)), parts)
    return Bitmap(width, height, padding, colour)


def run(line: List[Tuple[int, int, int, int]]) -> Tuple[int, int]:
    """How many pixels are before the first black one of a line, and after the last one, its corners not counted."""
    marked = [k for k, it in enumerate(line[1:-1]) if it == (255, 0, 0, 0)]
    return (marked[0], len(line) - 3 - marked[-1]) if marked else (-1, -1)


def of_nine_patch_source(data: bytes) -> Bitmap:
    """The bitmap of a nine-patch as people draw it: its border of one pixel says at the right and at the bottom
    where the content is, or else at the left and at the top where it stretches."""
    found = of_png(data, False)
    rows = pixels_of(parts_of(data), MAX_SOURCE)
    if rows is None or len(rows) < found.height or found.width < 3 or found.height < 3:
        return found._replace(width=max(found.width - 2, 1), height=max(found.height - 2, 1))
    across, down = run(rows[-1]), run([row[-1] for row in rows])
    across = run(rows[0]) if across[0] < 0 else across
    down = run([row[0] for row in rows]) if down[0] < 0 else down
    padding = tuple(max(it, 0) for it in (across[0], down[0], across[1], down[1]))
    colour = mean([it for row in rows[1:-1] for it in row[1:-1]])
    return Bitmap(found.width - 2, found.height - 2, (padding[0], padding[1], padding[2], padding[3]), colour)


def of_jpeg(data: bytes) -> Optional[Bitmap]:
    """The size of a JPEG file: that of its first frame."""
    at = 2
    while at + 9 <= len(data) and data[at] == 0xFF:
        kind = data[at + 1]
        if 0xC0 <= kind <= 0xCF and kind not in (0xC4, 0xC8, 0xCC):
            height, width = struct.unpack_from(">HH", data, at + 5)
            return Bitmap(width, height)
        at += 2 + struct.unpack_from(">H", data, at + 2)[0]
    return None


def of_webp(data: bytes) -> Optional[Bitmap]:
    """The size of a WebP file, in each of its three forms."""
    if data[12:16] == b"VP8X":
        width, height = (int.from_bytes(data[k : k + 3], "little") + 1 for k in (24, 27))
        return Bitmap(width, height)
    if data[12:16] == b"VP8L":
        bits = int.from_bytes(data[21:25], "little")
        return Bitmap((bits & 0x3FFF) + 1, (bits >> 14 & 0x3FFF) + 1)
    if data[12:16] == b"VP8 ":
        width, height = struct.unpack_from("<HH", data, 26)
        return Bitmap(width & 0x3FFF, height & 0x3FFF)
    return None


def read(data: bytes, is_nine_patch_source: bool = False, has_colour: bool = True) -> Optional[Bitmap]:
    """The bitmap of a file, with its colour where that is asked for; nothing where it is of no known form, or
    broken."""
    try:
        if data.startswith(chunks.SIGNATURE):
            return of_nine_patch_source(data) if is_nine_patch_source else of_png(data, has_colour)
        if data.startswith(b"\xff\xd8"):
            return of_jpeg(data)
        if data[:6] in (b"GIF87a", b"GIF89a"):
            return Bitmap(*struct.unpack_from("<HH", data, 6))
        if data[:4] == b"RIFF" and data[8:12] == b"WEBP":
            return of_webp(data)
    except (ValueError, struct.error, zlib.error, IndexError):
        return None
    return None
