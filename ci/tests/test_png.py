"""PNG files: those of Pillow, and some that are put together here by the words of the PNG specification."""
import io
import os
import random
import struct
import zlib
from typing import Any, Iterator, List

from running import Skipped
from vindaesk.pictures import filters, pillow as by_pillow, png


def part(kind: bytes, body: bytes) -> bytes:
    """A chunk: its length, kind, body and CRC-32 (PNG, 5.3)."""
    return len(body).to_bytes(4, "big") + kind + body + (zlib.crc32(kind + body) & 0xFFFFFFFF).to_bytes(4, "big")


def file_of(head: bytes, lines: bytes, *between: bytes) -> bytes:
    """A file with these bytes of IHDR and these filtered lines, which are in two chunks."""
    packed = zlib.compress(lines)
    data = part(b"IDAT", packed[:5]) + part(b"IDAT", packed[5:])
    return b"\x89PNG\r\n\x1a\n" + part(b"IHDR", head) + b"".join(between) + data + part(b"IEND", b"")


def pillow() -> Any:
    """Pillow, where it is here."""
    try:
        from PIL import Image
    except ImportError:
        raise Skipped("python3-pil", "there is no Pillow")
    return Image


def test_each_filter() -> None:
    """Two lines of two pixels by each filter, worked out by hand (PNG, 9.2): 10 20 30 and 13 25 37 above 16 30 44 and
    19 35 51."""
    above = bytes([0, 10, 20, 30, 13, 25, 37])
    below = {
        0: [16, 30, 44, 19, 35, 51], 1: [16, 30, 44, 3, 5, 7], 2: [6, 10, 14, 6, 10, 14], 3: [11, 20, 29, 5, 8, 11],
        4: [6, 10, 14, 3, 5, 7],
    }
    for kind, line in below.items():
        found = png.parsed(file_of(struct.pack(">IIBBBBB", 2, 2, 8, 2, 0, 0, 0), above + bytes([kind, *line])))
        assert (kind, found.rows) == (kind, [bytes([10, 20, 30, 13, 25, 37]), bytes([16, 30, 44, 19, 35, 51])])


def test_palette_and_alpha() -> None:
    palette = part(b"PLTE", bytes([1, 2, 3, 4, 5, 6]))
    assert png.parsed(file_of(struct.pack(">IIBBBBB", 2, 1, 8, 3, 0, 0, 0), b"\0\1\0", palette)).rows == [
        bytes([4, 5, 6, 1, 2, 3])]
    # over black: 255 * 128 / 255 is 128, and what is clear is black
    head = struct.pack(">IIBBBBB", 2, 1, 8, 6, 0, 0, 0)
    assert png.parsed(file_of(head, bytes([0, 255, 0, 100, 128, 9, 9, 9, 0]))).rows == [bytes([128, 0, 50, 0, 0, 0])]


def test_translucent_pictures() -> None:
    """Each value with each alpha, by whole rows and by Pillow where it is here: times alpha over 255, to the nearest."""
    row = bytes(it for alpha in range(256) for value in range(256) for it in (value, 255 - value, 7, alpha))
    wanted = bytes((it * row[k - k % 4 + 3] + 127) // 255 for k, it in enumerate(row) if k % 4 < 3)
    file = file_of(struct.pack(">IIBBBBB", 65536, 1, 8, 6, 0, 0, 0), b"\0" + row)
    assert png.parsed(file).rows == [wanted]
    before, by_pillow.MANY = by_pillow.MANY, 0
    try:
        assert png.parsed(file).rows == [wanted]
    finally:
        by_pillow.MANY = before


def test_other_chunks_are_passed_over() -> None:
    head = struct.pack(">IIBBBBB", 1, 1, 8, 0, 0, 0, 0)
    extra = [part(b"tEXt", b"Comment\0x"), part(b"gAMA", (45455).to_bytes(4, "big"))]
    assert png.parsed(file_of(head, b"\0\x7f", *extra)) == png.Picture(1, 1, [b"\x7f\x7f\x7f"])


def test_what_is_refused() -> None:
    whole = file_of(struct.pack(">IIBBBBB", 1, 1, 8, 0, 0, 0, 0), b"\0\x7f")
    files: List[bytes] = [whole[:-1], whole[1:], whole.replace(b"IDAT", b"IDAX", 1), b"",
                          file_of(struct.pack(">IIBBBBB", 1, 1, 16, 0, 0, 0, 0), b"\0\x7f\x7f"),
                          file_of(struct.pack(">IIBBBBB", 1, 1, 8, 0, 0, 0, 1), b"\0\x7f"),
                          file_of(struct.pack(">IIBBBBB", 1, 2, 8, 0, 0, 0, 0), b"\0\x7f"),
                          file_of(struct.pack(">IIBBBBB", 1, 1, 8, 0, 0, 0, 0), b"\5\x7f"),
                          file_of(struct.pack(">IIBBBBB", 1 << 16, 1 << 16, 8, 0, 0, 0, 0), b"\0\x7f"),
                          file_of(struct.pack(">IIBBBBB", 1, 1, 8, 3, 0, 0, 0), b"\0\1", part(b"PLTE", b"abc"))]
    for number, file in enumerate(files):
        try:
            found = png.parsed(file)
        except (ValueError, struct.error, zlib.error):
            continue
        raise AssertionError("file %d is read as %s" % (number, found))


def test_files_of_pillow_are_read() -> None:
    image = pillow()
    colours = bytes((k * 37 + k * k) & 255 for k in range(3 * 13 * 7))
    made = image.frombytes("RGB", (13, 7), colours)
    for mode in ("RGB", "RGBA", "L", "LA", "P"):
        for level in (0, 9):
            buffer = io.BytesIO()
            stored = made.convert(mode)
            stored.save(buffer, "PNG", compress_level=level)
            row = 13 * 3
            plain = stored.convert("RGB").tobytes()
            wanted = [plain[k : k + row] for k in range(0, len(plain), row)]
            assert (mode, png.parsed(buffer.getvalue())) == (mode, png.Picture(13, 7, wanted))


def test_pillow_reads_what_is_written() -> None:
    image = pillow()
    rows = [bytes([k, 2 * k, 3 * k, 9, 8, k]) for k in range(5)]
    for scale in (1, 3):
        file = png.written(png.Picture(2, 5, rows), scale)
        found = image.open(io.BytesIO(file))
        assert (found.size, found.mode) == ((2 * scale, 5 * scale), "RGB")
        for y, row in enumerate(rows):
            for x in range(2):
                for at in ((x * scale, y * scale), (x * scale + scale - 1, y * scale + scale - 1)):
                    assert found.getpixel(at) == tuple(row[3 * x : 3 * x + 3])


def test_what_hardly_repeats_is_written() -> None:
    """Rows of so many values at random: the more, the less is looked for what repeats."""
    numbers = random.Random(1)
    for values, level in ((1, 9), (2, 1), (64, 0)):
        rows = [bytes(numbers.randrange(values) for _ in range(300)) for _ in range(50)]
        picture = png.Picture(100, 50, rows)
        assert (values, png.level_of(picture, 9)) == (values, level)
        assert png.parsed(png.written(picture)) == picture


def test_both_ways_read_the_same() -> None:
    """Rows by each filter, of 1 to 4 bytes a pixel: as the specification has them (9.2), by Pillow and without it."""
    random_numbers = random.Random(1)
    for count in range(200):
        step, width, height = random_numbers.randint(1, 4), random_numbers.randint(1, 9), random_numbers.randint(1, 9)
        size = step * width
        lines = [bytes(random_numbers.choice((0, 0, 0, 1, 255, random_numbers.randrange(256))) for _ in range(size))
                 for _ in range(height)]
        plain = b"".join(bytes([random_numbers.randrange(5)]) + line for line in lines)
        wanted = list(by_the_words(plain, size, step))
        assert (count, list(filters.one_by_one(plain, size, step))) == (count, wanted)
        if by_pillow.is_here():
            assert (count, by_pillow.rows(plain, size, step)) == (count, wanted)


def by_the_words(plain: bytes, size: int, step: int) -> Iterator[bytes]:
    """The rows of filtered lines, byte by byte, by the words of the specification (9.2 to 9.4)."""
    above = [0] * size
    for start in range(0, len(plain), size + 1):
        row: List[int] = []
        for k, it in enumerate(plain[start + 1 : start + 1 + size]):
            a, b, c = row[k - step] if k >= step else 0, above[k], above[k - step] if k >= step else 0
            p = a + b - c
            nearest = min((abs(p - a), 0, a), (abs(p - b), 1, b), (abs(p - c), 2, c))[2]
            row.append((it + (0, a, b, (a + b) // 2, nearest)[plain[start]]) % 256)
        yield bytes(row)
        above = row


def test_pillow_is_optional() -> None:
    before = os.environ.get(by_pillow.PLAIN)
    os.environ[by_pillow.PLAIN] = "1"
    try:
        assert not by_pillow.is_here()
    finally:
        del os.environ[by_pillow.PLAIN]
        if before is not None:
            os.environ[by_pillow.PLAIN] = before
