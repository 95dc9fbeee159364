"""PNG files: a picture is written with 8 bits for each of red, green and blue, and read from any form of 8 bits a
channel that is not interlaced."""
import struct
import zlib
from typing import Iterator, List, NamedTuple, Tuple

from ..common import progress
from ..common.failures import Failure, NOT_RUN
from . import filters, pillow
from .bytewise import Wide, interleaved, stretched
from .chunks import SIGNATURE, chunk

# how many bytes a pixel has, by the colour type: grey, colour, palette, grey and alpha, colour and alpha
BYTES = {0: 1, 2: 3, 3: 1, 4: 2, 6: 4}
# more than four times what any device shows
MAX_PIXELS = 1 << 24
# of how many rows it is tried how small they can be packed, and from which parts of their size on a picture is taken to
# be noise, which is stored as it is, or to vary much
TRIED, NOISE, VARIED = 16, 0.4, 0.1


class Picture(NamedTuple):
    """A picture: each row is the bytes red, green and blue of its pixels."""

    width: int
    height: int
    rows: List[bytes]


def scanlines(picture: Picture, scale: int) -> Iterator[bytes]:
    """The rows of a file, each after its filter: 0 as it is, 2 the difference to the row above."""
    same = b"\x02" + bytes(3 * scale * picture.width)
    for row in picture.rows:
        yield b"\0" + (stretched(row, 3, scale) if scale > 1 else row)
        for _ in range(scale - 1):
            yield same


def level_of(picture: Picture, level: int) -> int:
    """The level of zlib by which a picture is packed: the given one, or a lower one where little of it repeats, so that
    looking for it would take long and save little."""
    some = b"".join(picture.rows[:: picture.height // TRIED + 1])
    share = len(zlib.compress(some, 1)) / len(some)
    return 0 if share > NOISE else min(level, 1) if share > VARIED else level


def written(picture: Picture, scale: int = 1, level: int = 9) -> bytes:
    """A picture as a file, each of its pixels as a square of `scale` by `scale`; the level is that of zlib at most."""
    packer = zlib.compressobj(level_of(picture, level))
    body = b"".join(packer.compress(line) for line in scanlines(picture, scale)) + packer.flush()
    head = struct.pack(">IIBBBBB", picture.width * scale, picture.height * scale, 8, 2, 0, 0, 0)
    return SIGNATURE + chunk(b"IHDR", head) + chunk(b"IDAT", body) + chunk(b"IEND", b"")


def chunks(file: bytes) -> Iterator[Tuple[bytes, bytes]]:
    """The kind and the body of each chunk up to the last one."""
    at = len(SIGNATURE)
    kind = b""
    while kind != b"IEND":
        size, kind = struct.unpack_from(">I4s", file, at)
        body = file[at + 8 : at + 8 + size]
        (check,) = struct.unpack_from(">I", file, at + 8 + size)
        if check != zlib.crc32(kind + body):
            raise ValueError("a chunk is damaged")
        yield kind, body
        at += 12 + size


def over_black(row: bytes, step: int) -> bytes:
    """Red, green and blue of a row whose pixels have `step` bytes, the last of them alpha, over black."""
    alphas = row[step - 1 :: step]
    parts = [row[k::step] for k in ((0, 0, 0) if step == 2 else (0, 1, 2))]
    if alphas != b"\xff" * len(alphas):
        wide = Wide(len(alphas))
        masks = wide.masks(alphas)
        parts = [wide.shares(part, masks) for part in parts]
    return interleaved((parts[0], parts[1], parts[2]))


def colours(row: bytes, form: int, palette: bytes) -> bytes:
    """Red, green and blue of a row, by the colour type of its file."""
    if form == 2:
        return row
    if form in (4, 6):
        return over_black(row, BYTES[form])
    if form == 3 and 3 * max(row) + 3 > len(palette):
        raise ValueError("a colour is not in the palette")
    if form == 0:
        return interleaved((row, row, row))
    red, green, blue = (row.translate(palette[place::3].ljust(256, b"\0")) for place in range(3))
    return interleaved((red, green, blue))


def opaque(rows: List[bytes], size: int) -> List[bytes]:
    """Rows of `size` bytes of rows with alpha, over black: by Pillow, where it is installed and something is translucent."""
    is_plain = all(row[3::4] == b"\xff" * (len(row) // 4) for row in rows)
    if is_plain or not pillow.is_here():
        return [over_black(row, 4) for row in rows]
    whole = pillow.over_black(b"".join(rows))
    return [whole[at : at + size] for at in range(0, len(whole), size)]


def parsed(file: bytes) -> Picture:
    """The picture of a file. What is wrong with it is a `ValueError`."""
    if not file.startswith(SIGNATURE):
        raise ValueError("it does not begin as one")
    head, palette, body = b"", b"", []
    for kind, part in chunks(file):
        head = part if kind == b"IHDR" else head
        palette = part if kind == b"PLTE" else palette
        body += [part] if kind == b"IDAT" else []
    width, height, bits, form, *others = struct.unpack(">IIBBBBB", head)
    if bits != 8 or form not in BYTES or others != [0, 0, 0]:
        raise ValueError("it has not 8 bits a channel, or is interlaced")
    if not 0 < width * height <= MAX_PIXELS:
        raise ValueError("it has no pixel, or more than %d" % MAX_PIXELS)
    rows = progress.counted(filters.rows(b"".join(body), width, height, BYTES[form]), height, "rows of a picture")
    if form == 6 and 4 * width * height > pillow.MANY:
        return Picture(width, height, opaque(list(rows), 3 * width))
    return Picture(width, height, [colours(row, form, palette) for row in rows])


def read(file: bytes, name: str) -> Picture:
    """The picture of a file; a broken one is a failure that names it."""
    try:
        return parsed(file)
    except (ValueError, struct.error, zlib.error) as error:
        why = "it is cut short" if isinstance(error, struct.error) else str(error)
        raise Failure("%s is no PNG file that can be read: %s" % (name, why), NOT_RUN)
