"""What Pillow does in the place of this package, where it is installed: the same bytes, in a fifth of the time."""
import importlib
import io
import os
import struct
import zlib
from typing import List

from .chunks import SIGNATURE, chunk

# if this variable is set, Pillow is not used
PLAIN = "VINDAESK_NO_PILLOW"
# how Pillow calls pixels of 1 to 4 bytes, and the colour type of such a file
MODES = {1: ("L", 0), 2: ("LA", 4), 3: ("RGB", 2), 4: ("RGBA", 6)}
# below this number of bytes the start of Pillow takes longer than what it saves
MANY = 3 << 18


def is_here() -> bool:
    """Whether Pillow is here and may be used."""
    if os.environ.get(PLAIN):
        return False
    try:
        return bool(importlib.import_module("PIL.PngImagePlugin"))
    except ImportError:
        return False


def rows(plain: bytes, size: int, step: int) -> List[bytes]:
    """The rows of a picture, each of which has its filter and `size` bytes: Pillow is given the file anew, without
    anything that could change a byte of its pixels."""
    from PIL import Image

    mode, form = MODES[step]
    head = struct.pack(">IIBBBBB", size // step, len(plain) // (size + 1), 8, form, 0, 0, 0)
    file = SIGNATURE + chunk(b"IHDR", head) + chunk(b"IDAT", zlib.compress(plain, 0)) + chunk(b"IEND", b"")
    with Image.open(io.BytesIO(file), formats=["PNG"]) as image:
        if image.mode != mode:
            raise ValueError("Pillow reads it as %s" % image.mode)
        whole = image.tobytes()
    return [whole[at : at + size] for at in range(0, len(whole), size)]


def over_black(whole: bytes) -> bytes:
    """Red, green and blue of pixels of four bytes, the last of them alpha, over black: each times alpha over 255, to the
    nearest, as `bytewise.Wide` has it."""
    from PIL import Image

    size = (len(whole) // 4, 1)
    *bands, alpha = Image.frombytes("RGBA", size, whole).split()
    image = Image.new("RGB", size)
    # `ImageChops.multiply` rounds down
    image.paste(Image.merge("RGB", bands), mask=alpha)
    found: bytes = image.tobytes()
    return found
