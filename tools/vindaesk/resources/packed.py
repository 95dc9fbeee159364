"""A configuration in the bytes of a table: `ResTable_config` of Android's ResourceTypes.h, of any of its sizes."""
import struct
from functools import lru_cache
from typing import Tuple

from .configuration import Configuration

SIZE = 64
# mcc, mnc, language, region, orientation, touch, density, keyboard, navigation, flags, gender, screen width and height,
# sdk, minor, layout, ui mode, smallest width, width, height, script, variant, layout2, colour mode, computed, numbering
FIELDS = struct.Struct("<4xHH2s2sBBHBBBBHHHHBBHHH4s8sBB2xB8s3x")


def letters(packed: bytes, base: int) -> str:
    """A language or region of two letters, or of three in 5 bits each from a first letter on."""
    if packed[0] & 0x80:
        first, second = packed
        three = (second & 0x1F, second >> 5 | (first & 3) << 3, first >> 2 & 0x1F)
        return "".join(chr(base + it) for it in three)
    return name(packed)


def name(packed: bytes) -> str:
    """A text up to its first 0."""
    return packed.split(b"\0")[0].decode("latin-1")


@lru_cache(maxsize=4096)
def unpacked(data: bytes) -> Configuration:
    """The configuration of bytes, which begin with their number; fields that are not there are 0."""
    (mcc, mnc, language, region, orientation, touch, density, keyboard, navigation, flags, gender, screen_width,
     screen_height, sdk, minor, layout, ui, smallest, width, height, script, variant, layout2, color, _,
     numbering) = FIELDS.unpack(data[:SIZE].ljust(SIZE, b"\0"))
    return Configuration(
        mcc=mcc, mnc=mnc, language=letters(language, ord("a")), region=letters(region, ord("0")), script=name(script),
        variant=name(variant), numbering=name(numbering), gender=gender & 3, direction=layout >> 6,
        smallest_width=smallest, width=width, height=height, size=layout & 15, long=layout >> 4 & 3, round=layout2 & 3,
        wide_gamut=color & 3, hdr=color >> 2 & 3, orientation=orientation, ui_type=ui & 15, night=ui >> 4 & 3,
        density=density, touch=touch, keyboard=keyboard, keys_hidden=flags & 3, navigation=navigation,
        nav_hidden=flags >> 2 & 3, screen_width=screen_width, screen_height=screen_height, sdk=sdk, minor=minor,
    )


def two(word: str, base: int) -> bytes:
    """A language or region in two bytes."""
    if len(word) == 3:
        first, second, third = (ord(it) - base for it in word)
        return bytes((0x80 | third << 2 | second >> 3, (second & 7) << 5 | first))
    return word.encode("latin-1").ljust(2, b"\0")


def packed(it: Configuration) -> bytes:
    """The bytes of a configuration, `SIZE` of them."""
    locale: Tuple[bytes, bytes] = (two(it.language, ord("a")), two(it.region, ord("0")))
    fields = FIELDS.pack(
        it.mcc, it.mnc, *locale, it.orientation, it.touch, it.density, it.keyboard, it.navigation,
        it.keys_hidden | it.nav_hidden << 2, it.gender, it.screen_width, it.screen_height, it.sdk, it.minor,
        it.size | it.long << 4 | it.direction << 6, it.ui_type | it.night << 4, it.smallest_width, it.width, it.height,
        it.script.encode("latin-1"), it.variant.encode("latin-1"), it.round, it.wide_gamut | it.hdr << 2, 0,
        it.numbering.encode("latin-1"),
    )
    return struct.pack("<I", SIZE) + fields[4:]


def order(it: Configuration) -> Tuple[object, ...]:
    """By this aapt2 orders the configurations of a type in a table (`ResTable_config::compare`)."""
    data = packed(it)
    imsi, locale, screen, keys, size, version = struct.unpack_from("<6I", data, 4)
    layout, ui, smallest, dp = struct.unpack_from("<BBHI", data, 28)
    words = (data[36:40], data[40:48], data[53:61])
    return (imsi, locale, *words, screen, keys, size, version, layout, data[48], data[49], ui, smallest, dp)
