"""The attributes that docs/FORMATS.md lists: the number that each has in a resource map, and which forms of text its
value may have in a source. ci/apps.py compares them with that page."""
import functools
import itertools
import operator
from typing import Dict, NamedTuple, Optional, Tuple

from .documents import ANDROID

SIZES = {"match_parent": -1, "wrap_content": -2, "fill_parent": -1}
ORIENTATIONS = {"horizontal": 0, "vertical": 1}
VISIBILITIES = {"visible": 0, "invisible": 1, "gone": 2}
DIRECTIONS = {"ltr": 0, "rtl": 1, "inherit": 2, "locale": 3}
# the greater parts come first, so that a word is taken apart into the fewest names
GRAVITIES = {
    "fill": 0x77, "center": 0x11, "fill_vertical": 0x70, "bottom": 0x50, "top": 0x30, "center_vertical": 0x10,
    "end": 0x800005, "start": 0x800003, "fill_horizontal": 0x07, "right": 0x05, "left": 0x03, "center_horizontal": 0x01,
    "clip_vertical": 0x80, "clip_horizontal": 0x08,
}


class Form(NamedTuple):
    """What the text of an attribute may be: some of `colour`, `boolean`, `whole`, `float`, `dimension`, `share` and
    `string`, or one of some words, or several flags joined by `|`. A reference may always be there."""

    forms: Tuple[str, ...] = ()
    words: Dict[str, int] = {}
    flags: Dict[str, int] = {}


class Known(NamedTuple):
    """An attribute that is known: its number, and what its text may be."""

    id: int
    form: Form


REFERENCE = Form()
SIZE = Form(("dimension",), SIZES)
DIMENSION = Form(("dimension",))
FLOAT = Form(("float",))
COLOUR = Form(("colour",))
BOOLEAN = Form(("boolean",))
STRING = Form(("string",))
FLAGS = Form(flags=GRAVITIES)
# what an attribute that is not known may be
ANY = Form(("colour", "boolean", "whole", "float", "dimension", "share", "string"))

KNOWN = {
    name: Known(0x01010000 + number, form)
    for number, name, form in (
        (0x098, "textColor", COLOUR),
        (0x0AF, "gravity", FLAGS),
        (0x0B3, "layout_gravity", FLAGS),
        (0x0C4, "orientation", Form(words=ORIENTATIONS)),
        (0x0D0, "id", REFERENCE),
        (0x0D4, "background", COLOUR),
        (0x0D5, "padding", DIMENSION),
        (0x0D6, "paddingLeft", DIMENSION),
        (0x0D7, "paddingTop", DIMENSION),
        (0x0D8, "paddingRight", DIMENSION),
        (0x0D9, "paddingBottom", DIMENSION),
        (0x0DC, "visibility", Form(words=VISIBILITIES)),
        (0x0E5, "clickable", BOOLEAN),
        (0x0EB, "clipToPadding", BOOLEAN),
        (0x0F4, "layout_width", SIZE),
        (0x0F5, "layout_height", SIZE),
        (0x0F6, "layout_margin", DIMENSION),
        (0x0F7, "layout_marginLeft", DIMENSION),
        (0x0F8, "layout_marginTop", DIMENSION),
        (0x0F9, "layout_marginRight", DIMENSION),
        (0x0FA, "layout_marginBottom", DIMENSION),
        (0x128, "weightSum", FLOAT),
        (0x13F, "minWidth", DIMENSION),
        (0x140, "minHeight", DIMENSION),
        (0x14F, "text", STRING),
        (0x17A, "fillViewport", BOOLEAN),
        (0x181, "layout_weight", FLOAT),
        (0x182, "layout_toLeftOf", REFERENCE),
        (0x183, "layout_toRightOf", REFERENCE),
        (0x184, "layout_above", REFERENCE),
        (0x185, "layout_below", REFERENCE),
        (0x187, "layout_alignLeft", REFERENCE),
        (0x188, "layout_alignTop", REFERENCE),
        (0x189, "layout_alignRight", REFERENCE),
        (0x18A, "layout_alignBottom", REFERENCE),
        (0x18B, "layout_alignParentLeft", BOOLEAN),
        (0x18C, "layout_alignParentTop", BOOLEAN),
        (0x18D, "layout_alignParentRight", BOOLEAN),
        (0x18E, "layout_alignParentBottom", BOOLEAN),
        (0x18F, "layout_centerInParent", BOOLEAN),
        (0x190, "layout_centerHorizontal", BOOLEAN),
        (0x191, "layout_centerVertical", BOOLEAN),
        (0x2EF, "splitMotionEvents", BOOLEAN),
        (0x3B2, "layoutDirection", Form(words=DIRECTIONS)),
        (0x3B3, "paddingStart", DIMENSION),
        (0x3B4, "paddingEnd", DIMENSION),
        (0x3B5, "layout_marginStart", DIMENSION),
        (0x3B6, "layout_marginEnd", DIMENSION),
        (0x3B7, "layout_toStartOf", REFERENCE),
        (0x3B8, "layout_toEndOf", REFERENCE),
        (0x3B9, "layout_alignStart", REFERENCE),
        (0x3BA, "layout_alignEnd", REFERENCE),
        (0x3BB, "layout_alignParentStart", BOOLEAN),
        (0x3BC, "layout_alignParentEnd", BOOLEAN),
    )
}


def is_slip(one: str, other: str) -> bool:
    """Whether two names differ by one letter more, one less, another one, or two in the wrong order."""
    at = next((place for place, pair in enumerate(zip(one, other)) if pair[0] != pair[1]), min(len(one), len(other)))
    before, after = one[at:], other[at:]
    is_turned = before[:2] == after[1::-1] and before[2:] == after[2:]
    return before != after and (is_turned or before[1:] in (after, after[1:]) or before == after[1:])


def slip(name: str) -> str:
    """The known attribute of which a name is most likely a slip, or nothing. No attribute of Android itself is one."""
    return next((it for it in KNOWN if is_slip(name, it)), "") if name not in KNOWN else ""


def form_of(namespace: str, name: str) -> Form:
    """What the text of an attribute may be."""
    return KNOWN[name].form if namespace == ANDROID and name in KNOWN else ANY


def id_of(namespace: str, name: str) -> int:
    """The number of an attribute in a resource map, or 0."""
    return KNOWN[name].id if namespace == ANDROID and name in KNOWN else 0


def flags_text(word: int, known: Dict[str, int]) -> Optional[str]:
    """The fewest words without a bit in common that make a word of flags, where there are such."""
    within = [name for name, bits in known.items() if bits & word == bits]
    for count in range(5):
        for names in itertools.combinations(within, count):
            bits = [known[name] for name in names]
            if sum(bits) == word == functools.reduce(operator.or_, bits, 0):
                return "|".join(names)
    return None
