"""Values of attributes: the types and words are those that `aapt2 link` (2.19) made of the same texts as resources, and
`aapt dump --values resources` printed. What aapt2 refuses is refused."""
from typing import Dict, List, Tuple

from vindaesk.layouts import attributes, dimensions, values
from vindaesk.scripts import resource_names

NAMES = resource_names.Names()
DIMENSIONS = {
    "0dp": 0x00000001, "1dp": 0x00000101, "16dp": 0x00001001, "1.5dp": 0x00C00021, "-3.25dp": 0xFE600021,
    "0.5px": 0x40000030, "100.3dp": 0x32266621, "70000.7px": 0x01117000, "0.0001in": 0x00034734, "1e1dp": 0x00000A01,
    "+.5dip": 0x40000031, "12.sp": 0x00000C02, "3.7sp": 0x01D99922, "8388607px": 0x7FFFFF00, "0.0078125mm": 0x01000035,
    "65535.99pt": 0x7FFFFE13, "0.3mm": 0x26666735, "-0.1dp": 0xF3333331, "255.5sp": 0x7FC00022, "32767.5dp": 0x3FFFC011,
    "0.99999994dp": 0x00000101, "1px": 0x00000100, "2in": 0x00000204, "1e-3dp": 0x0020C531, "1e+3dp": 0x0003E801,
    "0.00000001dp": 0x00000001, "-0dp": 0x00000001, "128.00001dp": 0x40000021, "127.99999999dp": 0x00008001,
    "8388607.4px": 0x7FFFFF00,
}
FRACTIONS = {
    "50%": 0x40000030, "50%p": 0x40000031, "100%": 0x00000100, "33.3%": 0x2A9FBE30, "0.1%p": 0x0020C531,
    "-25%": 0xE0000030, "1000%": 0x00000A00, ".5%p": 0x00A3D731, "0%": 0x00000000,
}
COLOURS = {
    "#123": (0x1F, 0xFF112233), "#8f00": (0x1E, 0x88FF0000), "#3949ab": (0x1D, 0xFF3949AB), "#80ff00ff": (0x1C, 0x80FF00FF),
    "#FFF": (0x1F, 0xFFFFFFFF), "#00000000": (0x1C, 0),
}
BOOLEANS = {"true": 0xFFFFFFFF, "TRUE": 0xFFFFFFFF, "True": 0xFFFFFFFF, "false": 0, "False": 0, "FALSE": 0}
WHOLES = {
    "0": (0x10, 0), "12": (0x10, 12), "-1": (0x10, 0xFFFFFFFF), "0x1f": (0x11, 0x1F), "0xffffffff": (0x11, 0xFFFFFFFF),
    "2147483647": (0x10, 0x7FFFFFFF), "-2147483648": (0x10, 0x80000000), "00012": (0x10, 12),
}
FLOATS = {
    "0.5": 0x3F000000, "-0.1": 0xBDCCCCCD, "1.0": 0x3F800000, "3.14159274": 0x40490FDB, "1e3": 0x447A0000, "1": 0x3F800000,
    "-.5": 0xBF000000, "1.": 0x3F800000, "1e5": 0x47C35000, "+1.5": 0x3FC00000, "1e-50": 0, "0.1e1": 0x3F800000,
}
REFUSED: Dict[str, List[str]] = {
    "whole": ["0XAB", "-0x1f", "+5", "0x", "0x1ffffffff", "4294967295", "2147483648", "-2147483649", "1_000", ""],
    "dimension": ["1.5DP", "1.5 dp", "12", "0x10dp", "1dpp", "inf", "dp", ""],
    "float": ["1f", "nan", "", ".", "1e"],
    "share": ["150%%", "1 %", "1%P", "%"],
    "colour": ["#12", "#12345", "#GGG", "red", "#1234567", "#"],
    "boolean": ["tRUE", "yes", "1", ""],
}


def found(name: str, text: str) -> Tuple[int, int]:
    """The type and the word of a text that is a value of one form."""
    value = values.READERS[name](text)
    assert value is not None, text
    return value.kind, value.word


def test_dimensions() -> None:
    for text, word in DIMENSIONS.items():
        assert (text, *found("dimension", text)) == (text, 5, word)


def test_fractions() -> None:
    for text, word in FRACTIONS.items():
        assert (text, *found("share", text)) == (text, 6, word)


def test_colours() -> None:
    for text, value in COLOURS.items():
        assert (text, found("colour", text)) == (text, value)


def test_booleans() -> None:
    for text, word in BOOLEANS.items():
        assert (text, *found("boolean", text)) == (text, 0x12, word)


def test_whole_numbers() -> None:
    for text, value in WHOLES.items():
        assert (text, found("whole", text)) == (text, value)


def test_floats() -> None:
    for text, word in FLOATS.items():
        assert (text, *found("float", text)) == (text, 4, word)


def test_refused() -> None:
    for name, texts in REFUSED.items():
        for text in texts:
            assert (name, text, values.READERS[name](text)) == (name, text, None)


def test_too_large() -> None:
    """aapt2 takes these, and keeps another number."""
    for text in ("8388608dp", "16777216px", "-8388609px", "1e38dp", "1e10px"):
        try:
            assert values.dimension(text) is None
        except values.Unfit as unfit:
            assert str(unfit).endswith("is too large")
        else:
            raise AssertionError("%s is taken" % text)


def test_texts_are_read_again() -> None:
    for text in [*DIMENSIONS, *FRACTIONS, *COLOURS, *BOOLEANS, *WHOLES, *FLOATS]:
        value = values.read(text, attributes.ANY, NAMES)
        shown = values.shown(value, attributes.ANY, NAMES)
        assert shown is not None
        again = values.read(shown, attributes.ANY, NAMES)
        # a number may be kept with more bits after the point than it has
        is_same = again == value or (again.kind, dimensions.number(again.word)) == (5, dimensions.number(value.word))
        assert (text, shown, is_same) == (text, shown, True)


def test_escapes() -> None:
    wanted = {"a\\nb": "a\nb", "\\t": "\t", "\\u00e9": "é", "\\\\": "\\", "\\@x": "@x", "\\'": "'", "\\ud83d\\ude00": "😀"}
    for text, plain in wanted.items():
        assert (text, values.unescaped(text)) == (text, plain)
