"""Words of dimensions, taken apart. A word is as `android.util.TypedValue` has it: COMPLEX_MANTISSA_SHIFT is 8, the
radix 23p0, 16p7, 8p15 or 0p23 is at bit 4, and the units PX, DIP, SP, PT, IN, MM are 0 to 5."""
from vindaesk.layouts import dimensions

# the word, the number and the unit: `aapt2 link` made these words of `16dp`, `-3.25dp` and others
WORDS = {
    0x00001001: (16.0, "dp"), 0xFE600021: (-3.25, "dp"), 0x40000030: (0.5, "px"), 0x00000C02: (12.0, "sp"),
    0x7FFFFF00: (8388607.0, "px"), 0x80000000: (-8388608.0, "px"), 0x01000035: (0.0078125, "mm"), 0x00000204: (2.0, "in"),
    0x3FFFC011: (32767.5, "dp"), 0x7FC00022: (255.5, "sp"), 0xE0000030: (-0.25, "px"), 0x00000003: (0.0, "pt"),
}
# for each radix how many bits there are after the point
POINTS = (0, 7, 15, 23)


def test_numbers_and_units() -> None:
    for word, (number, unit) in WORDS.items():
        assert ("%08x" % word, dimensions.number(word), dimensions.unit(word)) == ("%08x" % word, number, unit)


def test_each_radix() -> None:
    for radix, bits in enumerate(POINTS):
        assert dimensions.divisor(radix << 4) == 2 ** bits
        assert dimensions.number(1 << 8 | radix << 4) == 2.0 ** -bits
        assert dimensions.number(0xFFFFFF << 8 | radix << 4) == -(2.0 ** -bits)


def test_other_units() -> None:
    for number in range(6, 16):
        assert dimensions.unit(0x100 | number) is None
        assert dimensions.text(0x100 | number) == "1?"


def test_texts() -> None:
    assert dimensions.text(0x00C00021) == "1.5dp"
    assert dimensions.text(0xFE600021) == "-3.25dp"
    assert dimensions.text(0x32266621) == "100.3dp"


def test_whole_numbers() -> None:
    assert dimensions.whole(0x00001001) == 16
    assert dimensions.whole(0x7FFFFF00) == 8388607
    assert dimensions.whole(0x40000030) is None
    # 8.0 with bits after the point
    assert dimensions.whole(0x00040011) == 8
    assert dimensions.whole(0x80000000) is None


def test_signs() -> None:
    assert [dimensions.signed(it, 24) for it in (0, 1, 0x7FFFFF, 0x800000, 0xFFFFFF)] == [0, 1, 8388607, -8388608, -1]
    assert dimensions.signed(0xFFFFFFFF, 32) == -1
