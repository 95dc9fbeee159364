"""Configurations: qualifiers, devices, and the choice by Android's rule."""
import os
from dataclasses import replace
from typing import Optional, Sequence

import android_choices
import pytest
import random_configurations
from vindaesk.common.failures import Failure
from vindaesk.resources.configuration import (ANYDPI, DEFAULT, MNC_ZERO, Configuration, Direction, KeysHidden, Long,
                                              Night, Orientation, Size, UiType)
from vindaesk.resources.devices import PHONE, device, is_long, screen_size
from vindaesk.resources.matching import best, better_density, is_better, is_more_specific, matches
from vindaesk.resources.packed import packed, unpacked
from vindaesk.resources.qualifiers import parse_qualifiers, write_qualifiers

ANSWERS, QUALIFIERS = (os.path.join(os.path.dirname(os.path.realpath(__file__)), "android_%s.txt" % it)
                       for it in ("choices", "qualifiers"))
# as `aapt2 dump configurations` prints them
WRITTEN = """
    mcc310 mcc310-mnc4 en en-rUS fil-rPH b+sr+Latn b+sr+Latn+RS b+en+US+posix ldrtl
    sw600dp-w820dp-h480dp-large-long-round-widecg-highdr 260dpi nodpi anydpi-v21 car vrheadset watch
    square-television-night-tvdpi-stylus-keyssoft-12key-navhidden-wheel-640x480-v21
""".split()


def chosen(folders: Sequence[str], of: Configuration) -> Optional[str]:
    """The qualifiers that a device takes of some."""
    index = best([parse_qualifiers(it) for it in folders], of)
    return None if index is None else folders[index]


@pytest.mark.parametrize("text", WRITTEN)
def test_qualifiers_are_written_as_they_are_read(text: str) -> None:
    assert write_qualifiers(parse_qualifiers(text)) == text


def test_numbers_are_androids() -> None:
    """The bytes of each qualifier, by Android's own library, which adds the API level that knows it."""
    with open(QUALIFIERS, encoding="ascii") as file:
        rows = [it.split() for it in file.read().splitlines()]
    assert len(rows) > 80
    for text, wanted in rows:
        assert replace(parse_qualifiers(text), sdk=0) == replace(unpacked(bytes.fromhex(wanted)), sdk=0), text


def test_a_long_name() -> None:
    found = parse_qualifiers("de-rDE-sw600dp-land-night-xxhdpi-v23")
    assert found == Configuration(language="de", region="DE", smallest_width=600, orientation=Orientation.LAND,
                                  night=Night.YES, density=480, sdk=23)


def test_capital_letters_and_zero() -> None:
    assert parse_qualifiers("mcc310-mnc00-EN-rus") == Configuration(mcc=310, mnc=MNC_ZERO, language="en", region="US")
    assert parse_qualifiers("anydpi").density == ANYDPI


@pytest.mark.parametrize("text,why", [
    ("port-land", "'land' in 'port-land' is after one that it has to be before"),
    ("land-de", "'de' in 'land-de' is after one"),
    ("hugedpi", "'hugedpi' in 'hugedpi' is no qualifier of resources"),
    ("en--land", "'' in 'en--land' is no qualifier"),
    ("rUS-land-x\n", "is no qualifier"),
    ("480x640", "is no qualifier"),
])
def test_wrong_qualifiers(text: str, why: str) -> None:
    with pytest.raises(Failure) as caught:
        parse_qualifiers(text)
    assert why in str(caught.value) and "\n" not in str(caught.value)


def test_packed_and_unpacked() -> None:
    for it, pairs in random_configurations.devices(3, 50):
        for one in (it, *pairs[0]):
            assert unpacked(packed(one)) == one
    assert unpacked(packed(DEFAULT)[:28]) == DEFAULT


def test_the_phone() -> None:
    assert (PHONE.smallest_width, PHONE.size, PHONE.long) == (360, Size.NORMAL, Long.YES)
    assert (PHONE.orientation, PHONE.direction, PHONE.ui_type) == (Orientation.PORT, Direction.LTR, UiType.NORMAL)
    assert (PHONE.screen_width, PHONE.screen_height, PHONE.keys_hidden) == (1920, 1080, KeysHidden.SOFT)


def test_long_screens() -> None:
    """Longer than 5 to 3, but for one dp, and at least 470 dp."""
    assert is_long(480, 800) and is_long(800, 481) and not is_long(482, 800) and not is_long(200, 469)
    assert [screen_size(*it) for it in ((320, 426), (320, 470), (480, 640), (720, 960), (960, 719))] == [
        Size.SMALL, Size.NORMAL, Size.LARGE, Size.XLARGE, Size.LARGE]


def test_devices() -> None:
    land = device("land")
    assert (land.width, land.height, land.smallest_width, land.orientation) == (640, 360, 360, Orientation.LAND)
    tablet = device("sw800dp")
    assert (tablet.width, tablet.height, tablet.size) == (800, 1422, Size.XLARGE)
    assert device("ar-night").direction == Direction.RTL and device("de").region == ""
    assert device("w1280dp-h800dp").orientation == Orientation.LAND
    with pytest.raises(Failure):
        device("nodpi")
    for text, right in (("night-de", "in Android's order it is 'de-night'"), ("de-fr", "one thing is said twice")):
        with pytest.raises(Failure, match=right):
            device(text)
    # of two texts each has the order for itself
    both = device("de-night", more="land")
    assert (both.language, both.orientation, both.night) == ("de", Orientation.LAND, Night.YES)
    with pytest.raises(Failure, match="in Android's order it is 'land-v30'"):
        device("night", more="v30-land")


def test_the_example_of_androids_documentation() -> None:
    """App resources overview, "How Android finds the best-matching resource"."""
    of = device("en-rGB-port-hdpi-notouch-12key")
    folders = ["", "en", "fr-rCA", "en-port", "en-notouch-12key", "port-ldpi", "port-notouch-12key"]
    assert chosen(folders, of) == "en-port"


@pytest.mark.parametrize("folders,of,wanted", [
    (["sw600dp", "sw720dp", ""], "sw700dp", "sw600dp"),
    (["w600dp", "h900dp"], "w600dp-h900dp", "h900dp"),
    (["", "xlarge"], "", ""),
    (["large", ""], "w500dp-h700dp", "large"),
    (["mdpi", "xxxhdpi"], "hdpi", "xxxhdpi"),
    (["mdpi", "xhdpi"], "hdpi", "xhdpi"),
    (["hdpi", "xxxhdpi"], "260dpi", "hdpi"),
    (["", "anydpi-v21", "xxhdpi"], "xxhdpi", "anydpi-v21"),
    (["", "nodpi"], "xxhdpi", "nodpi"),
    (["v21", "v23", "v24", ""], "v23", "v23"),
    (["night", ""], "notnight", ""),
    (["land", "port"], "square", None),
    (["en-rUS", "en-rGB"], "en-rAU", "en-rGB"),
    (["en-rUS", "en-rGB", "en"], "en-rAU", "en"),
    (["en", ""], "en-rUS", "en"),
    (["en-rGB", ""], "en-rUS", ""),
    (["es", "b+es+419"], "es-rAR", "b+es+419"),
    (["es", "es-rUS"], "es-rMX", "es-rUS"),
    (["pt", "pt-rPT"], "pt-rAO", "pt-rPT"),
    (["de-rAT", "de-rDE"], "de-rCH", "de-rDE"),
    (["fr-rGA", "fr-rCM"], "fr-rCH", "fr-rCM"),
    (["zh", "zh-rTW"], "zh-rHK", "zh-rTW"),
    (["zh"], "zh-rHK", None),
    (["sr", "b+sr+Latn"], "b+sr+Latn", "b+sr+Latn"),
    (["tl", "fil"], "fil", "fil"),
    (["tl"], "fil", "tl"),
])
def test_choice(folders: Sequence[str], of: str, wanted: Optional[str]) -> None:
    assert chosen(folders, device(of)) == wanted


def test_densities_between() -> None:
    # ((2 * 240) - 300) * 480 = 86400 is less than 300 * 300 = 90000, so the higher one is scaled down
    assert better_density(480, 240, 300) is True
    assert better_density(640, 240, 260) is False and better_density(480, 240, 280) is False
    assert better_density(0, 120, 160) is True


def test_as_androids_library_says() -> None:
    """Answers of Android's own library to random pairs, by ci/android_choices.py."""
    with open(ANSWERS, encoding="ascii") as file:
        digest, *lines = file.read().split("\n")
    assert android_choices.questions()[1] == digest
    digits = iter("".join(lines))
    devices = random_configurations.devices(android_choices.SEED, android_choices.COUNT)
    for it, pairs in devices:
        for one, other in pairs:
            said = matches(one, it) * 4 + is_better(one, other, it) * 2 + is_more_specific(one, other)
            assert said == int(next(digits)), (write_qualifiers(one), write_qualifiers(other), write_qualifiers(it))
    assert next(digits, None) is None
