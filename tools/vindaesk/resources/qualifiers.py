"""Configurations as the names of resource folders write them: `de-rDE-sw600dp-land-night-xxhdpi-v23`, or with a tag
of BCP 47 `b+sr+Latn`. The order and the words are those of Android's `ConfigDescription` and of
`ResTable_config::toString`."""
import re
from dataclasses import replace
from typing import Any, Callable, Dict, List, Optional, Tuple

from ..common.failures import Failure
from ..common.messages import printable
from .configuration import (ANYDPI, DEFAULT, MNC_ZERO, NODPI, Configuration, Direction, Hdr, Keyboard, KeysHidden, Long,
                            Navigation, NavHidden, Night, Orientation, Round, Size, Touch, UiType, WideGamut)

Fields = Dict[str, Any]
DENSITIES = {
    "ldpi": 120, "mdpi": 160, "tvdpi": 213, "hdpi": 240, "xhdpi": 320, "xxhdpi": 480, "xxxhdpi": 640, "anydpi": ANYDPI,
    "nodpi": NODPI,
}
# the fields that are words, in the order of a name, with the words
BEFORE_DENSITY: Tuple[Tuple[str, Dict[str, int]], ...] = (
    ("size", {"small": Size.SMALL, "normal": Size.NORMAL, "large": Size.LARGE, "xlarge": Size.XLARGE}),
    ("long", {"notlong": Long.NO, "long": Long.YES}),
    ("round", {"notround": Round.NO, "round": Round.YES}),
    ("wide_gamut", {"nowidecg": WideGamut.NO, "widecg": WideGamut.YES}),
    ("hdr", {"lowdr": Hdr.NO, "highdr": Hdr.YES}),
    ("orientation", {"port": Orientation.PORT, "land": Orientation.LAND, "square": Orientation.SQUARE}),
    ("ui_type", {"desk": UiType.DESK, "car": UiType.CAR, "television": UiType.TELEVISION,
                 "appliance": UiType.APPLIANCE, "watch": UiType.WATCH, "vrheadset": UiType.VRHEADSET}),
    ("night", {"notnight": Night.NO, "night": Night.YES}),
)
AFTER_DENSITY: Tuple[Tuple[str, Dict[str, int]], ...] = (
    ("touch", {"notouch": Touch.NOTOUCH, "stylus": Touch.STYLUS, "finger": Touch.FINGER}),
    ("keys_hidden", {"keysexposed": KeysHidden.NO, "keyshidden": KeysHidden.YES, "keyssoft": KeysHidden.SOFT}),
    ("keyboard", {"nokeys": Keyboard.NOKEYS, "qwerty": Keyboard.QWERTY, "12key": Keyboard.TWELVE}),
    ("nav_hidden", {"navexposed": NavHidden.NO, "navhidden": NavHidden.YES}),
    ("navigation", {"nonav": Navigation.NONAV, "dpad": Navigation.DPAD, "trackball": Navigation.TRACKBALL,
                    "wheel": Navigation.WHEEL}),
)
DIRECTIONS: Dict[str, int] = {"ldltr": Direction.LTR, "ldrtl": Direction.RTL}
GENDERS = {"neuter": 1, "feminine": 2, "masculine": 3}
# a language is none of these words
NOT_LANGUAGES = ("car",)
MOST = 0xFFFF


def of_word(field: str, words: Dict[str, int]) -> Callable[[str], Optional[Fields]]:
    """A reader of one field that is a word."""
    return lambda part: {field: words[part]} if part in words else None


def of_number(field: str, form: str) -> Callable[[str], Optional[Fields]]:
    """A reader of one field that is a number inside of other letters."""
    pattern = re.compile(form)

    def read(part: str) -> Optional[Fields]:
        found = pattern.fullmatch(part)
        return {field: int(found.group(1))} if found and int(found.group(1)) <= MOST else None

    return read


def country_code(part: str) -> Optional[Fields]:
    """A network code: `mnc00` is the network 0, which has a number of its own."""
    found = re.fullmatch("mnc([0-9]{1,3})", part)
    return {"mnc": int(found.group(1)) or MNC_ZERO} if found else None


def density(part: str) -> Optional[Fields]:
    """A density: a word, or a number."""
    found = re.fullmatch("([0-9]{1,5})dpi", part)
    if found and 0 < int(found.group(1)) <= MOST:
        return {"density": int(found.group(1))}
    return {"density": DENSITIES[part]} if part in DENSITIES else None


def screen(part: str) -> Optional[Fields]:
    """A size in pixels, the larger one first."""
    found = re.fullmatch("([0-9]{1,5})x([0-9]{1,5})", part)
    if not found or not MOST >= int(found.group(1)) >= int(found.group(2)):
        return None
    return {"screen_width": int(found.group(1)), "screen_height": int(found.group(2))}


def version(part: str) -> Optional[Fields]:
    """An API level, as `v23`; Android's tools write a minor one as `v23.1`."""
    found = re.fullmatch(r"v([0-9]{1,5})(?:\.([0-9]{1,5}))?", part)
    if not found or int(found.group(1)) > MOST:
        return None
    return {"sdk": int(found.group(1)), "minor": min(int(found.group(2) or 0), MOST)}


def tag(part: str) -> Optional[Fields]:
    """A tag of BCP 47 after `b+`: a language, then perhaps a script, a region, a variant and `u+nu+` with a
    numbering."""
    found = re.fullmatch(
        r"b\+([a-z]{2,3})(?:\+([a-z]{4}))?(?:\+([a-z]{2}|[0-9]{3}))?(?:\+([a-z0-9]{5,8}|[0-9][a-z0-9]{3}))?"
        r"(?:\+u\+nu\+([a-z0-9]{3,8}))?", part)
    if not found:
        return None
    language, script, region, variant, numbering = (it or "" for it in found.groups())
    return {"language": language, "script": script.capitalize(), "region": region.upper(), "variant": variant,
            "numbering": numbering}


def language(part: str) -> Optional[Fields]:
    """A language of two or three letters."""
    return {"language": part} if re.fullmatch("[a-z]{2,3}", part) and part not in NOT_LANGUAGES else None


def region(part: str) -> Optional[Fields]:
    """A region of two letters after an `r`; `r419` too, which Android's tools print."""
    return {"region": part[1:].upper()} if re.fullmatch("r([a-z]{2}|[0-9]{3})", part) else None


READERS: Tuple[Callable[[str], Optional[Fields]], ...] = (
    of_number("mcc", "mcc([0-9]{3})"), country_code, tag, language, region, of_word("gender", GENDERS),
    of_word("direction", DIRECTIONS), of_number("smallest_width", "sw([0-9]{1,5})dp"),
    of_number("width", "w([0-9]{1,5})dp"), of_number("height", "h([0-9]{1,5})dp"),
    *(of_word(*it) for it in BEFORE_DENSITY), density, *(of_word(*it) for it in AFTER_DENSITY), screen, version,
)

TAG, REGION = READERS.index(tag), READERS.index(region)


def parse_qualifiers(text: str, is_ordered: bool = True) -> Configuration:
    """The configuration that a folder's name gives after its first `-`; "" is the default. Failure names a part that
    is no qualifier, or that is not where Android expects it, unless any order will do."""
    fields: Fields = {}
    place = 0
    for part in text.lower().split("-") if text else ():
        found = [(number, it) for number, it in enumerate(read(part) for read in READERS) if it is not None]
        number, said = next((it for it in found if it[0] >= place), (-1, {}))
        if not found or (is_ordered and number < 0) or (number == REGION and "language" not in fields):
            why = "is after one that it has to be before" if found else "is no qualifier of resources"
            raise Failure("'%s' in '%s' %s" % (printable(part), printable(text), why))
        fields.update(said if number >= 0 else found[0][1])
        place = max(place, (REGION if number == TAG else number) + 1)
    return replace(DEFAULT, **fields)


def locale_parts(it: Configuration) -> List[str]:
    """The parts that say a locale: as a tag where it has more than a language and a region."""
    if not it.language:
        return []
    if it.script or it.variant or it.numbering:
        parts = ["b", it.language, it.script, it.region, it.variant]
        return ["+".join(filter(None, parts)) + ("+u+nu+" + it.numbering if it.numbering else "")]
    return [it.language] + (["r" + it.region] if it.region else [])


def word(names: Dict[str, int], number: int, field: str) -> List[str]:
    """The word of a number, or a word that no folder has where Android has no name for it."""
    if not number or (field == "ui_type" and number == UiType.NORMAL):
        return []
    return [next((it for it in names if names[it] == number), "%s=%d" % (field, number))]


def write_qualifiers(it: Configuration) -> str:
    """The qualifiers of a configuration as a folder's name has them, as `aapt2 dump` writes them; "" for the
    default."""
    parts = ["mcc%d" % it.mcc] if it.mcc else []
    parts += ["mnc%s" % ("00" if it.mnc == MNC_ZERO else it.mnc)] if it.mnc else []
    parts += locale_parts(it) + word(GENDERS, it.gender, "gender") + word(DIRECTIONS, it.direction, "direction")
    for form, number in (("sw%ddp", it.smallest_width), ("w%ddp", it.width), ("h%ddp", it.height)):
        parts += [form % number] if number else []
    for field, names in BEFORE_DENSITY:
        parts += word(names, getattr(it, field), field)
    names = {name: number for name, number in DENSITIES.items()}
    if it.density:
        parts.append(next((name for name in names if names[name] == it.density), "%ddpi" % it.density))
    for field, names in AFTER_DENSITY:
        parts += word(names, getattr(it, field), field)
    if it.screen_width or it.screen_height:
        parts.append("%dx%d" % (it.screen_width, it.screen_height))
    if it.sdk or it.minor:
        parts.append("v%d" % it.sdk + (".%d" % it.minor if it.minor else ""))
    return "-".join(parts)


def check_order(text: str) -> None:
    """Qualifiers that users write are in Android's order, as names of folders have to be; Failure says that order."""
    try:
        parse_qualifiers(text)
    except Failure as failure:
        right = write_qualifiers(parse_qualifiers(text, is_ordered=False))
        is_other = sorted(right.lower().split("-")) == sorted(text.lower().split("-"))
        hint = "in Android's order it is '%s'" % right if is_other else "one thing is said twice"
        raise Failure("%s; %s" % (failure, hint))
