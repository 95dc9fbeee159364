"""Configurations of devices: a phone, and others by qualifiers over it. What Android derives of a screen is derived
here by the same rules (Configuration.reduceScreenLayout, ResourcesImpl.updateConfiguration)."""
from dataclasses import replace

from ..common.failures import Failure
from .configuration import (ANYDPI, DEFAULT, NODPI, Configuration, Direction, Hdr, Keyboard, KeysHidden, Long,
                            Navigation, NavHidden, Night, Orientation, Round, Size, Touch, UiType, WideGamut)
from .locales import is_right_to_left
from .qualifiers import check_order, parse_qualifiers

MEDIUM = 160
# what says a locale
LOCALE = ("language", "region", "script", "variant", "numbering")


def screen_size(width: int, height: int) -> int:
    """The screen size that Android gives to a screen of a width and a height in dp."""
    short, long = sorted((width, height))
    if long < 470:
        return Size.SMALL
    if long >= 960 and short >= 720:
        return Size.XLARGE
    return Size.LARGE if long >= 640 and short >= 480 else Size.NORMAL


def is_long(width: int, height: int) -> bool:
    """Whether Android calls a screen of a width and a height in dp long."""
    short, long = sorted((width, height))
    return long >= 470 and long * 3 // 5 >= short - 1


def sized(base: Configuration, wanted: Configuration) -> Configuration:
    """The width and height of a device in dp: those that are wanted, else those of the base, in the orientation and
    with the smallest width that are wanted."""
    width, height = wanted.width or base.width, wanted.height or base.height
    if not wanted.width and not wanted.height:
        if wanted.smallest_width:
            short, long = sorted((width, height))
            grown = wanted.smallest_width * long // max(short, 1)
            width, height = (wanted.smallest_width, grown) if width <= height else (grown, wanted.smallest_width)
        if wanted.orientation in (Orientation.PORT, Orientation.LAND):
            width, height = sorted((width, height), reverse=wanted.orientation == Orientation.LAND)
    return replace(base, width=width, height=height)


def derived(it: Configuration, wanted: Configuration) -> Configuration:
    """A device with what follows from its sizes, its density and its locale, where it is not wanted otherwise."""
    smallest = min(it.width, it.height)
    long, short = (max(it.width, it.height) * it.density // MEDIUM, smallest * it.density // MEDIUM)
    orientation = Orientation.LAND if it.width > it.height else Orientation.PORT
    rtl = is_right_to_left(it.language, it.region, it.script)
    return replace(
        it,
        smallest_width=wanted.smallest_width or smallest,
        size=wanted.size or screen_size(it.width, it.height),
        long=wanted.long or (Long.YES if is_long(it.width, it.height) else Long.NO),
        orientation=wanted.orientation or orientation,
        direction=wanted.direction or (Direction.RTL if rtl else Direction.LTR),
        screen_width=wanted.screen_width or min(long, 0xFFFF),
        screen_height=wanted.screen_height or min(short, 0xFFFF),
    )


# what a phone has, except its sizes, its density and its locale
HARDWARE = Configuration(
    round=Round.NO, wide_gamut=WideGamut.NO, hdr=Hdr.NO, ui_type=UiType.NORMAL, night=Night.NO, touch=Touch.FINGER,
    keyboard=Keyboard.NOKEYS, keys_hidden=KeysHidden.SOFT, navigation=Navigation.NONAV, nav_hidden=NavHidden.YES,
    sdk=23,
)
PHONE = derived(replace(HARDWARE, language="en", region="US", width=360, height=640, density=480), DEFAULT)


def device(qualifiers: str = "", base: Configuration = PHONE, more: str = "") -> Configuration:
    """A device: the base (a phone of 360 by 640 dp at 480 dpi, in US English, with API 23) with what qualifiers as
    `de-rDE-land-night` say, and further ones, which a user has beside them. Failure where they are wrong, in another
    order than Android's, or say a density that no screen has."""
    whole = "-".join(filter(None, (qualifiers, more)))
    wanted = parse_qualifiers(whole, is_ordered=False)
    if wanted.density in (ANYDPI, NODPI):
        raise Failure("'%s' has a density of drawables, not of a screen" % whole)
    for it in (qualifiers, more):
        check_order(it)
    said = {name: value for name, value in vars(wanted).items() if value}
    if wanted.language:
        said.update({name: getattr(wanted, name) for name in LOCALE})
    return derived(replace(sized(base, wanted), **said), wanted)
