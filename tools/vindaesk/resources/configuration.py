"""A configuration: of a device, or of the values in a table. The fields and their numbers are those of
`ResTable_config` in Android's ResourceTypes.h; sizes are in dp, densities in dpi."""
from dataclasses import dataclass
from enum import IntEnum


class Direction(IntEnum):
    """Layout direction."""

    ANY, LTR, RTL = range(3)


class Size(IntEnum):
    """Screen size."""

    ANY, SMALL, NORMAL, LARGE, XLARGE = range(5)


class Long(IntEnum):
    """Whether the screen is longer than usual."""

    ANY, NO, YES = range(3)


class Round(IntEnum):
    """Whether the screen is round."""

    ANY, NO, YES = range(3)


class WideGamut(IntEnum):
    """Whether the screen has a wide range of colours."""

    ANY, NO, YES = range(3)


class Hdr(IntEnum):
    """Whether the screen has a high dynamic range."""

    ANY, NO, YES = range(3)


class Orientation(IntEnum):
    """Orientation of the screen."""

    ANY, PORT, LAND, SQUARE = range(4)


class UiType(IntEnum):
    """What the device is used as."""

    ANY, NORMAL, DESK, CAR, TELEVISION, APPLIANCE, WATCH, VRHEADSET = range(8)


class Night(IntEnum):
    """Night mode."""

    ANY, NO, YES = range(3)


class Touch(IntEnum):
    """Touch screen."""

    ANY, NOTOUCH, STYLUS, FINGER = range(4)


class Keyboard(IntEnum):
    """Keyboard."""

    ANY, NOKEYS, QWERTY, TWELVE = range(4)


class KeysHidden(IntEnum):
    """Whether the keyboard is hidden."""

    ANY, NO, YES, SOFT = range(4)


class Navigation(IntEnum):
    """Way of navigation."""

    ANY, NONAV, DPAD, TRACKBALL, WHEEL = range(5)


class NavHidden(IntEnum):
    """Whether the keys for navigation are hidden."""

    ANY, NO, YES = range(3)


class Gender(IntEnum):
    """Grammatical gender."""

    ANY, NEUTER, FEMININE, MASCULINE = range(4)


# values of `density` that are no number of dots
ANYDPI, NODPI = 0xFFFE, 0xFFFF
# the value of `mnc` that means 0
MNC_ZERO = 0xFFFF


@dataclass(frozen=True)
class Configuration:
    """Each field is 0 or empty where it says nothing. Values that Android has no name for are kept as numbers."""

    mcc: int = 0
    mnc: int = 0
    language: str = ""
    region: str = ""
    script: str = ""
    variant: str = ""
    numbering: str = ""
    gender: int = Gender.ANY
    direction: int = Direction.ANY
    smallest_width: int = 0
    width: int = 0
    height: int = 0
    size: int = Size.ANY
    long: int = Long.ANY
    round: int = Round.ANY
    wide_gamut: int = WideGamut.ANY
    hdr: int = Hdr.ANY
    orientation: int = Orientation.ANY
    ui_type: int = UiType.ANY
    night: int = Night.ANY
    density: int = 0
    touch: int = Touch.ANY
    keyboard: int = Keyboard.ANY
    keys_hidden: int = KeysHidden.ANY
    navigation: int = Navigation.ANY
    nav_hidden: int = NavHidden.ANY
    screen_width: int = 0
    screen_height: int = 0
    sdk: int = 0
    minor: int = 0


DEFAULT = Configuration()
