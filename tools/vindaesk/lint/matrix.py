"""The configurations in which something is laid out."""
import itertools
from typing import List, NamedTuple, Optional, Sequence

from ..views.screens import PLAIN_DPI

RTL = "rtl"


class Configuration(NamedTuple):
    """A configuration: the density in dots an inch, and the width of the window in dp, None where they are the
    subject's own; whether it is night; the direction, empty where it is the subject's own; and of an app further
    qualifiers of the device, as `de-land`."""

    density: Optional[int] = None
    width: Optional[int] = None
    is_night: bool = False
    direction: str = ""
    qualifiers: str = ""

    def named(self, density: int, width: float) -> str:
        """Its name, with the density and the width in dp that the subject has in it."""
        words = [self.qualifiers, "%d dpi" % density, "%g dp" % width, "night" if self.is_night else "", self.direction]
        return ", ".join(filter(None, words))


def all_of(
    densities: Sequence[Optional[int]], widths: Sequence[Optional[int]], nights: Sequence[bool], directions: Sequence[str],
    qualifiers: Sequence[str],
) -> List[Configuration]:
    """Each density with each width, and so on."""
    return [Configuration(*it) for it in itertools.product(densities, widths, nights, directions, qualifiers)]


def width_in_dp(pixels: int, dpi: int) -> float:
    """The width of a window in dp, in tenths."""
    return round(pixels * PLAIN_DPI / dpi, 1)
