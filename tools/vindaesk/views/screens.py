"""A script on screens of other densities and widths."""
from typing import List, NamedTuple, Optional, Tuple

from ..common.failures import Failure, NOT_RUN
from ..scripts import script
from ..scripts.replies import Part
from ..scripts.script import MAX_SIDE, NUMBER
from . import view_tree

# dots an inch at which a dp is a pixel, and what a line `dpi` may set
PLAIN_DPI = 160
LEAST_DPI, MOST_DPI = 40, 1000


class Screen(NamedTuple):
    """A density in dots an inch and the width of windows in dp; None where it is the script's own."""

    dpi: Optional[int] = None
    width: Optional[int] = None


def dpi_of(line: bytes) -> Optional[int]:
    """The density that a line sets, if it is not refused."""
    words = script.words_of(line)
    if len(words) != 2 or words[0] != b"dpi" or not NUMBER.fullmatch(words[1]):
        return None
    return int(words[1]) if LEAST_DPI <= int(words[1]) <= MOST_DPI else None


def scaled(length: int, over: int, under: int) -> int:
    """A length by a ratio, in whole pixels, at least one."""
    return max(1, (2 * length * over + under) // (2 * under))


def window_on(size: Tuple[int, int], own: int, screen: Screen) -> bytes:
    """A line that opens a window on a screen: its height in dp stays, and its width where the screen gives none."""
    dpi = screen.dpi or own
    width = scaled(screen.width, dpi, PLAIN_DPI) if screen.width else scaled(size[0], dpi, own)
    height = scaled(size[1], dpi, own)
    if max(width, height) > MAX_SIDE:
        why = "a window of %d by %d pixels, at %d dots an inch, is larger than %d" % (width, height, dpi, MAX_SIDE)
        raise Failure(why, NOT_RUN)
    return b"window %d %d" % (width, height)


def lines_on(lines: List[bytes], screen: Screen) -> Tuple[List[bytes], int]:
    """The lines of a script for a screen, and the last density that they set."""
    made, own = [], PLAIN_DPI
    for line in lines:
        size, dots = script.window_of(line), dpi_of(line)
        own = dots or own
        if size and (screen.dpi or screen.width):
            line = window_on(size, own, screen)
        elif dots and screen.dpi:
            line = b"dpi %d" % screen.dpi
        made.append(line)
    return made, screen.dpi or own


def parts_on(lines: List[bytes], screen: Screen) -> Tuple[List[Part], int]:
    """A script on a screen, in parts that end where a reply says what a line made, and its density."""
    made, dpi = lines_on(lines, screen)
    before = [Part([b"dpi %d" % screen.dpi])] if screen.dpi else []
    return before + view_tree.parts_of(made), dpi
