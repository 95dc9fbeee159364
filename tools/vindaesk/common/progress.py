"""A line of progress on a terminal, which is written anew as things go on, once they have taken some seconds."""
import os
import sys
import threading
import time
from typing import Iterable, Iterator, List, Optional, TypeVar

WIDTH = 80
BAR = 30
# how long something goes on in silence, and how often a line changes at most, in seconds
SILENCE = 2.0
PAUSE = 0.1
# the line that is shown
SHOWN: List["Line"] = []

T = TypeVar("T")


def width() -> int:
    """How many characters fit into a line of the terminal."""
    try:
        return os.get_terminal_size(sys.stderr.fileno()).columns or WIDTH
    except (OSError, ValueError):
        return WIDTH


def bar(done: int, of: int) -> str:
    """How much is done, as a bar and in numbers."""
    filled = BAR * done // of if of else BAR
    return "[%s%s] %d of %d" % ("#" * filled, "." * (BAR - filled), done, of)


class Line:
    """The line, on standard error; where that is no terminal, there is none."""

    def __init__(self) -> None:
        self.is_there = sys.stderr.isatty()
        self.shown = ""

    def show(self, text: str) -> None:
        """Writes the line anew."""
        text = text[: width() - 1]
        if self.is_there and text != self.shown:
            print("\r\033[K" + text, end="", file=sys.stderr, flush=True)
            self.shown = text
            SHOWN[:] = [self]

    def clear(self) -> None:
        """Takes the line away, so that something else can be written."""
        if self.shown:
            print("\r\033[K", end="", file=sys.stderr, flush=True)
            self.shown = ""
        SHOWN[:] = []


def clear() -> None:
    """Takes away the line that is shown, if one is."""
    for line in list(SHOWN):
        line.clear()


def counted(things: Iterable[T], of: int, what: str, line: Optional[Line] = None) -> Iterator[T]:
    """Things as they come, with a line of how many of them there were, from the third second on. `what` is what they
    are, as `frames`."""
    line = line or Line()
    begun = shown = time.monotonic()
    # of several threads the one that waits for them shows a line
    is_shown = line.is_there and threading.current_thread() is threading.main_thread()
    try:
        for count, it in enumerate(things):
            now = time.monotonic()
            if is_shown and now - begun > SILENCE and now - shown > PAUSE:
                line.show("%s %s" % (bar(count, of), what))
                shown = now
            yield it
    finally:
        line.clear()
