"""What calls of a session raise."""
from typing import Optional, Tuple

from ..common.failures import WRONG, Failure


# how many characters of a line a message has
MOST = 200


def shortened(line: str) -> str:
    """A line as messages have it: what is cut off a long one is counted."""
    return line if len(line) <= MOST else "%s .. (%d characters more)" % (line[:MOST], len(line) - MOST)


class LineRefused(Exception):
    """A line was refused: the line, the number and the name of the reason, and what follows these."""

    def __init__(self, line: str, number: int, name: str, detail: str):
        super().__init__("refused %d %s%s: %s" % (number, name, detail, shortened(line)))
        self.line = line
        self.number = number
        self.name = name
        self.detail = detail


class NoAnswer(Failure):
    """The program gave no answer within the time limit, and was ended."""

    def __init__(self, line: str, seconds: float):
        super().__init__("the program gave no answer within %g seconds to: %s" % (seconds, line), WRONG)


class NoRoom(Failure):
    """The program reads no more lines of this length. Nothing was sent, and `record` still writes what was done."""


class NotFound(LookupError):
    """No view that is seen is as it was asked for."""


class OtherView(Exception):
    """A tap was not taken by the view that it was meant for: that view, and the one that took it, or None."""

    def __init__(self, view: str, taken_by: Optional[str], place: Tuple[int, int]):
        by = "by %s" % taken_by if taken_by else "by no view of the window"
        super().__init__("the tap on %s, at %d %d, was taken %s" % (view, *place, by))
        self.view = view
        self.taken_by = taken_by
