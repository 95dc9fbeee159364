"""What calls of a session are given, checked before a line is made of it: a TypeError or a ValueError names it."""
import os

from ..common.failures import NOT_RUN, Failure

MAX_SCALE = 8
MAX_SIDE = 4096
# how many frames, and steps of a drag, one call may ask for
MAX_COUNT = 1000000
MAX_SECONDS = 1000000


def number(name: str, value: object) -> None:
    """A whole number."""
    if not isinstance(value, int) or isinstance(value, bool):
        raise TypeError("%s is a whole number, and not %r" % (name, value))


def between(name: str, value: int, least: int, most: int) -> None:
    """A whole number from the least to the greatest one."""
    number(name, value)
    if not least <= value <= most:
        raise ValueError("%s is %d to %d, and not %d" % (name, least, most, value))


def scale(value: int) -> None:
    """How many pixels of a file are one of the picture, along each side."""
    between("scale", value, 1, MAX_SCALE)


def text(name: str, value: object) -> None:
    """A text, or None."""
    if value is not None and not isinstance(value, str):
        raise TypeError("%s is a text, and not %r" % (name, value))


def given(name: str, value: object) -> None:
    """A text that has to be there."""
    if not isinstance(value, str):
        raise TypeError("%s is a text, and not %r" % (name, value))


def words(value: object) -> None:
    """What is in a line as one word or more."""
    if not isinstance(value, (str, int)):
        raise TypeError("a value is a text, a whole number, True or False, and not %r" % (value,))


def path(value: object) -> None:
    """Where a file is."""
    if not isinstance(value, (str, os.PathLike)):
        raise TypeError("path is a text, and not %r" % (value,))


def truth(name: str, value: object) -> None:
    """True or False."""
    if not isinstance(value, bool):
        raise TypeError("%s is True or False, and not %r" % (name, value))


def place(value: object) -> None:
    """A place of a path."""
    parts = list(value) if isinstance(value, (tuple, list)) else []
    if len(parts) != 2 or not all(isinstance(it, int) and not isinstance(it, bool) for it in parts):
        raise TypeError("a place is two whole numbers, x and y, and not %r" % (value,))


def flag(name: str, value: object) -> None:
    """True, False or None."""
    if value is not None and not isinstance(value, bool):
        raise TypeError("%s is True or False, and not %r" % (name, value))


def seconds(value: object) -> None:
    """A time limit."""
    if not isinstance(value, (int, float)) or isinstance(value, bool):
        raise TypeError("seconds is a number, and not %r" % (value,))
    if not 0 < value <= MAX_SECONDS:
        raise ValueError("seconds is more than 0 and at most %d, and not %r" % (MAX_SECONDS, value))


def folder(value: str) -> None:
    """The folder of a session."""
    if not isinstance(value, (str, os.PathLike)):
        raise TypeError("folder is a text, and not %r" % (value,))
    if not os.path.isdir(value):
        raise Failure("there is no folder %s" % value, NOT_RUN)
