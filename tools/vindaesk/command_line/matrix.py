"""Configurations that the arguments of a call give, in the place of those of files."""
import argparse
import itertools
import os
from typing import Dict, List, NamedTuple, Optional, Tuple

from ..common.failures import Failure, NOT_RUN
from ..scripts.script import MAX_SIDE
from ..testing.configurations import DIRECTIONS, NAME, Configuration
from ..views.screens import LEAST_DPI, MOST_DPI
from . import arguments

OPTIONS = ("window", "dpi", "direction", "locale", "values", "night")
WHERE = "the call"


class Setting(NamedTuple):
    """One value of an option: its part of the name of a configuration, and what it sets."""

    name: str
    sets: Dict[str, object]


def size(word: str) -> Tuple[int, int]:
    """The size of a window in dp."""
    width, between, height = word.partition("x")
    if not between:
        raise argparse.ArgumentTypeError("'%s' is no size in dp, as 360x640" % word)
    side = arguments.count(1, MAX_SIDE)
    return side(width), side(height)


def sizes(word: str) -> List[Tuple[int, int]]:
    """Sizes joined by commas."""
    return list(dict.fromkeys(map(size, word.split(","))))


def directions(word: str) -> List[str]:
    """Directions joined by commas."""
    for it in word.split(","):
        if it not in DIRECTIONS:
            raise argparse.ArgumentTypeError("'%s' is not ltr or rtl" % it)
    return list(dict.fromkeys(word.split(",")))


def add(found: argparse.ArgumentParser) -> None:
    """The arguments that give configurations: each value of one with each of the others."""
    group = found.add_argument_group("configurations", "in the place of those of files; a case for each combination")
    group.add_argument("--window", metavar="WxH,..", type=sizes, default=[], help="sizes of windows in dp")
    group.add_argument("--dpi", metavar="N,..", type=arguments.counts(LEAST_DPI, MOST_DPI), default=[],
                       help="densities in dots an inch, 40 to 1000")
    group.add_argument("--direction", metavar="D,..", type=directions, default=[], help="ltr, rtl")
    group.add_argument("--locale", metavar="L,..", type=arguments.names, default=[],
                       help="files of values by their names: resources-L.lines")
    group.add_argument("--values", metavar="FILE,..", type=arguments.names, default=[],
                       help="files of lines with values")
    group.add_argument("--night", action="store_true", help="with the values of the night, resources-night.lines")
    group.add_argument("--picture", action="store_true", help="each has a picture")


def axes_of(given: argparse.Namespace) -> List[List[Setting]]:
    """The values of each option that is there."""
    rows = [
        [Setting("%dx%d" % it, {"window": it}) for it in given.window],
        [Setting("%ddpi" % it, {"dpi": it}) for it in given.dpi],
        [Setting(it, {"direction": it}) for it in given.direction],
        [Setting(it, {"locale": it}) for it in given.locale],
        [Setting(os.path.splitext(os.path.basename(it))[0], {"values": (it,)}) for it in given.values],
        [Setting("night", {"night": True})] if given.night else [],
    ]
    return [row for row in rows if row]


def configurations_of(given: argparse.Namespace) -> Optional[List[Configuration]]:
    """The configurations of a call; none where it has no such argument."""
    axes = axes_of(given)
    if not axes:
        if given.picture:
            raise Failure("--picture needs one of --%s" % ", --".join(OPTIONS), NOT_RUN)
        return None
    found = []
    for group in itertools.product(*axes):
        name = "-".join(it.name for it in group)
        if not NAME.fullmatch(name):
            raise Failure("'%s' is no name of a configuration" % name, NOT_RUN)
        sets: Dict[str, object] = {key: value for it in group for key, value in it.sets.items()}
        found.append(Configuration(name, file=WHERE, line=1, picture=given.picture, **sets))  # type: ignore[arg-type]
    return found


def words(given: argparse.Namespace) -> List[str]:
    """The arguments again, as a call has them."""
    found: List[str] = []
    found += ["--window", ",".join("%dx%d" % it for it in given.window)] if given.window else []
    found += ["--dpi", ",".join(map(str, given.dpi))] if given.dpi else []
    for name in ("direction", "locale", "values"):
        value = getattr(given, name)
        found += ["--" + name, ",".join(value)] if value else []
    return found + ["--night"] * given.night + ["--picture"] * given.picture
