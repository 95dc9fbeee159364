"""Runs the tests of this checkout that need no proof, over the program that `vindaesk run` runs.

With words, only those whose name has one of them. The last line has how many passed, failed and were skipped. No kit is
needed if the program is there. The status is 0 where all passed.
"""
import argparse
import os
import sys
from typing import Optional, Sequence

from ..building import once
from ..common import failures, places
from ..common.failures import Failure
from . import arguments
from .uses import Purpose, Use

USE = Use(Purpose.PROJECT, "vindaesk test lint", "runs the tests that need no proof, or those whose name has a word")
CHECKS = os.path.join(places.TOP, "ci", "checks")


def reader() -> argparse.ArgumentParser:
    """The arguments."""
    found = arguments.parser(__doc__)
    found.add_argument("words", metavar="WORD", nargs="*", help="a part of the names of tests")
    return found


def main(words: Optional[Sequence[str]] = None) -> int:
    given = sys.argv[1:] if words is None else list(words)
    if given[:1] in (["-h"], ["--help"], ["--version"]):
        reader().parse_args(given)
    if not os.path.exists(CHECKS):
        raise Failure("the tests are in the repository, and this folder is no checkout of it", failures.NOT_RUN)
    once.program()
    sys.stdout.flush()
    os.execv(CHECKS, [CHECKS, *given])
