"""Installs the program, the tools, manual pages, completions and pages below a folder.

PREFIX/bin gets `vindaesk` and `vindaesk-TOOL` for each tool. The folder can be copied or moved, also to another
machine: the program needs libc alone, the tools Python 3.8. What was installed there before is replaced. With --remove
it is taken away, and so are the folders that were made for it.

The status is 0, or 2 where something cannot be read or written, or another one's files are in the way.
"""
import argparse
import os
from typing import Optional, Sequence

from ..common import failures, places
from ..common.failures import Failure
from ..installing import contents, prefix
from ..program import process
from . import arguments, catalogue, version
from .uses import Purpose, Use

USE = Use(Purpose.PROJECT, "vindaesk install out", "puts the program and the tools below a folder")


def reader() -> argparse.ArgumentParser:
    """The arguments."""
    found = arguments.parser(__doc__)
    found.add_argument("prefix", metavar="PREFIX", help="a folder, as ~/.local or /usr/local")
    found.add_argument("--remove", action="store_true", help="takes away what is installed there")
    return found


def main(words: Optional[Sequence[str]] = None) -> int:
    given = reader().parse_args(words)
    if not given.prefix:
        raise Failure("PREFIX is empty", failures.NOT_RUN)
    folder = os.path.abspath(given.prefix)
    if given.remove:
        prefix.remove(folder)
        print("removed from %s" % folder)
        return 0
    program = process.path()
    package = contents.package(program, version.commit())
    prefix.install(folder, package, prefix.rest(catalogue.every(), program))
    print("%s is installed; call %s" % (places.version(), os.path.join(folder, "bin", "vindaesk")))
    return 0
