"""A language server for editors, over standard input and output.

It has the messages of `check` for scripts (.script, .lines, .stack) and those of `axml` for the sources of layouts
(.xml); explanations of lines, words and attributes; completion of lines, views, ids, files, attributes and values; the
places of views and resources; and an outline. docs/EDITORS.md says how editors start it.

The status is 0 where the editor has ended it by `shutdown` and `exit`, and 1 where it ended without.
"""
import argparse
import sys
from typing import Optional, Sequence

from ..language.server import Server
from . import arguments
from .uses import Purpose, Use

USE = Use(Purpose.CHECK, "vindaesk language < /dev/null", "a language server for editors, over standard input")


def reader() -> argparse.ArgumentParser:
    """The arguments."""
    found = arguments.parser(__doc__)
    found.add_argument("--stdio", action="store_true", help="changes nothing; some editors add it")
    return found


def main(words: Optional[Sequence[str]] = None) -> int:
    reader().parse_args(words)
    return Server(sys.stdin.fileno(), sys.stdout.buffer).run()
