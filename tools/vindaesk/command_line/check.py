"""The lines of a script that are refused, each as FILE:LINE:COLUMN with the reason.

The column is that of the word that is meant, in characters, from 1. Of a layout file the element, its line in the
source and the attribute are reported. Layout files are taken from the folder of the script. With `--format github` the
runners of GitHub show each reason beside its line. A file *.stack is a script of a stack of windows.

The status is 0 where no line is refused, and 1 where one is.
"""
import argparse
from typing import Optional, Sequence, Set

from ..common import failures
from ..lint import refused_lines
from . import arguments, many
from .uses import Purpose, Use

USE = Use(Purpose.CHECK, "vindaesk check refusals.script", "which lines of a script are refused, at which word, and why")


def reader() -> argparse.ArgumentParser:
    """The arguments."""
    found = arguments.parser(__doc__)
    many.add(found)
    found.add_argument("--format", choices=sorted(refused_lines.FORMATS), default="plain", help="plain without it")
    return found


def checked(given: argparse.Namespace, path: str) -> int:
    """Prints the refused lines of a script. Returns the status."""
    status = 0
    is_stack = path.endswith(many.STACKS)
    words = argparse.Namespace(**{**vars(many.one(given, path)), "stack": is_stack})
    made = arguments.single(words, is_strict=False)
    if arguments.show_expanded(given, made):
        return 0
    printed: Set[refused_lines.Finding] = set()
    for found in refused_lines.findings(made, "stack" if is_stack else "run"):
        # a file that is included twice has the same line again
        if found not in printed:
            print(refused_lines.FORMATS[given.format](found))
        printed.add(found)
        status = failures.WRONG
    return status


def main(words: Optional[Sequence[str]] = None) -> int:
    parser = reader()
    given = arguments.parsed(parser, words)
    many.check_options(given, parser)
    arguments.write_any_text()
    if not many.is_many(given):
        return checked(given, given.scripts[0])
    found = many.inputs(given.scripts, many.SCRIPTS + many.STACKS)
    return many.run(lambda it: checked(given, it.path), found, given, is_once=True)
