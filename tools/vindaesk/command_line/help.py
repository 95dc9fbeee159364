"""Lists all commands by what they are for, each with an example; or prints what one command takes."""
import argparse
import sys
from typing import List, Optional, Sequence

from ..common import failures
from ..common.failures import Failure
from . import arguments, commands
from .commands import Command
from .uses import Purpose, Use

USE = Use(Purpose.PROJECT, "vindaesk help tree", "prints what a command takes, and without a word this list")
HEAD = """usage: vindaesk WORD [ARGUMENT ..]
       vindaesk help WORD         prints what a word takes
       vindaesk --prove WORD ..   passes over dist/, and proves and builds the program if it is not up to date
"""
FOOT = """
For example

    %s

writes the new view's number, that the frame has settled, and the view's left, top, right and bottom:

    v1
    settled 0
    v1 0 0 30 20

docs/SCRIPT.md has all lines, docs/TOOLS.md the tools, docs/INSTALL.md what is needed, and what helps where it fails.
"""
FIRST = "printf '%s\\n' 'window 100 50' 'add root View 30 20' frame bounds | ./vindaesk run"


def reader() -> argparse.ArgumentParser:
    """The arguments."""
    found = arguments.parser(__doc__)
    found.add_argument("word", metavar="WORD", nargs="?", help="a command")
    return found


def of_command(it: Command) -> str:
    """A command in the list."""
    return "  %-12s%s\n      %s\n" % (it.name, it.use.summary, it.use.example)


def every() -> str:
    """The list of all commands."""
    found = commands.every()
    parts = [HEAD]
    for purpose in Purpose:
        mine = [of_command(it) for it in found if it.use.purpose is purpose]
        parts += ["\n%s\n" % purpose.value, *mine]
    return "".join(parts) + FOOT % FIRST


def unknown(word: str) -> Failure:
    """That there is no such word, and which is near."""
    from ..scripts.grammar import guess

    near = guess(word, tuple(it.name for it in commands.every()))
    more = near + " See vindaesk --help" if near else "; see vindaesk --help"
    return Failure("there is no '%s'%s" % (word, more), failures.NOT_RUN)


def main(words: Optional[Sequence[str]] = None) -> int:
    given: List[str] = sys.argv[1:] if words is None else list(words)
    if not given:
        print(every(), end="")
        return 0
    if len(given) > 1 or given[0] in ("-h", "--help", "--version"):
        reader().parse_args(given)
    found = commands.named(given[0])
    if found is None:
        raise unknown(given[0])
    found.reader().print_help()
    return 0
