"""What a refusal or a fault means, by its number or its name; or a line, by its first word; or an attribute of a layout
file; or a rule of lint, by its name or Android's; or what becomes of a class or an attribute of Android that the
program does not take. Without a word, all that can be explained is listed, except names of Android.

The status is 0, or 2 where a word means nothing.
"""
import argparse
import sys
from typing import Optional, Sequence

from ..common import failures, files
from ..common.failures import Failure
from ..lint import sections
from ..scripts import explanations
from . import arguments
from .uses import Purpose, Use

USE = Use(Purpose.CHECK, "vindaesk explain NoView", "what a refusal, a line, an attribute or a rule of lint means")


def reader() -> argparse.ArgumentParser:
    """The arguments."""
    found = arguments.parser(__doc__)
    found.add_argument("word", metavar="WORD", nargs="?", help="a number, as 31, or a name, as NoView, gravity or Button")
    return found


def explained(tables: explanations.Tables, word: str) -> str:
    """What there is to say of a word; nothing where it means nothing. What names of Android need is loaded for these
    alone."""
    found = explanations.explained(tables, word) or sections.explained(word)
    if found:
        return found
    from ..apps import android_names

    return android_names.explained(word)


def main(words: Optional[Sequence[str]] = None) -> int:
    given = sys.argv[1:] if words is None else list(words)
    if given[:1] in (["-h"], ["--help"], ["--version"]):
        reader().parse_args(given)
    tables = explanations.read()
    text = explained(tables, given[0]) if len(given) == 1 else ""
    if not given:
        text = explanations.every(tables) + "Rules of lint:\n" + "".join("    %s\n" % name for name in sections.read())
    if not text:
        from ..apps import android_names
        from ..scripts.grammar import guess

        near = guess(given[0], (*tables.words(), *sections.read(), *android_names.names())) if len(given) == 1 else ""
        more = "%s vindaesk explain lists what there is to explain" % (near or ";")
        raise Failure("there is no '%s'%s" % (" ".join(given), more), failures.NOT_RUN)
    files.write("-", text.encode())
    return 0
