"""The version, the version of replies, the commit, the program that is run, and where `rt` is on PATH, the kit."""
import argparse
import os
import shutil
import subprocess
from typing import Optional, Sequence

from ..common import places
from ..common.failures import Failure
from ..provenance import choice, dist, git
from . import arguments
from .uses import Purpose, Use

USE = Use(Purpose.PROJECT, "vindaesk version", "prints the version, the commit, and of which sources the program is")
# raised where what a line replies changes; docs/SCRIPT.md says what may change without
REPLIES = 1


def reader() -> argparse.ArgumentParser:
    """The arguments."""
    return arguments.parser(__doc__)


def commit() -> str:
    """The commit of the sources, and of an installed folder the one that it was made of."""
    path = os.path.join(places.TOP, "COMMIT")
    if os.path.exists(path):
        with open(path, encoding="utf-8") as file:
            return file.read().strip()
    if not os.path.exists(os.path.join(places.TOP, ".git")):
        return "unknown, since this folder is no checkout"
    found = git.lines("describe", "--always", "--dirty", "--abbrev=40", "--exclude", "*")
    return found[0] if found else "unknown, since git does not say"


def program() -> str:
    """Which program is run, and of which sources it is."""
    named = os.environ.get(choice.NAMED)
    if named:
        return "%s, which the variable %s names" % (named, choice.NAMED)
    if not choice.is_checkout():
        return choice.INSTALLED
    try:
        found = choice.up_to_date()
    except Failure as failure:
        return "none: %s" % failure
    if found is None:
        return "none of these sources: vindaesk run proves and builds it"
    which = "of these sources" if found == dist.PROGRAM else "built here"
    return "%s, %s" % (os.path.relpath(found, places.TOP), which)


def main(words: Optional[Sequence[str]] = None) -> int:
    reader().parse_args(words)
    print("%s\nreplies %d\ncommit %s\nprogram %s" % (places.version(), REPLIES, commit(), program()), flush=True)
    if shutil.which("rt"):
        subprocess.run(["rt", "version"], stdin=subprocess.DEVNULL)
    return 0
