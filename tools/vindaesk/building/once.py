"""The program for the launcher: the one that is up to date, or one that is proved and built first. What only a build
needs is loaded for it alone."""
from __future__ import annotations

import os

from ..common.failures import Failure, NOT_BUILT
from ..common.messages import say
from ..common.places import TOP
from ..provenance import built, choice, dist
from ..provenance.sources import Listing

KIT = "the command rt of the Rattle kit is needed and not on PATH (docs/INSTALL.md, \"What is needed\")"


def program() -> str:
    """The path of the program, which is built where it has to be."""
    found = choice.named() or choice.up_to_date()
    if found is None:
        if dist.is_there() and not choice.proves():
            from ..provenance import changes

            say("sources differ from those of dist/ (%s)" % changes.in_words())
        build_once()
    return found or built.PROGRAM


def build_once() -> None:
    """Builds the program. Of several calls at once one builds; the others wait for it and then look again."""
    import fcntl

    with open(os.path.join(TOP, "crates.txt"), "rb") as lock:
        try:
            fcntl.flock(lock, fcntl.LOCK_EX | fcntl.LOCK_NB)
        except BlockingIOError:
            say("another call builds the program; waiting for it")
            fcntl.flock(lock, fcntl.LOCK_EX)
        if not built.is_up_to_date(Listing()):
            build()


def build() -> None:
    """Builds the program."""
    import shutil

    from . import build as builder

    if not shutil.which("rt"):
        raise Failure(KIT, NOT_BUILT)
    if built.is_there():
        say("sources have changed; proving what changed and what depends on it")
    else:
        say("proving and building the program: from nothing about 50 minutes on 4 processors, 1 to 6 GB of disk")
    builder.run()
