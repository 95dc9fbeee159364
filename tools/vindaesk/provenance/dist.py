"""The folder dist/: the program, the libraries of C and the WebAssembly module of a release as their proof built them,
SHA256SUMS, and PROVENANCE, which says of which sources they are.

PROVENANCE has lines of a word and a value:

    version 0.2.0           the file VERSION
    date 2026-12-01         the day on which the folder was made, in UTC
    kit ..                  what `rt version` printed
    commit ..               the commit of the sources
    tree crates ..          git's id of the folder crates/ at that commit
    blob crates.txt ..      git's ids of these two files
    blob HANDLES ..
    sources ..              the checksum over the sources (sources.py)
    ci ..                   a line for each of the last lines that `rt ci` printed
"""
from __future__ import annotations

import os

from ..common.failures import Failure, NOT_BUILT
from ..common.places import TOP
from . import memory
from .sources import FILES, FOLDER as FOLDER_OF_SOURCES, Listing

FOLDER = os.path.join(TOP, "dist")
PROGRAM = os.path.join(FOLDER, "view_tool")
# the shared library of C, whose name has the version of its interface, and the static one
LIBRARY, ARCHIVE = "libvindaesk.so.0", "libvindaesk.a"
MODULE = "vindaesk.wasm"
SUMS = os.path.join(FOLDER, "SHA256SUMS")
PROVENANCE = os.path.join(FOLDER, "PROVENANCE")
NEEDED = ("PROVENANCE", "view_tool")
MACHINE = "x86_64"
KEPT = "dist"


def is_there() -> bool:
    """Whether there is a program in dist/ that this machine can run."""
    return os.path.isfile(PROGRAM) and os.path.isfile(PROVENANCE) and os.uname().machine == MACHINE


def read() -> dict[str, list[str]]:
    """The lines of PROVENANCE: the values of each word, in their order."""
    found: dict[str, list[str]] = {}
    with open(PROVENANCE, encoding="utf-8") as file:
        for line in file:
            word, _, value = line.rstrip("\n").partition(" ")
            found.setdefault(word, []).append(value)
    return found


def is_of(listing: Listing) -> bool:
    """Whether the program of dist/ is of these sources: by their checksum where it is known, else by git, which knows
    it sooner than all files are read, and else by that of the files."""
    if not is_there():
        return False
    wanted = read()
    sources = wanted.get("sources", [""])[0]
    if listing.kept() is None and is_of_commit(wanted):
        listing.keep(sources)
        return True
    return listing.checksum() == sources


def is_of_commit(wanted: dict[str, list[str]]) -> bool:
    """Whether git says that the sources are those of PROVENANCE, and that none of them is changed or new."""
    from . import git

    where = (FOLDER_OF_SOURCES, *FILES)
    ids = git.lines("rev-parse", *("HEAD:./" + it for it in where))
    noted = [line.split(" ")[-1] for line in [*wanted.get("tree", []), *wanted.get("blob", [])]]
    return ids == noted and git.lines("status", "--porcelain", "--untracked-files=all", "--", *where) == []


def summed() -> list[str]:
    """The files that SHA256SUMS lists."""
    return sorted([*NEEDED, *(it for it in (ARCHIVE, LIBRARY, MODULE) if os.path.exists(os.path.join(FOLDER, it)))])


def sums() -> str:
    """What SHA256SUMS has to be, in the form of `sha256sum`."""
    import hashlib

    lines = []
    for name in summed():
        with open(os.path.join(FOLDER, name), "rb") as file:
            lines.append("%s  %s\n" % (hashlib.sha256(file.read()).hexdigest(), name))
    return "".join(lines)


def fault() -> str:
    """What is wrong with the files of dist/, or nothing."""
    try:
        with open(SUMS, encoding="utf-8") as file:
            wanted = file.read().splitlines()
    except (OSError, ValueError):
        return "dist/SHA256SUMS cannot be read"
    found = sums().splitlines()
    for line in found:
        if line not in wanted:
            return "dist/%s has not the checksum that dist/SHA256SUMS has for it" % line.split("  ")[1]
    return "" if len(wanted) == len(found) else "dist/SHA256SUMS lists other files than %s" % " and ".join(summed())


def check() -> None:
    """Sees to it that the files of dist/ are those that were released; that they are is kept until one changes."""
    state, latest = memory.state_of([SUMS, *(os.path.join(FOLDER, it) for it in summed())])
    if memory.recalled(KEPT, state) is not None:
        return
    wrong = fault()
    if wrong:
        raise Failure("%s: `git checkout dist` restores it, --prove builds the program" % wrong, NOT_BUILT)
    memory.keep(KEPT, state, latest, "whole")
