"""What the build of the program reads, and the checksum over it.

These are all files below crates/, except in folders `out`, and the files crates.txt and HANDLES. The checksum is the
SHA-256 of what `sha256sum` prints of them, in the order of the bytes of their paths:

    find crates crates.txt HANDLES -name out -prune -o -type f -print | LC_ALL=C sort | xargs sha256sum | sha256sum
"""
from __future__ import annotations

import marshal
import os

from ..common.places import TOP
from . import memory

FOLDER = "crates"
FILES = ("crates.txt", "HANDLES")
# where a build leaves what it makes
MADE = "out"
# the parts of a crate that decide whether the program is up to date
READ = ("src", "specs", "proofs")
KEPT = "sources"


def inside(top: str, path: str) -> list[tuple[str, os.DirEntry[str]]]:
    """What is in a folder, except what a build makes, each with its path below the top. The path of a folder ends with
    a slash, as the given one does."""
    with os.scandir(os.path.join(top, path)) as found:
        return [(path + it.name + "/" * it.is_dir(), it) for it in found if it.name != MADE]


def is_timed(path: str) -> bool:
    """Whether the time of a folder counts. That of the folder of a crate changes with each build."""
    return path.count("/") > 2


def entry_of(path: str, found: os.stat_result) -> tuple[str, int, int, int, int]:
    """The path of a file or folder below the top, its size, its times in nanoseconds, and its number. The time of a
    folder is the one at which it last got or lost something."""
    return path, found.st_size if path[-1] != "/" else 0, found.st_mtime_ns, found.st_ctime_ns, found.st_ino


class Listing:
    """The sources as they are now: the entry of each file, and of each folder whose time counts."""

    def __init__(self, top: str = TOP):
        self.top = top
        # the checksum, where it was kept of these entries
        self.known: str | None = None
        self.entries: list[tuple[str, int, int, int, int]] = []
        if top != TOP or not self.recall():
            self.enter(FOLDER + "/")
            self.entries += [entry_of(it, os.stat(os.path.join(top, it))) for it in self.beside()]

    def beside(self) -> list[str]:
        """The files beside the folder."""
        return [it for it in FILES if os.path.exists(os.path.join(self.top, it))]

    def enter(self, path: str) -> None:
        """Lists what is in a folder."""
        for below, it in inside(self.top, path):
            is_folder = below.endswith("/")
            if not is_folder or is_timed(below):
                self.entries.append(entry_of(below, it.stat()))
            if is_folder:
                self.enter(below)

    def untimed(self, path: str = FOLDER + "/") -> list[str]:
        """The paths of what is in a folder whose time does not count, and in those of them that are in it."""
        found = [below for below, _ in inside(self.top, path)]
        for below in [it for it in found if it.endswith("/") and not is_timed(it)]:
            found += self.untimed(below)
        return sorted(found)

    def recall(self) -> bool:
        """Takes the entries whose checksum is kept, if all are as they were. A folder is not read where its time says
        that the same files are in it."""
        result, kept = memory.read(KEPT)
        try:
            entries, *others = marshal.loads(kept)
            # some thousand files: a call of `entry_of` for each would add a fifth to the look at it
            top, stat = self.top + os.sep, os.stat
            for path, size, changed, noted, number in entries:
                it = stat(top + path)
                if (it.st_ctime_ns != noted or it.st_mtime_ns != changed or it.st_ino != number
                        or it.st_size != size and path[-1] != "/"):
                    return False
            if others != [self.untimed(), self.beside()]:
                return False
        except (EOFError, OSError, TypeError, ValueError):
            # nothing is kept, or not in this form, or a file is gone
            return False
        self.entries, self.known = entries, result
        return True

    def files(self) -> list[str]:
        """The paths of the files, in the order of their bytes."""
        return sorted((it[0] for it in self.entries if not it[0].endswith("/")), key=os.fsencode)

    def latest(self) -> int:
        """The time of the latest change."""
        return max(max(it[2], it[3]) for it in self.entries)

    def newest(self) -> str:
        """The file that was written last."""
        return max((it[2], it[0]) for it in self.entries if not it[0].endswith("/"))[1]

    def is_older(self, time: int) -> bool:
        """Whether nothing that decides whether the program is up to date was written after a time."""
        return not any(it[2] > time and is_read(it[0]) for it in self.entries)

    def state(self) -> bytes:
        """The entries, and what else there is, as bytes. Form 2 has the same bytes for equal values, which later ones
        do not have."""
        return marshal.dumps([self.entries, self.untimed(), self.beside()], 2)

    def kept(self) -> str | None:
        """The checksum, where it is known for these entries."""
        if self.top != TOP:
            return None
        return self.known or memory.recalled(KEPT, self.state())

    def keep(self, checksum: str) -> None:
        """Notes the checksum, so that the sources are not read again until one changes."""
        if self.top == TOP:
            memory.keep(KEPT, self.state(), self.latest(), checksum)

    def checksum(self) -> str:
        """The checksum over the sources."""
        found = self.kept()
        if found is None:
            found = self.read()
            self.keep(found)
        return found

    def read(self) -> str:
        """The checksum over the sources, which are read."""
        import hashlib

        lines = hashlib.sha256()
        for path in self.files():
            with open(os.path.join(self.top, path), "rb") as file:
                lines.update(b"%s  %s\n" % (hashlib.sha256(file.read()).hexdigest().encode(), os.fsencode(path)))
        return lines.hexdigest()


def is_read(path: str) -> bool:
    """Whether an entry is one of those that decide whether the program is up to date."""
    parts = path.split("/")
    return path in FILES or (len(parts) > 3 and parts[2] in READ)
