"""What the result of a case depends on, as one number: equal numbers, equal results.

The answer is a function of the program, the words, the script and the files that these name: docs/PROMISES.md has the
theorem. Whether a case passes is a function of these, of the stored files, and of the modules of the tools, which put
ids in the place of names, draw the picture and compare.
"""
import functools
import hashlib
import os
import time
from typing import Callable, Dict, FrozenSet, Generic, Optional, Tuple, TypeVar

from ..common import files
from ..common.failures import Failure
from ..program import native, process
from . import kinds
from .case import ENDINGS, Case

FORM = b"vindaesk 1"
TOOLS = os.path.dirname(os.path.dirname(os.path.abspath(__file__)))


# longer than the tick of any file system's clock, in nanoseconds
SETTLED = 2 * 10**9

Stamp = Tuple[int, ...]
T = TypeVar("T")


class Unkept(Exception):
    """A file is of a sort, as a pipe, that has no contents to depend on."""


def digest_of(path: str) -> bytes:
    """The checksum of a file; a mark where there is none, or a folder in its place."""
    if os.path.isdir(path):
        return b"folder"
    if not os.path.isfile(path):
        if os.path.exists(path):
            raise Unkept
        return b"nothing"
    return hashlib.sha256(files.read(path)).digest()


@functools.lru_cache(1)
def of_tools() -> bytes:
    """The checksum of all modules of the tools."""
    made = hashlib.sha256()
    for folder, inner, names in os.walk(TOOLS):
        inner[:] = sorted(set(inner) - {"__pycache__"})
        for name in sorted(it for it in names if not it.endswith((".pyc", ".html"))):
            path = os.path.join(folder, name)
            made.update(os.fsencode(os.path.relpath(path, TOOLS)) + b"\0" + digest_of(path))
    return made.digest()


def stamp_of(path: str) -> Optional[Stamp]:
    """By what it is seen that a file or a folder has changed; None where there is none, or where it has changed so
    lately that another change might not be seen by it."""
    try:
        found = os.stat(path)
    except FileNotFoundError:
        return None
    latest = max(found.st_mtime_ns, found.st_ctime_ns)
    is_settled = latest < time.time_ns() - SETTLED
    return (found.st_ino, found.st_size, found.st_mtime_ns, found.st_ctime_ns) if is_settled else None


def listing_of(folder: str) -> FrozenSet[bytes]:
    """The names in a folder."""
    return frozenset(os.listdir(os.fsencode(folder)))


class Recalled(Generic[T]):
    """What was read of files and folders, by their paths, as long as they have not changed."""

    def __init__(self, read: Callable[[str], T]):
        self.read = read
        self.known: Dict[str, Tuple[Stamp, T]] = {}

    def of(self, path: str) -> T:
        """What is read of a path."""
        stamp = stamp_of(path)
        if stamp is None:
            return self.read(path)
        if path not in self.known or self.known[path][0] != stamp:
            self.known[path] = stamp, self.read(path)
        return self.known[path][1]


class Keys:
    """The keys of cases."""

    def __init__(self, seconds: float):
        made = hashlib.sha256(FORM + b" %g " % seconds)
        made.update(digest_of(process.path()) + of_tools())
        library = native.path()
        made.update(digest_of(library) if library else b"")
        self.settings = made
        self.digests, self.listings = Recalled(digest_of), Recalled(listing_of)

    def of(self, case: Case) -> Optional[str]:
        """The key of a case; None where there is something that cannot be read, so that its result is not kept."""
        if case.broken:
            return None
        try:
            return self.made(case)
        except (Failure, OSError, Unkept):
            return None

    def made(self, case: Case) -> str:
        """The key of a case."""
        inputs = kinds.of(case).inputs(case, self.listings.of(case.folder()))
        made = self.settings.copy()
        made.update(os.fsencode(case.ending))
        for fact in inputs.facts:
            made.update(b"%d:" % len(fact) + fact)
        for path in inputs.files:
            made.update(os.fsencode(os.path.basename(path)) + b"\0" + self.digests.of(path))
        for ending in ENDINGS:
            made.update(ending.encode() + digest_of(case.file(ending)))
        return made.hexdigest()
