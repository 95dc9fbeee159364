"""Results that are kept in the folder out/ at the top, each with the state of the files that it depends on.

A state is bytes: it has sizes, times and numbers of files, and is only compared. A result of files that have changed in
the last seconds is not kept, since a change in the same tick of a file system's clock would not be seen.
"""
from __future__ import annotations

import os
import time

from ..common.places import TOP

FOLDER = os.path.join(TOP, "out")
# longer than the tick of any file system's clock, in nanoseconds
SETTLED = 2 * 10**9


def state_of(paths: list[str]) -> tuple[bytes, int]:
    """The state of files, and the time of the latest change of one, in nanoseconds."""
    stats = [os.stat(it) for it in paths]
    state = repr([(it.st_size, it.st_mtime_ns, it.st_ctime_ns, it.st_ino) for it in stats]).encode()
    return state, max(max(it.st_mtime_ns, it.st_ctime_ns) for it in stats)


def read(name: str) -> tuple[str, bytes]:
    """The result that is kept under a name, and the state; empty where there is none."""
    try:
        with open(os.path.join(FOLDER, name), "rb") as file:
            result, _, kept = file.read().partition(b"\n")
    except OSError:
        return "", b""
    return result.decode("ascii", "replace"), kept


def recalled(name: str, state: bytes) -> str | None:
    """The result that is kept under a name, if its files are in this state."""
    result, kept = read(name)
    return result if kept == state else None


def keep(name: str, state: bytes, latest: int, result: str) -> None:
    """Keeps a result; where nothing can be written, it is found again the next time."""
    if latest > time.time_ns() - SETTLED:
        return
    path = os.path.join(FOLDER, name)
    made = "%s.%d" % (path, os.getpid())
    try:
        os.makedirs(FOLDER, exist_ok=True)
        with open(made, "wb") as file:
            file.write(result.encode() + b"\n" + state)
        os.replace(made, path)
    except OSError:
        return
