"""The program that was built here, and whether it is up to date."""
from __future__ import annotations

import os

from ..common.places import TOP
from .sources import Listing

OUT = os.path.join(TOP, "crates", "view_tool", "out")
PROGRAM = os.path.join(OUT, "view_tool")
# its time is that of the beginning of the launcher's last build
STAMP = os.path.join(OUT, "launcher.stamp")


def time_of(path: str) -> int:
    """When a file was written, in nanoseconds; 0 where it is not there."""
    try:
        return os.stat(path).st_mtime_ns
    except OSError:
        return 0


def is_there() -> bool:
    """Whether the program was built."""
    return os.access(PROGRAM, os.X_OK) and os.path.isfile(PROGRAM)


def is_up_to_date(listing: Listing) -> bool:
    """Whether no source is newer than the program, or than the beginning of the last build."""
    return is_there() and listing.is_older(max(time_of(PROGRAM), time_of(STAMP)))
