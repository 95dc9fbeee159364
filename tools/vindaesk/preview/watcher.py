"""Follows files by their times and sizes."""
import os
import threading
import time
from typing import Callable, Dict, List, Optional, Tuple

# how long there is between two looks, in seconds; more where a look takes much of the processor's time
PAUSE = 0.015
SHARE = 20
# how long nothing is written to a file that was written to its end, in seconds, and how often that is waited for
WRITING = 0.004
MOST_LOOKS = 25

# by how much the time of a file may be wrong, in nanoseconds: some systems keep it in steps of two seconds
COARSE = 2_000_000_000

Stamp = Optional[Tuple[int, int, int]]
NEVER = (-1, -1, -1)


def stamp(path: str) -> Stamp:
    """By what another state of a file is seen: None where it is not there."""
    try:
        found = os.stat(path)
    except (OSError, ValueError):
        return None
    return found.st_mtime_ns, found.st_size, found.st_ino


def stamps(paths: List[str]) -> Dict[str, Stamp]:
    """The stamps of some files."""
    return {path: stamp(path) for path in paths}


def older(found: Dict[str, Stamp], moment: int) -> Dict[str, Stamp]:
    """The stamps that were taken before a moment, in nanoseconds. A file that may have changed since has none that is
    ever found again, so that it counts as changed."""
    return {path: it if it and it[0] < moment - COARSE else NEVER for path, it in found.items()}


def follow(files: Callable[[], List[str]], changed: Callable[[], None], ended: threading.Event) -> None:
    """Calls `changed` each time that a file is another one, and written to its end, until the end. A file that is added
    to those that are followed is no change."""
    known = stamps(files())
    pause = PAUSE
    # how many looks there were since a file began to change
    looks = 0
    while not ended.wait(WRITING if looks else pause):
        begun = time.thread_time()
        now = stamps(files())
        is_other = any(now[path] != known.get(path, now[path]) for path in now)
        known = now
        if is_other or looks:
            looks += 1
            if not is_other or looks > MOST_LOOKS:
                looks = 0
                changed()
            continue
        pause = max(PAUSE, SHARE * (time.thread_time() - begun))
