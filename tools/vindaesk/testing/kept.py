"""Which cases have passed, by their keys: an empty file each in 256 folders, so that several processes and machines can
write at once, and a run that was ended has kept what it knew. Failures are not kept: they may be the machine's, and
each run shows how they differ."""
import contextlib
import os
import time
from typing import Iterable, List, Tuple

from ..common.failures import Failure, NOT_RUN

# how many results a folder of the 256 has at most, and how many stay of them
MOST, REMAINING = 2000, 1500
DAY_SECONDS = 86400


def default_folder() -> str:
    """Where results are kept without an option: below the user's folder for such things."""
    folder = os.environ.get("XDG_CACHE_HOME") or os.path.join(os.path.expanduser("~"), ".cache")
    return os.path.join(folder, "vindaesk", "passed")


class Kept:
    """The results of a folder."""

    def __init__(self, folder: str):
        self.folder = folder

    def prepare(self) -> None:
        """Makes the folder."""
        try:
            os.makedirs(self.folder, exist_ok=True)
        except OSError as error:
            raise Failure("%s cannot be made: %s" % (self.folder, error.strerror), NOT_RUN)

    def path(self, key: str) -> str:
        """Where a result is."""
        return os.path.join(self.folder, key[:2], key[2:])

    def has(self, key: str) -> bool:
        """Whether a case with this key has passed. That it was asked for is noted once a day."""
        path = self.path(key)
        try:
            is_old = os.stat(path).st_mtime < time.time() - DAY_SECONDS
        except OSError:
            return False
        if is_old:
            with contextlib.suppress(OSError):
                os.utime(path)
        return True

    def keep(self, key: str) -> str:
        """Notes that a case has passed; where that cannot be written, why: it is run again the next time."""
        path = self.path(key)
        try:
            try:
                touch(path)
            except FileNotFoundError:
                os.makedirs(os.path.dirname(path), exist_ok=True)
                touch(path)
        except OSError as error:
            return error.strerror or str(error)
        return ""

    def tidy(self, keys: Iterable[str]) -> None:
        """Takes away what was not asked for the longest, in the folders of some keys, if there is too much in them."""
        for part in sorted({key[:2] for key in keys}):
            folder = os.path.join(self.folder, part)
            with contextlib.suppress(OSError):
                names = os.listdir(folder)
                if len(names) > MOST:
                    remove_oldest(folder, names)


def touch(path: str) -> None:
    """Makes an empty file, if it is not there."""
    os.close(os.open(path, os.O_CREAT | os.O_WRONLY, 0o666))


def remove_oldest(folder: str, names: List[str]) -> None:
    """Takes the oldest files of a folder away."""
    rows: List[Tuple[float, str]] = []
    for name in names:
        with contextlib.suppress(OSError):
            rows.append((os.stat(os.path.join(folder, name)).st_mtime, name))
    for _, name in sorted(rows)[:-REMAINING]:
        with contextlib.suppress(OSError):
            os.unlink(os.path.join(folder, name))
