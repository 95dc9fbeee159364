"""Which cases failed when they were run last: a list of paths in the user's folder for such things."""
import contextlib
import fcntl
import os
from typing import Iterable, Iterator, List, Set

from ..common import files
from ..common.failures import Failure
from .case import Case

MAX_PATHS = 100000


def path() -> str:
    """The file of the list."""
    folder = os.environ.get("XDG_CACHE_HOME") or os.path.join(os.path.expanduser("~"), ".cache")
    return os.path.join(folder, "vindaesk", "failed.txt")


def key(case: Case) -> str:
    """A case in the list."""
    return os.path.abspath(case.name())


@contextlib.contextmanager
def alone() -> Iterator[None]:
    """Has others that change the list wait."""
    os.makedirs(os.path.dirname(path()), exist_ok=True)
    with open(path() + ".lock", "w") as lock:
        fcntl.flock(lock, fcntl.LOCK_EX)
        yield


def read() -> Set[str]:
    """The list; nothing where there is none."""
    if not os.path.isfile(path()):
        return set()
    return set(os.fsdecode(files.read(path())).split("\0")) - {""}


def keep(passed: Iterable[Case], failed: Iterable[Case]) -> None:
    """Notes how cases went. Where no list can be kept, none is."""
    try:
        with alone():
            old = {it for it in read() - set(map(key, passed)) if os.path.exists(os.path.dirname(it))}
            found = sorted(old | set(map(key, failed)))[:MAX_PATHS]
            files.replace(path(), os.fsencode("\0".join(found)))
    except (OSError, Failure):
        return


def among(cases: Iterable[Case]) -> List[Case]:
    """Those of some cases that failed last."""
    failed = read()
    return [case for case in cases if key(case) in failed]
