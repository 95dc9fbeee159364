"""What checks have in common: a check is a function that returns why it fails, or nothing, and raises `Skipped` where
it cannot be tried here. Whoever imports this finds the package of tools/ too."""
import os
import shutil
import signal
import subprocess
import sys
import unittest
from typing import Callable, Iterable, Iterator, Optional, Sequence, Tuple, TypeVar, Union

TOP = os.path.dirname(os.path.dirname(os.path.realpath(__file__)))
# how long one call may take, in seconds
SECONDS = 60

sys.path.insert(0, os.path.join(TOP, "tools"))
# tools that checks call start in a third of the time where they keep their compiled modules, and where their Python is
# that of the checks and not what pyenv has on PATH, which is a script
os.environ.pop("PYTHONDONTWRITEBYTECODE", None)
if os.path.realpath(shutil.which("python3") or "") != os.path.realpath(sys.executable):
    os.environ["PATH"] = os.pathsep.join([os.path.dirname(sys.executable), os.environ.get("PATH", os.defpath)])

from vindaesk.common.failures import Failure
from vindaesk.program import process
from vindaesk.provenance import built

Check = Callable[[], str]
# what a module of checks yields: names, which stay the same from run to run, with their functions
Checks = Iterator[Tuple[str, Check]]
Word = Union[str, bytes]
T = TypeVar("T")


def program() -> str:
    """The program that is checked, which is the one that `vindaesk run` and the tools run. Without one it is the place
    where it would be built, so that the names of the checks can be listed."""
    try:
        return process.path()
    except Failure:
        return built.PROGRAM


PROGRAM = program()


class Skipped(unittest.SkipTest):
    """A check that cannot be tried here, since something is missing: a command, or a path where there is a slash in it.
    Unit tests raise it too."""

    def __init__(self, needed: str, reason: str = ""):
        super().__init__(reason or ("there is no %s" if "/" in needed else "there is no %s on PATH") % needed)
        self.needed = needed

    def is_here(self) -> bool:
        """Whether what was said to be missing is there."""
        return os.path.exists(self.needed) if "/" in self.needed else shutil.which(self.needed) is not None


def need(command: str) -> str:
    """The path of a command without which a check is skipped."""
    path = shutil.which(command)
    if path is None:
        raise Skipped(command)
    return path


def not_none(it: Optional[T]) -> T:
    """What has to be there; a check or a unit test that gets None in its place fails."""
    if it is None:
        raise AssertionError("there is None where a value has to be")
    return it


def named(subject: str, checks: Iterable[Callable[..., str]]) -> Checks:
    """Checks with the names of their functions, in words after what they are about."""
    for check in checks:
        yield "%s: %s" % (subject, check.__name__.replace("_", " ")), check


def unknown_word(words: Sequence[str], names: Sequence[str], command: str) -> None:
    """Where a word is part of no name, ends with status 2 and the list of the names."""
    for word in words:
        if not any(word in name for name in names):
            said = "%s: nothing is named by '%s'; the names are\n%s" % (command, word, "\n".join(names))
            print(said, file=sys.stderr)
            sys.exit(2)


def run(command: Sequence[Word], given: bytes, folder: str) -> Tuple[bytes, int]:
    """What a command writes over the given bytes, and its status: below 0 for a signal, as `subprocess` has it. Where
    it takes too long it ends with all that it has started."""
    with subprocess.Popen(
        command, stdin=subprocess.PIPE, stdout=subprocess.PIPE, stderr=subprocess.DEVNULL, cwd=folder, start_new_session=True
    ) as started:
        try:
            written, _ = started.communicate(given, timeout=SECONDS)
        except BaseException:
            os.killpg(started.pid, signal.SIGKILL)
            raise
    return written, started.returncode


def difference(wanted: bytes, wanted_status: int, written: bytes, status: int) -> str:
    """Where what was written and a status are not those that are wanted; nothing where they are."""
    if written != wanted:
        had, has = wanted.split(b"\n"), written.split(b"\n")
        number = next(k for k in range(max(len(had), len(has))) if had[k : k + 1] != has[k : k + 1])
        one, other = (b"".join(it[number : number + 1])[:160].decode("utf-8", "backslashreplace") for it in (had, has))
        return "line %d of the answer should be '%s', and is '%s'" % (number + 1, one, other)
    if status != wanted_status:
        return "status %d in place of %d" % (status, wanted_status)
    return ""
