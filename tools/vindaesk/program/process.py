"""Finds the program and runs it for a tool."""
import functools
import itertools
import os
import signal
import subprocess
from typing import IO, Iterator, List, Optional, Tuple

from ..common.failures import Failure
from ..provenance import choice
from . import statuses

# how many runs there were in this process
RUNS = itertools.count()


def path() -> str:
    """The program: the one that the variable VINDAESK_PROGRAM names, or the one of this place (choice.py)."""
    return choice.named() or own()


@functools.lru_cache(maxsize=None)
def own() -> str:
    """The program of this place. It is looked for once: that takes longer than a short run, and a tool that is called
    while sources are edited uses one program to its end."""
    return choice.available()


def failed(status: int) -> Failure:
    """What there is to say of a run that ended before its end."""
    if status < 0:
        return Failure("the program was ended by the signal %s" % signal.Signals(-status).name, 128 - status)
    return Failure("the program ended with status %d: %s" % (status, statuses.short(status)), status)


def ran(words: List[str], given: bytes, folder: str) -> Tuple[bytes, int]:
    """What the program writes over a script, and its status: below 0 for a signal, as `subprocess` has it. Where the
    library beside the program can say it, no process is started."""
    return answered(words, given, folder) or ran_alone(words, given, folder)


def answered(words: List[str], given: bytes, folder: str) -> Optional[Tuple[bytes, int]]:
    """What the library beside the program says in its place, where it can (in_process.py). The first run is the
    program's, since the library takes longer to be loaded; not where a variable names one, so that a wrong one is said
    at once."""
    if next(RUNS) == 0 and not os.environ.get("VINDAESK_LIBRARY"):
        return None
    from . import in_process

    return in_process.answered(words, given, folder)


def ran_alone(words: List[str], given: bytes, folder: str) -> Tuple[bytes, int]:
    """What the program writes in a process of its own, and its status."""
    with subprocess.Popen(
        [path(), *words], stdin=subprocess.PIPE, stdout=subprocess.PIPE, stderr=subprocess.DEVNULL, cwd=folder
    ) as started:
        try:
            written, _ = started.communicate(given)
        finally:
            started.kill()
    return written, started.returncode


def nameless() -> IO[bytes]:
    """A file without a name, in memory where the system has such files."""
    if hasattr(os, "memfd_create"):
        return open(os.memfd_create("script"), "w+b")
    import tempfile

    return tempfile.TemporaryFile()


def lines_of(script: bytes, folder: str, form: str = "run") -> Iterator[bytes]:
    """Each line that the program writes over a script, as it comes; a run that does not reach its end is a failure. The
    form is `run`, or `stack` for a script of windows."""
    answer = answered([form], script, folder)
    if answer is None:
        yield from lines_alone(script, folder, form)
    else:
        yield from answer[0].split(b"\n")[:-1]


def lines_alone(script: bytes, folder: str, form: str) -> Iterator[bytes]:
    """The same from the program in a process of its own."""
    with nameless() as given:
        given.write(script)
        given.seek(0)
        started = subprocess.Popen(
            [path(), form], stdin=given, stdout=subprocess.PIPE, stderr=subprocess.DEVNULL, cwd=folder
        )
    try:
        assert started.stdout is not None
        for line in started.stdout:
            yield line.rstrip(b"\n")
        status = started.wait()
    finally:
        if started.stdout is not None:
            started.stdout.close()
        if started.poll() is None:
            started.kill()
            started.wait()
    if status not in (0, 1):
        raise failed(status)
