"""What scripts cost a program, or the library in a process of Python: instructions by callgrind where valgrind is there,
and processor time."""
import hashlib
import os
import re
import resource
import shutil
import subprocess
import sys
import tempfile
from typing import List, NamedTuple, Sequence

FOLDER = os.path.dirname(os.path.realpath(__file__))
COLLECTED = re.compile(r"Collected : (\d+)")
# the function of the library that a call of it carries a script out by
CALL = "vindaesk_c::page::page_for"
# where time is measured, it is the least of this many runs
RUNS = 5


class Cost(NamedTuple):
    """Instructions or seconds, and the digest of what was written."""

    spent: float
    digest: str


class Failed(Exception):
    """A run that did not reach its end."""


def has_callgrind() -> bool:
    return shutil.which("valgrind") is not None


def callgrind(out: str, *more: str) -> List[str]:
    return ["valgrind", "--tool=callgrind", "--callgrind-out-file=" + out, *more]


def digest(written: bytes) -> str:
    return hashlib.sha256(written).hexdigest()


def run(command: Sequence[str], script: bytes) -> "subprocess.CompletedProcess[bytes]":
    """A run over a script, which has to be carried out without a refusal."""
    with tempfile.TemporaryFile() as given:
        given.write(script)
        given.seek(0)
        ended = subprocess.run(command, stdin=given, stdout=subprocess.PIPE, stderr=subprocess.PIPE)
    if ended.returncode != 0:
        refused = [line.decode() for line in ended.stdout.splitlines() if b" refused " in line]
        said = refused[0] if refused else ended.stderr.decode()[-500:]
        raise Failed("%s ended with status %d: %s" % (" ".join(command), ended.returncode, said))
    return ended


def instructions(command: Sequence[str], script: bytes) -> Cost:
    """The instructions of one run."""
    ended = run([*callgrind("/dev/null"), *command], script)
    found = COLLECTED.search(ended.stderr.decode())
    if found is None:
        raise Failed("callgrind counted nothing: " + ended.stderr.decode()[-500:])
    return Cost(int(found[1]), digest(ended.stdout))


def seconds(command: Sequence[str], script: bytes) -> Cost:
    """The least processor time of some runs."""
    best, written = float("inf"), b""
    for _ in range(RUNS):
        before = of_children()
        written = run(command, script).stdout
        best = min(best, of_children() - before)
    return Cost(best, digest(written))


def of_children() -> float:
    """The processor time of all processes that were started here and have ended."""
    usage = resource.getrusage(resource.RUSAGE_CHILDREN)
    return usage.ru_utime + usage.ru_stime


def calls(library: str, scripts: Sequence[bytes], counts: bool) -> List[Cost]:
    """What calls of the library cost, one after the other: instructions, or else the least processor time
    of some calls."""
    with tempfile.TemporaryDirectory() as folder:
        paths = [os.path.join(folder, "%d.script" % number) for number in range(len(scripts))]
        for path, script in zip(paths, scripts):
            with open(path, "wb") as file:
                file.write(script)
        # the path of Python itself: the command may be a script that starts it
        command = [sys.executable, "-I", "-S", os.path.join(FOLDER, "call_library.py"), library, str(0 if counts else RUNS)]
        only = callgrind("/dev/null", "--collect-atstart=no", "--toggle-collect=" + CALL)
        ended = run([*(only if counts else []), *command, *paths], b"")
    rows = ended.stdout.decode().splitlines()
    # each call has a process of its own; the last one has none
    counted = [float(it) for it in COLLECTED.findall(ended.stderr.decode())][:-1]
    spent = counted if counts else [float(row.split()[0]) for row in rows]
    if len(spent) != len(scripts) or 0 in spent:
        raise Failed("callgrind did not see all calls of %s in %s" % (CALL, library))
    return [Cost(cost, row.split()[1]) for cost, row in zip(spent, rows)]
