"""Walks of the focus: which view gets it next, by what `vindaesk focus` says over a copy of what a session did. Where
the library is beside the program, it is asked in this process."""
import subprocess
from typing import Dict, List, Optional, Sequence, Tuple

from ..common.failures import Failure
from ..program import calls, in_process, process
from ..scripts import script
from .carrier import QUESTIONS
from .errors import NoAnswer

ANSWER, REFUSED = b"focus ", b"focus: refused "
NONE = b"none"


def copy_of(journal: bytes) -> bytes:
    """The lines of a session that may have changed something: what the program prints of the others is dropped."""
    lines = [line for line in journal.split(b"\n") if script.words_of(line)]
    return b"".join(line + b"\n" for line in lines if script.words_of(line)[0] not in QUESTIONS)


def answered(words: List[str], copy: bytes, folder: str, seconds: float) -> Tuple[bytes, int]:
    """What there is written for a question, and the status. The library may be given up only after its own patience."""
    found = in_process.answered(words, copy, folder) if seconds >= in_process.PATIENCE else None
    if found is not None:
        return found
    try:
        ended = subprocess.run(
            [process.path(), *words], input=copy, stdout=subprocess.PIPE, stderr=subprocess.DEVNULL, cwd=folder,
            timeout=seconds
        )
    except subprocess.TimeoutExpired:
        raise NoAnswer(" ".join(words), seconds)
    return ended.stdout, ended.returncode


def next_view(copy: bytes, folder: str, side: str, view: str, seconds: float) -> Optional[str]:
    """The view that gets the focus next from one; None where none does."""
    written, status = answered(["focus", side, view], copy, folder, seconds)
    last = written.rstrip(b"\n").rpartition(b"\n")[2]
    if last.startswith(REFUSED):
        raise Failure("there is no focus: " + last.decode()[len(ANSWER) :])
    if not last.startswith(ANSWER):
        raise process.failed(status)
    word = last[len(ANSWER) :]
    return None if word == NONE else word.decode()


def walk(copy: bytes, folder: str, sides: Sequence[str], view: str, seconds: float) -> List[Optional[str]]:
    """The view that has the focus after each key; where no view gets it, None, and it stays where it was. A question
    that comes again is not asked again."""
    for side in sides:
        if side not in calls.SIDES:
            raise ValueError("'%s' is no side; the sides are %s" % (side, ", ".join(calls.SIDES)))
    found: List[Optional[str]] = []
    known: Dict[Tuple[str, str], Optional[str]] = {}
    for side in sides:
        if (side, view) not in known:
            known[side, view] = next_view(copy, folder, side, view, seconds)
        found.append(known[side, view])
        view = found[-1] or view
    return found
