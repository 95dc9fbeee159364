"""What a case results in today beside what is stored."""
import os
from typing import List, Optional, Tuple

from ..common import files
from ..common.failures import Failure
from ..pictures import difference, png
from ..pictures.png import Picture
from ..program import process
from ..program.statuses import WRONG_ARGUMENTS
from ..scripts.script import Window
from . import kinds, problems
from .calls import Limits
from .case import ANSWER, ARGUMENTS, PICTURE, STATUS, Case, Pictures, Written, stored, written_status
from .kind_scripts import words_of
from .problems import Problem, Sort

# the statuses of runs that reached their end
ENDED = (0, 1)
# how many bytes more than the stored answer are read, and how many of one that is accepted
MORE = 1 << 20
MAX_ACCEPTED = 1 << 26

# why an answer or a picture differs, and whether the program reached its end
Checked = Tuple[Optional[Problem], bool]


def limits_of(case: Case, seconds: float) -> Limits:
    """The limits of a case: the length of its stored answer and 1 MiB more."""
    wanted = len(stored(case.file(ANSWER))) if case.has(ANSWER) else 0
    return Limits(seconds, wanted + MORE)


def missing(case: Case, ending: str) -> Problem:
    """What is said of a file that a case should have."""
    name = case.file(ending).rpartition("/")[2]
    return Problem(Sort.MISSING, "it has no %s; --accept writes one" % name)


def of_status(case: Case, status: int) -> Problem:
    """Why the program did not reach its end."""
    path = case.stem + ARGUMENTS
    if status != WRONG_ARGUMENTS or not os.path.exists(path):
        return Problem(Sort.ENDED, str(process.failed(status)))
    words = " ".join(words_of(case.stem, ""))
    return Problem(Sort.ENDED, "%s: the program does not know these arguments: %s" % (path, words))


def text_problem(case: Case, written: Written) -> Optional[Problem]:
    """How the answer of today or its status is not the stored one."""
    if written.status not in ENDED and not (case.has(ANSWER) and written.status == written_status(case)):
        return of_status(case, written.status)
    if not case.has(ANSWER):
        return missing(case, ANSWER)
    wanted, status = stored(case.file(ANSWER)), written_status(case)
    if wanted not in (written.answer, written.plain):
        return problems.diff(wanted, written.answer, case.file(ANSWER))
    if written.status != status:
        return Problem(Sort.STATUS, "status %d in place of %d" % (written.status, status))
    return None


def answer_problem(case: Case, seconds: float) -> Checked:
    """How the answer or the status of today is not the stored one."""
    if case.broken:
        return Problem(Sort.BROKEN, case.broken), False
    limits = Limits(seconds, MORE)
    try:
        limits = limits_of(case, seconds)
        return text_problem(case, kinds.of(case).written(case, limits)), True
    except Exception as error:
        return problems.of_exception(error, limits), False


def compared(name: str, wanted: Optional[Picture], found: Optional[Picture], tolerance: int = 0) -> str:
    """How two pictures differ, of which the first one is in a file of this name; nothing where they do not."""
    if not wanted or not found or wanted == found:
        return ""
    if wanted[:2] != found[:2]:
        return "%s is %d by %d, and the picture %d by %d" % (name, *wanted[:2], *found[:2])
    apart = difference.compared(wanted, found, tolerance)
    return "%s: %s" % (name, difference.in_words(apart)) if apart.pixels else ""


def pictures(case: Case) -> Pictures:
    """The pictures of a case that has one, and how they differ, or nothing."""
    name, wanted, found = case.file(PICTURE), None, None
    whys: List[str] = []
    try:
        wanted = png.read(stored(name), name) if case.has(PICTURE) else None
        whys += [] if wanted else [missing(case, PICTURE).text]
    except Failure as failure:
        whys.append(str(failure))
    try:
        found = kinds.of(case).picture(case, (wanted.width, wanted.height) if wanted else None)
    except Failure as failure:
        whys.append(str(failure))
    return Pictures(wanted, found, "\n".join(filter(None, [*whys, compared(name, wanted, found)])))


def picture_problem(case: Case, seconds: float) -> Optional[Problem]:
    """How the picture of today is not the stored one."""
    try:
        why = pictures(case).why if kinds.of(case).has_picture(case) else ""
    except Exception as error:
        return problems.of_exception(error, Limits(seconds, MORE))
    if not why:
        return None
    return Problem(Sort.PICTURE if case.has(PICTURE) else Sort.MISSING, why)


def problem(case: Case, seconds: float) -> Optional[Problem]:
    """Why a case fails."""
    return answer_problem(case, seconds)[0] or picture_problem(case, seconds)


def stored_size(case: Case) -> Optional[Window]:
    """Width and height of the stored picture, if there is one that can be read."""
    try:
        found = png.read(stored(case.file(PICTURE)), case.file(PICTURE))
    except Failure:
        return None
    return found.width, found.height


def written_files(case: Case, limits: Limits) -> Optional[Problem]:
    """Writes what a case results in today into its files."""
    kind = kinds.of(case)
    written = kind.written(case, limits)
    status = written.status
    if status not in ENDED and not (case.has(STATUS) and written_status(case) == status):
        return of_status(case, status)
    if kind.has_picture(case):
        files.replace(case.file(PICTURE), png.written(kind.picture(case, stored_size(case))))
    files.replace(case.file(ANSWER), written.answer)
    if status or case.has(STATUS):
        files.replace(case.file(STATUS), b"%d\n" % status)
    return None


def accept(case: Case, seconds: float) -> Optional[Problem]:
    """Writes what a case results in today into its files; why that cannot be done, or nothing."""
    if case.broken:
        return Problem(Sort.BROKEN, case.broken)
    limits = Limits(seconds, MAX_ACCEPTED)
    try:
        return written_files(case, limits)
    except Exception as error:
        return problems.of_exception(error, limits)
