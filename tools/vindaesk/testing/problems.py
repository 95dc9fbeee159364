"""Why a case does not pass: of which sort that is, in a sentence, and whole."""
import difflib
import enum
from typing import List, NamedTuple, Optional

from ..common.failures import Failure
from .calls import Limits, Long, Slow

# a longer answer that differs gets no diff, since that takes long
MAX_DIFF = 20000
# how much of a line a sentence shows
MAX_SHOWN = 160


class Sort(enum.Enum):
    """What went wrong, as reports name it."""

    ANSWER = "AnswerDiffers"
    STATUS = "StatusDiffers"
    PICTURE = "PictureDiffers"
    MISSING = "NothingStored"
    OUTPUT = "LongOutput"
    SOURCE = "NotReadable"
    BROKEN = "BrokenCase"
    TIME = "Timeout"
    ENDED = "ProgramEnded"
    RUNNER = "RunnerError"
    NOT_RUN = "NotRun"

    def is_error(self) -> bool:
        """Whether nothing is known of the case, so that a report calls it an error, and not a failure."""
        return self in (Sort.BROKEN, Sort.TIME, Sort.ENDED, Sort.RUNNER, Sort.NOT_RUN)


class Problem(NamedTuple):
    """Why a case does not pass. `first` is the first difference, where there are several lines."""

    sort: Sort
    text: str
    first: str = ""

    def sentence(self) -> str:
        """It in one line."""
        return self.first or self.text.split("\n")[0]


def lines_of(text: bytes) -> List[str]:
    """The lines of an answer as a diff shows them."""
    shown = text.decode("utf-8", "backslashreplace").split("\n")
    return shown if shown[-1] else shown[:-1]


def first_difference(before: List[str], after: List[str]) -> str:
    """The first line by which two answers differ, in a sentence."""
    number = next((k for k, pair in enumerate(zip(before, after)) if pair[0] != pair[1]), min(len(before), len(after)))
    wanted, found = ("'%s'" % it[number][:MAX_SHOWN] if number < len(it) else "missing" for it in (before, after))
    return "line %d should be %s, and is %s" % (number + 1, wanted, found)


def diff(wanted: bytes, found: bytes, name: str) -> Problem:
    """How two answers differ: whole as a unified diff."""
    before, after = lines_of(wanted), lines_of(found)
    if before == after:
        text = "the last line feed is missing in one of %s and what is written" % name
        return Problem(Sort.ANSWER, text)
    first = first_difference(before, after)
    if max(len(before), len(after)) > MAX_DIFF:
        return Problem(Sort.ANSWER, first)
    rows = difflib.unified_diff(before, after, name, "what is written", lineterm="")
    return Problem(Sort.ANSWER, "\n".join(rows), first)


def of_exception(error: Exception, limits: Limits) -> Problem:
    """What an exception says of a case."""
    if isinstance(error, Slow):
        return Problem(Sort.TIME, "it takes more than %g seconds" % limits.seconds)
    if isinstance(error, Long):
        return Problem(Sort.OUTPUT, "it writes more than %d bytes, and was ended" % limits.size)
    if isinstance(error, MemoryError):
        return Problem(Sort.RUNNER, "the runner: out of memory")
    if isinstance(error, OSError):
        named = " %s:" % error.filename if error.filename else ""
        return Problem(Sort.RUNNER, "the runner:%s %s" % (named, error.strerror or error))
    if isinstance(error, Failure):
        return Problem(Sort.SOURCE, str(error))
    return Problem(Sort.RUNNER, "the runner: %s: %s" % (type(error).__name__, error))


def joined(first: Optional[Problem], second: Optional[Problem]) -> Optional[Problem]:
    """Two problems of one case as one."""
    if first is None or second is None:
        return first or second
    return Problem(first.sort, first.text + "\n" + second.text, first.sentence())
