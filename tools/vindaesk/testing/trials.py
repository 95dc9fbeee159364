"""How cases go: each is a task that says what is to be done, and has a result. Both can be sent to another process."""
import time
from typing import NamedTuple, Optional

from . import comparing, evidence, problems
from .case import Case
from .comparing import Checked
from .evidence import Evidence
from .kept import Kept
from .keys import Keys
from .problems import Problem, Sort


class Task(NamedTuple):
    """A case to be tried, in a number of seconds. Where it fails and `accepts`, its files are written. What else a
    failure leaves is kept in files whose names begin with `evidence`, if that is not empty."""

    case: Case
    seconds: float
    accepts: bool = False
    evidence: str = ""


class Result(NamedTuple):
    """How a case went: why it failed, or nothing; whether its files were written; how long it took, in seconds; what a
    failure left; whether it was known from before; the key under which it is kept now; and why it could not be kept."""

    case: Case
    problem: Optional[Problem]
    is_accepted: bool = False
    seconds: float = 0
    evidence: Optional[Evidence] = None
    is_known: bool = False
    key: str = ""
    lost: str = ""

    @property
    def why(self) -> str:
        """Why it failed, or nothing."""
        return self.problem.text if self.problem else ""


def left_by(task: Task, answer: Checked) -> Evidence:
    """Keeps what a case that failed leaves."""
    problem, is_ended = answer
    text = problem.text if problem else ""
    if not is_ended:
        return evidence.without_pictures(text, task.evidence)
    return evidence.kept(task.case, text, task.evidence)


def with_evidence(task: Task, answer: Checked, found: Problem, begun: float) -> Result:
    """The result of a case that failed, with what it leaves."""
    try:
        left = left_by(task, answer)
    except Exception as error:
        lost = problems.of_exception(error, comparing.limits_of(task.case, task.seconds))
        return Result(task.case, problems.joined(found, lost), seconds=time.monotonic() - begun)
    of_picture = Problem(Sort.PICTURE, left.pictures) if left.pictures else None
    whole = problems.joined(answer[0], of_picture) or found
    return Result(task.case, whole, seconds=time.monotonic() - begun, evidence=left)


def tried(task: Task) -> Result:
    """How a case goes."""
    case, begun = task.case, time.monotonic()
    answer = comparing.answer_problem(case, task.seconds)
    found = answer[0] or comparing.picture_problem(case, task.seconds)
    is_accepted = False
    if found and task.accepts:
        found = comparing.accept(case, task.seconds)
        is_accepted = not found
    if found and task.evidence:
        return with_evidence(task, answer, found, begun)
    return Result(case, found, is_accepted, time.monotonic() - begun)


def recalled(task: Task, keys: Keys, kept: Kept) -> Result:
    """How a case goes, which is not run where it is known that it has passed. Where it passes now, that is kept, if
    nothing that it depends on has changed meanwhile."""
    begun, key = time.monotonic(), keys.of(task.case)
    if key and kept.has(key):
        return Result(task.case, None, seconds=time.monotonic() - begun, is_known=True)
    found = tried(task)
    if not key or found.problem or found.is_accepted or keys.of(task.case) != key:
        return found
    lost = kept.keep(key)
    return found._replace(key="" if lost else key, lost=lost)
