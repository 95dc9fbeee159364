"""What lint finds of a layout, at its views. Lint works in a process of its own, which is ended once a file changes: in
a thread it would make the new picture late."""
import contextlib
from typing import Callable, Dict, List, Tuple

from ..common.failures import NOT_RUN, Failure
from ..common.workers import Worker
from ..lint import linter, rules
from ..lint.app_subjects import ScreenSubject
from ..lint.findings import Finding
from ..lint.matrix import Configuration
from ..lint.registry import Severity
from ..scripts.replies import Refused
from ..views.screens import Screen
from .subjects import Layout


# how often it is asked whether a file has changed, in seconds
PAUSE = 0.02

Record = Dict[str, object]


class GivenUp(Failure):
    """A file changed while lint looked at what was drawn of it."""


def found_in(layout: Layout) -> List[Finding]:
    """The findings that lint reports without options. A layout of an app is looked at with the elements of its
    source."""
    chosen = {name: it for name, it in rules.RULES.items() if it.severity >= Severity.WARNING}
    if layout.screen:
        return linter.found_in(ScreenSubject(layout.screen), [Configuration(direction=layout.direction)], chosen)
    shown, _ = linter.laid_out(layout.script, Screen(), Refused(layout.script, is_silent=True))
    return list(linter.findings_of(shown, chosen))


def looked_at(layout: Layout) -> Tuple[List[Record], str]:
    """The findings, each with the number of its view, the rule and the sentence; or why there are none."""
    try:
        found = found_in(layout)
    except Exception as error:
        return [], str(error) if isinstance(error, Failure) else "lint failed: %s: %s" % (type(error).__name__, error)
    return [{"view": it.number, "rule": it.rule, "sentence": it.sentence} for it in found], ""


def findings_of(layout: Layout, is_stale: Callable[[], bool]) -> List[Record]:
    """The same; `GivenUp` where a file changes."""
    worker = Worker(lambda _: looked_at(layout), ())
    try:
        worker.connection.send(None)
        while not worker.connection.poll(PAUSE):
            if is_stale():
                raise GivenUp("a file changed")
        found, why = [], "the process of lint has ended"
        with contextlib.suppress(EOFError, OSError):
            found, why = worker.connection.recv()
    finally:
        worker.kill()
    if why:
        raise Failure(why, NOT_RUN)
    return found
