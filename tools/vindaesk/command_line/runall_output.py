"""What `runall` writes: how each case went, and after the last one the reports and the sum."""
import argparse
import time
from typing import Callable

from ..common import files, messages, places
from ..common.failures import Failure
from ..testing import last_failures, report
from ..testing.report import Failed, Sum
from ..testing.suite import Suite
from ..testing.trials import Result
from . import matrix


def text_of(result: Result) -> str:
    """How a case went, where there is something to say."""
    name = messages.printable(result.case.name())
    if result.why:
        rows = [messages.printable(row) for row in result.why.split("\n")]
        return "failed: %s\n%s\n" % (name, "\n".join(rows))
    return "accepted: %s\n" % name if result.is_accepted else ""


def print_sum(count: int, failed: int) -> None:
    """Prints how many cases passed, and how many did not."""
    print("%d passed, %d failed" % (count - failed, failed), flush=True)


class Ending:
    """What is written after a run, also after one that was ended before its last case."""

    def __init__(self, given: argparse.Namespace, whole: Suite):
        self.given = given
        self.whole = whole
        self.begun, self.first = time.time(), time.monotonic()
        # of the last report that was lost
        self.status = 0

    def attempt(self, write: Callable[[], None]) -> None:
        """Writes a report. One that is lost is named, and others are written all the same."""
        try:
            write()
        except Failure as failure:
            messages.say(str(failure))
            self.status = failure.status

    def keep(self) -> None:
        """Notes what failed, and bounds what is kept."""
        found = self.whole.found.values()
        if self.given.notes_failures:
            last_failures.keep([it.case for it in found if not it.problem], [it.case for it in found if it.problem])
        if self.whole.kept:
            self.whole.kept.tidy(it.key for it in found if it.key)
        lost = [it.lost for it in found if it.lost]
        if lost:
            messages.say("%d results could not be kept: %s" % (len(lost), lost[0]))

    def write_page(self) -> None:
        """Writes the page of what failed."""
        given, results = self.given, self.whole.results()
        command = [messages.tool("runall"), *given.folders, *matrix.words(given), "--accept"]
        failed = [
            Failed(it.case.name(), it.why, it.seconds, it.evidence, report.command_to_accept(command, [it.case.name()]))
            for it in results if it.evidence
        ]
        passed, seconds = sum(not it.why for it in results), sum(it.seconds for it in results)
        path = report.write(given.report, failed, Sum(passed, seconds, report.command_to_accept(command, [])))
        if failed:
            messages.say("%s shows what failed" % path)

    def write_junit(self) -> None:
        """Writes the report for servers."""
        from ..testing import junit

        place, of = self.given.shard
        known = sum(it.is_known for it in self.whole.found.values())
        about = junit.About(self.begun, time.monotonic() - self.first, {
            "vindaesk.version": places.version(), junit.PART: "%d/%d" % (place + 1, of), "vindaesk.known": str(known),
        })
        files.replace(self.given.junit, junit.written(self.whole.results(), about, self.given.junit_family))

    def write_sum(self) -> None:
        """Prints the last line."""
        results = self.whole.results()
        not_run = len(results) - len(self.whole.found)
        if not_run:
            messages.say("%s not run, and count%s as failed" % (("1 case was", "s") if not_run == 1 else ("%d cases were" % not_run, "")))
        print_sum(len(results), sum(bool(it.problem) for it in results))
