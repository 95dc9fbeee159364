"""How checks end, and what is said of that: the same with pytest and without."""
import enum
import os
import sys
import time
from typing import List, NamedTuple, Tuple

from running import TOP, Check, Skipped
from vindaesk.common import progress

# the variable under which a check that is skipped, though what it needs is here, has failed
NO_SKIP = "CI_NO_SKIP"


class Outcome(enum.Enum):
    """What became of a check."""

    PASSED = "passed"
    FAILED = "failed"
    SKIPPED = "skipped"


class Result(NamedTuple):
    """The end of a check: why it failed or was skipped, or nothing; and how long it took, in seconds."""

    name: str
    outcome: Outcome
    why: str
    seconds: float


def ended_by_skip(skipped: Skipped) -> Tuple[Outcome, str]:
    """How a check ends that was skipped, and why."""
    if os.environ.get(NO_SKIP) and skipped.is_here():
        return Outcome.FAILED, "it was skipped, though there is %s: %s" % (skipped.needed, skipped)
    return Outcome.SKIPPED, str(skipped)


def outcome_of(check: Check) -> Tuple[Outcome, str]:
    """How a check ends, and why; also one that ends by a mistake of its own, or of a tool."""
    try:
        why = check()
        return (Outcome.FAILED, why) if why else (Outcome.PASSED, "")
    except Skipped as skipped:
        return ended_by_skip(skipped)
    except Exception as error:
        return Outcome.FAILED, "%s: %s" % (type(error).__name__, error)
    finally:
        os.chdir(TOP)


def tried(name: str, check: Check) -> Result:
    """How a check ends."""
    begun = time.monotonic()
    return Result(name, *outcome_of(check), time.monotonic() - begun)


class Report:
    """What is printed as checks end: failures at once, those that were skipped at the end, and then the sums. On a
    terminal a line of progress is shown meanwhile."""

    def __init__(self) -> None:
        self.count = 0
        self.results: List[Result] = []
        self.line = progress.Line()

    def begin(self, count: int) -> None:
        """Takes note of how many checks there are."""
        self.count = count
        self.show()

    def add(self, result: Result) -> None:
        """Takes note of the end of a check."""
        self.results.append(result)
        if result.outcome is Outcome.FAILED:
            self.line.clear()
            print("failed: %s: %s" % (result.name, result.why), flush=True)
        self.show()

    def show(self) -> None:
        """Shows the line of progress."""
        failed = self.number(Outcome.FAILED)
        said = progress.bar(len(self.results), max(self.count, len(self.results), 1))
        self.line.show(said + (", %d failed" % failed if failed else ""))

    def number(self, outcome: Outcome) -> int:
        """How many checks ended so."""
        return sum(it.outcome is outcome for it in self.results)

    def end(self, slowest: int = 0) -> int:
        """Prints the end, with some of the slowest checks, and returns the status."""
        self.line.clear()
        for it in sorted(self.results, key=lambda it: -it.seconds)[:slowest]:
            print("%.1f seconds: %s" % (it.seconds, it.name))
        for it in sorted(self.results):
            if it.outcome is Outcome.SKIPPED:
                print("skipped: %s: %s" % (it.name, it.why))
        print("%d passed, %d failed, %d skipped" % tuple(map(self.number, Outcome)), flush=True)
        sys.stdout.flush()
        return 1 if self.number(Outcome.FAILED) else 0
