"""The work of a call of lint: each unit by itself, side by side where there are many."""
import argparse
import contextlib
import io
import math
import re
import sys
from typing import Dict, Generator, List, NamedTuple, Sequence, Tuple, Union

from ..common import failures, files, messages, progress
from ..common.failures import Failure
from ..lint import linter
from ..lint.findings import Finding
from ..lint.matrix import Configuration
from ..lint.registry import Rule
from . import lint_paths
from .lint_paths import Apps, Unit


# the number of a view, which is another one in another script
VIEW = re.compile(r"\bv[0-9]+\b")


class Outcome(NamedTuple):
    """How a unit ended: what was found, the status, what was said on standard error, and why it could not be looked at,
    or which of its lines were refused."""

    found: List[Finding]
    status: int
    said: str = ""
    failed: Tuple[str, ...] = ()


class Known:
    """What was found of several scripts. What is written in a file that they include is found in each, or several times
    in one, and kept once, with the configurations of all; so is what is found on several devices."""

    def __init__(self) -> None:
        self.found: List[Finding] = []
        self.known: Dict[Tuple[object, ...], List[Finding]] = {}

    def add(self, found: Sequence[Finding]) -> None:
        """Adds what was found of one of them. Where files have no columns, a place may be that of several views: of equal
        findings as many are kept as one way to the place has."""
        counts: Dict[Tuple[object, ...], int] = {}
        for it in found:
            is_one = it.place.column > 0
            key = (it.rule, it.place, "" if is_one else VIEW.sub("v", it.name), VIEW.sub("v", it.sentence))
            same = self.known.setdefault(key, [])
            place = counts[key, it.places] = 0 if is_one else counts.get((key, it.places), -1) + 1
            if place < len(same):
                known = same[place].configurations
                known += [name for name in it.configurations if name not in known]
            else:
                same.append(it)
                self.found.append(it)


class Work(NamedTuple):
    """What all units share: the call, the configurations and the rules."""

    given: argparse.Namespace
    configurations: Sequence[Configuration]
    rules: Dict[str, Rule]
    apps: Apps

    def look_at(self, unit: Union[Unit, Failure]) -> Outcome:
        """Looks at a unit. What cannot be looked at stops nothing else."""
        known = Known()
        status = 0
        failed: List[str] = []
        try:
            if isinstance(unit, Failure):
                raise unit
            for it in lint_paths.subjects(unit, self.given, self.apps):
                known.add(linter.found_in(it, self.configurations, self.rules))
                status = status or it.status()
                failed += it.refusals()
        except Failure as failure:
            if failure.status not in (failures.WRONG, failures.NOT_RUN):
                raise
            failed.append(in_words(unit, str(failure)))
            messages.say(failed[-1])
            status = failure.status
        return Outcome(known.found, status, failed=tuple(failed))

    def in_silence(self, unit: Union[Unit, Failure]) -> Outcome:
        """The same, with what is said kept."""
        before, sys.stderr = sys.stderr, io.StringIO()
        try:
            outcome = self.look_at(unit)
            return outcome._replace(said=sys.stderr.getvalue())
        except Failure as failure:
            why = in_words(unit, str(failure))
            messages.say(why)
            return Outcome([], failure.status, sys.stderr.getvalue(), (why,))
        finally:
            sys.stderr = before


def in_words(unit: Union[Unit, Failure], why: str) -> str:
    """Why a unit cannot be looked at, with its path before it."""
    path = files.named(unit.path) if isinstance(unit, Unit) else ""
    return why if why.startswith(path) else "%s: %s" % (path, why)


def lost(why: str) -> Outcome:
    """How a unit ended whose process did."""
    return Outcome([], failures.WRONG, why + "\n", (why,))


def outcomes(work: Work, units: Sequence[Union[Unit, Failure]], jobs: int) -> Generator[Outcome, None, None]:
    """How units end, in their order."""
    if min(jobs, len(units)) < 2:
        yield from map(work.look_at if len(units) == 1 else work.in_silence, units)
        return
    # loaded where there are many, since that takes as long as a small script
    from ..common.pool import Lost, Pool

    work.apps.close()
    waiting: Dict[int, Outcome] = {}
    ended = 0
    pool = Pool(lambda at: work.in_silence(units[at]), min(jobs, len(units)), math.inf)
    with contextlib.closing(pool.results(range(len(units)))) as results:
        for place, it in results:
            waiting[place] = lost(in_words(units[place], it.why)) if isinstance(it, Lost) else it
            while ended in waiting:
                yield waiting.pop(ended)
                ended += 1


def done(work: Work, jobs: int) -> Outcome:
    """All that is found and failed, and the status: that of the only unit, else 1 where one has another than 0."""
    units = list(lint_paths.units(work.given, work.apps))
    known = Known()
    said: List[str] = []
    failed: List[str] = []
    statuses = []
    for it in progress.counted(outcomes(work, units, jobs), len(units), "layouts"):
        new = [line for line in dict.fromkeys(it.said.splitlines(True)) if line not in said]
        if new:
            progress.clear()
            sys.stderr.write("".join(new))
        said += new
        known.add(it.found)
        failed += [why for why in it.failed if why not in failed]
        statuses.append(it.status)
    work.apps.close()
    status = statuses[0] if len(statuses) == 1 else failures.WRONG if any(statuses) else 0
    return Outcome(known.found, status, failed=tuple(failed))
