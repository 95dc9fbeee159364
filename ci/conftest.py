"""Has pytest collect and run the checks, each by its name: `pytest ci`, `pytest ci -k tools`, `pytest ci -n 4`.

Where `ci/checks` calls it, what is printed is as without pytest, and not pytest's own report."""
import os
import pathlib
from typing import Any, Iterator, List, Optional

import pytest

import collection
import unit_tests
from results import Outcome, Report, Result, ended_by_skip, outcome_of
from running import TOP, Check, Skipped



# the words of a call of ci/checks, one a line: an option of pytest cannot have a space
WORDS = "CI_CHECKS_WORDS"


class Failed(Exception):
    """A check that failed."""


class CheckItem(pytest.Item):
    """A check."""

    def __init__(self, *, check: Check, **others: Any):
        super().__init__(**others)
        self.check = check

    def runtest(self) -> None:
        outcome, why = outcome_of(self.check)
        if outcome is Outcome.SKIPPED:
            pytest.skip(why)
        if outcome is Outcome.FAILED:
            raise Failed(why)

    def repr_failure(self, excinfo: Any, style: Any = None) -> Any:
        return str(excinfo.value) if excinfo.errisinstance(Failed) else super().repr_failure(excinfo)

    def reportinfo(self) -> Any:
        return self.path, None, self.name


class CheckModule(pytest.File):
    """A module of checks."""

    def collect(self) -> Iterator[pytest.Item]:
        for name, check in collection.of_module(self.path.stem):
            yield CheckItem.from_parent(self, name=name, check=check)


def words() -> List[str]:
    """What the names of the checks to be run have, if anything."""
    return os.environ.get(WORDS, "").splitlines()


def pytest_addoption(parser: Any, pluginmanager: Any) -> None:
    group = parser.getgroup("checks")
    group.addoption("--report-of-checks", type=int, default=None, help="print what ci/checks prints, and the N slowest")
    # pytest's own report, which is left out then, has this option, and what says why a test fails needs it
    if pluginmanager.is_blocked("terminal"):
        group.addoption("--verbose", type=int, default=0)


def pytest_collect_file(file_path: pathlib.Path, parent: Any) -> Optional[CheckModule]:
    if file_path.parent != pathlib.Path(TOP, "ci") or file_path.suffix != ".py":
        return None
    asked = words() or any(file_path.name in it for it in parent.config.args)
    if file_path.stem not in collection.MODULES + (collection.ON_REQUEST if asked else ()):
        return None
    module: CheckModule = CheckModule.from_parent(parent, path=file_path)
    return module


def with_skips(call: Any) -> Iterator[None]:
    """A unit test that is skipped, though what it needs is here, has failed where no skip is right."""
    raised = call.excinfo.value if call.excinfo else None
    made: Any = yield
    outcome, why = ended_by_skip(raised) if isinstance(raised, Skipped) else (Outcome.PASSED, "")
    if outcome is Outcome.FAILED:
        report = made.get_result()
        report.outcome, report.longrepr = outcome.value, why


pytest_runtest_makereport = pytest.hookimpl(hookwrapper=True)(with_skips)


def name_of(nodeid: str) -> str:
    """The name of a check, or of a unit test, by what pytest names it: a path from anywhere, and the name there."""
    path, _, name = nodeid.partition("::")
    _, is_unit, below = path.rpartition("tests/")
    return "%s/%s::%s" % (unit_tests.FOLDER, below, name) if is_unit else name


def dealt(items: List[Any], jobs: int) -> List[Any]:
    """The slowest items first, such that each of some processes begins with as many of them as others: pytest-xdist
    gives each the next sixteenth or so of all, and the rest as they go on."""
    share = len(items) // jobs // 4
    begun = [item for job in range(jobs) for item in items[: share * jobs][job::jobs]]
    return begun + items[share * jobs :]


def pytest_collection_modifyitems(config: Any, items: List[Any]) -> None:
    names = {name_of(item.nodeid): item for item in items}
    wanted = [name for name in names if collection.has_word(name, words())]
    if len(names) < len(items):
        raise pytest.UsageError("two checks have one name")
    jobs = getattr(config, "workerinput", {}).get("workercount", 1)
    items[:] = dealt([names[name] for name in collection.slowest_first(wanted)], jobs)


def why_of(report: Any) -> str:
    """Why a test failed or was skipped."""
    if report.skipped and isinstance(report.longrepr, tuple):
        return str(report.longrepr[2]).replace("Skipped: ", "", 1)
    return str(report.longrepr).strip()


class Reporter:
    """Prints what `ci/checks` prints."""

    def __init__(self, config: Any):
        self.report = Report()
        self.is_interrupted = False
        self.slowest = config.getoption("report_of_checks")

    def pytest_xdist_node_collection_finished(self, ids: List[str]) -> None:
        self.report.begin(len(ids))

    def pytest_collection_finish(self, session: Any) -> None:
        if session.items:
            self.report.begin(len(session.items))

    def pytest_collectreport(self, report: Any) -> None:
        if report.failed:
            self.report.add(Result(report.nodeid, Outcome.FAILED, why_of(report), 0))

    def pytest_runtest_logreport(self, report: Any) -> None:
        outcome = Outcome(report.outcome)
        if report.when == "call" or outcome is not Outcome.PASSED:
            self.report.add(Result(name_of(report.nodeid), outcome, why_of(report), report.duration))

    def pytest_keyboard_interrupt(self) -> None:
        self.is_interrupted = True
        self.report.line.clear()

    def pytest_sessionfinish(self, session: Any, exitstatus: int) -> None:
        if self.is_interrupted:
            return
        missing = self.report.count - len(self.report.results)
        if missing > 0 or exitstatus not in (0, 1):
            why = "pytest ended with status %d, and %d checks have no end" % (exitstatus, missing)
            self.report.add(Result("ci/checks", Outcome.FAILED, why, 0))
        # this is the status of the process
        session.exitstatus = self.report.end(self.slowest)


def pytest_configure(config: Any) -> None:
    if config.getoption("report_of_checks") is not None and not hasattr(config, "workerinput"):
        config.pluginmanager.register(Reporter(config))
