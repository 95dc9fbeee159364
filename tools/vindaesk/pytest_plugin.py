"""A plugin of pytest, 7 or later: stored scripts are tests, and tests in Python have a session and stored pictures.

    pytest screens                      each NAME.script with an answer, in each of its configurations
    pytest screens --vindaesk-accept    writes the answers and pictures of today

    def test_reply(vindaesk_session, assert_picture, assert_bounds):
        vindaesk_session.script("window 320 240\\ninflate card.xml\\nframe")
        assert_bounds("@id/reply", 148, 0, 288, 48)
        assert_picture("card.png")

Selection, processes, repeats and reports are those of pytest: -k, -n of pytest-xdist, --lf, --junitxml. docs/TESTING.md
has more.
"""
import json
import os
import pathlib
import time
import zlib
from typing import Any, Callable, Dict, Generator, Iterator, List, Optional

import pytest

from .common import files
from .common.failures import Failure
from .pictures import png
from .session import Session
from .session.results import Bounds
from .testing import comparing, configurations, evidence, kinds, report, trials
from .testing.case import Case, Pictures
from .testing.evidence import Evidence, Region
from .testing.kind_scripts import SCRIPT
from .testing.report import Failed, Sum
from .testing.trials import Task

# the attribute of a report of pytest that has what a failure left; it goes from process to process as JSON
LEFT = "vindaesk"


def pytest_addoption(parser: pytest.Parser) -> None:
    group = parser.getgroup("vindaesk", "scripts of Vindaesk")
    group.addoption("--vindaesk-accept", action="store_true", help="writes today's answers, statuses and pictures")
    group.addoption("--vindaesk-timeout", type=float, default=60, metavar="S",
                    help="seconds that one script may take; 60")
    group.addoption("--vindaesk-report", metavar="DIR",
                    help="where the page and the pictures of what failed go; a folder of pytest's cache without it")


def pytest_configure(config: pytest.Config) -> None:
    folder = folder_of(config)
    if hasattr(config, "workerinput"):
        return
    if folder is not None:
        config.pluginmanager.register(Reporter(config, folder), "vindaesk-reporter")


def folder_of(config: pytest.Config) -> Optional[str]:
    """Where the pictures of what failed go; nothing where that is nowhere."""
    given = config.getoption("vindaesk_report")
    if given:
        return os.path.join(str(config.invocation_params.dir), given)
    cache = getattr(config, "cache", None)
    return os.path.join(str(cache.mkdir("vindaesk")), "report") if cache is not None else None


class Unlike(Exception):
    """A case failed, or a picture is another one: why, and what that left."""

    def __init__(self, why: str, left: Optional[Evidence], seconds: float):
        super().__init__(why)
        self.why = why
        self.left = left
        self.seconds = seconds

    def __str__(self) -> str:
        rows = [self.why]
        if self.left is not None:
            rows += evidence.lines_of(self.left.regions, self.left.more_regions)
            rows += [os.path.relpath(self.left.path + ending) for ending in self.left.endings]
        return "\n".join(rows)


def is_collected(path: pathlib.Path, parent: pytest.Collector) -> bool:
    """Whether a file is looked at: a script that has an answer or configurations, or that was named, since others that
    end alike may be of something else."""
    ending = kinds.ending_of(str(path))
    if ending is None:
        return False
    is_named = any(os.path.realpath(it.split("::")[0]) == os.path.realpath(path) for it in parent.config.args)
    has_answer = os.path.exists(str(path)[: -len(ending)] + ".answer")
    has_configurations = path.suffix == SCRIPT and bool(configurations.of_script(str(path)))
    return is_named or has_answer or has_configurations


def pytest_collect_file(file_path: pathlib.Path, parent: pytest.Collector) -> Optional["CaseFile"]:
    if not is_collected(file_path, parent):
        return None
    found: CaseFile = CaseFile.from_parent(parent, path=file_path)
    return found


class CaseFile(pytest.File):
    """A script, or a layout that is printed."""

    def collect(self) -> Iterator["CaseItem"]:
        for case in kinds.cases_of(str(self.path)):
            name = case.configuration.name if case.configuration else self.path.suffix[1:]
            yield CaseItem.from_parent(self, name=name, case=case)


class CaseItem(pytest.Item):
    """A case."""

    def __init__(self, *, case: Case, **others: Any):
        super().__init__(**others)
        self.case = case

    def runtest(self) -> None:
        path = path_of(self, self.case.name())
        option = self.config.getoption
        found = trials.tried(Task(self.case, option("vindaesk_timeout"), option("vindaesk_accept"), path or ""))
        if found.why:
            raise Unlike(found.why, found.evidence, found.seconds)

    def repr_failure(self, excinfo: Any, style: Any = None) -> Any:
        found = excinfo.value
        return str(found) if isinstance(found, (Unlike, Failure)) else super().repr_failure(excinfo, style)

    def reportinfo(self) -> Any:
        return self.path, None, os.path.relpath(self.case.name(), str(self.config.rootpath))


def path_of(item: pytest.Item, name: str) -> Optional[str]:
    """With what the names of the pictures begin that a test leaves, which no other test has."""
    folder = folder_of(item.config)
    mark = zlib.crc32(("%s %s" % (item.nodeid, name)).encode("utf-8", "replace"))
    plain = report.UNSAFE.sub("_", os.path.basename(name))[-report.MAX_NAME :]
    return os.path.join(folder, "%s-%08x" % (plain, mark)) if folder else None


@pytest.hookimpl(hookwrapper=True)  # type: ignore[misc]
def pytest_runtest_makereport(item: pytest.Item, call: Any) -> Generator[None, Any, None]:
    """Has the report of a failure take with it what that left."""
    outcome = yield
    error = call.excinfo.value if call.excinfo else None
    if isinstance(error, Unlike) and error.left is not None:
        made = outcome.get_result()
        setattr(made, LEFT, json.dumps({"why": error.why, "seconds": error.seconds, **error.left._asdict()}))
        for ending in error.left.endings:
            item.user_properties.append(("vindaesk" + ending, error.left.path + ending))


def evidence_of(left: Dict[str, Any]) -> Evidence:
    """What a failure left, as it was before it went from process to process."""
    own = {name: left[name] for name in Evidence._fields}
    own["regions"] = [Region((box[0], box[1], box[2], box[3]), pixels, view) for box, pixels, view in own["regions"]]
    return Evidence(**own)


class Reporter:
    """Writes the page of what failed, after the last test."""

    def __init__(self, config: pytest.Config, folder: str):
        self.config = config
        self.folder = folder
        self.failed: List[Failed] = []
        self.passed, self.begun = 0, time.monotonic()
        self.page = ""

    def pytest_sessionstart(self) -> None:
        report.prepare(self.folder)

    def pytest_runtest_logreport(self, report: Any) -> None:
        text = getattr(report, LEFT, None)
        self.passed += report.when == "call" and report.passed
        if text is not None:
            left = json.loads(text)
            accept = "pytest %s --vindaesk-accept" % report.nodeid
            self.failed.append(Failed(report.nodeid, left["why"], left["seconds"], evidence_of(left), accept))

    def pytest_sessionfinish(self) -> None:
        seconds = time.monotonic() - self.begun
        names = " ".join(it.name for it in self.failed)
        if self.failed:
            whole = Sum(self.passed, seconds, "pytest %s --vindaesk-accept" % names)
            self.page = report.write(self.folder, self.failed, whole)

    def pytest_terminal_summary(self, terminalreporter: Any) -> None:
        if self.page:
            terminalreporter.write_line("vindaesk: %s shows what failed" % os.path.relpath(self.page))


# fixtures


@pytest.fixture
def vindaesk_session(request: pytest.FixtureRequest) -> Iterator[Session]:
    """A session over the layout files and the ids.txt of the test's folder, which ends with the test."""
    with Session(str(request.path.parent)) as session:
        yield session


@pytest.fixture
def assert_picture(request: pytest.FixtureRequest, vindaesk_session: Session) -> Callable[..., None]:
    """Compares the picture of the session's last frame with one that is stored beside the test:
    `assert_picture("card.png")`. --vindaesk-accept writes that."""

    def check(name: str, session: Session = vindaesk_session, tolerance: int = 0) -> None:
        __tracebackhide__ = True
        begun = time.monotonic()
        path = os.path.join(str(request.path.parent), name)
        found = session.picture()
        wanted = png.read(files.read(path), path) if os.path.exists(path) else None
        missing = "there is no %s; --vindaesk-accept writes it" % name
        why = comparing.compared(name, wanted, found, tolerance) if wanted else missing
        if why and request.config.getoption("vindaesk_accept"):
            files.replace(path, png.written(found))
        elif why:
            place = path_of(request.node, name)
            left = evidence.of_pictures("", Pictures(wanted, found, why), session.placed, place) if place else None
            raise Unlike(why, left, time.monotonic() - begun)

    return check


@pytest.fixture
def assert_bounds(vindaesk_session: Session) -> Callable[..., None]:
    """Compares the bounds of a view in its parent, or with `in_window=True` in the window:
    `assert_bounds("@id/reply", 148, 0, 288, 48)`."""

    def check(view: str, *wanted: int, in_window: bool = False, session: Session = vindaesk_session) -> None:
        __tracebackhide__ = True
        if len(wanted) != 4:
            raise TypeError("assert_bounds takes a view and its left, top, right and bottom")
        box = session.in_window(view) if in_window else bounds_of(session.bounds(view))
        where = "in the window" if in_window else "in its parent"
        assert box == wanted, "%s is at %s %s, and should be at %s" % (view, box, where, wanted)

    return check


def bounds_of(found: Optional[Bounds]) -> Any:
    """The four sides of bounds; None where there are none."""
    return found[:4] if found else None
