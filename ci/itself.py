"""Tries ci/checks itself, in a copy of it with a few small checks: what it says of each end, with pytest and without,
and that nothing that it has started goes on after it."""
import contextlib
import os
import shutil
import signal
import subprocess
import tempfile
import time
import xml.etree.ElementTree
from typing import Dict, Iterator, List, Tuple

import collection
import ways
from launcher import goes_on
from running import SECONDS, TOP, Checks, Skipped, named

OWN = ("checks", "ways.py", "collection.py", "conftest.py", "pool.py", "processes.py", "results.py", "running.py", "unit_tests.py")
EXAMPLES = '''import os
import signal
import subprocess
from running import Skipped, named

def fails(): return "line 1 é"
def breaks(): return 1 // 0
def lacks(): raise Skipped("no-such-command")
def has(): raise Skipped("bash", "bash is not liked")

# a function in a function cannot be sent to another process
def made(why):
    def passes(): return why
    return passes

def checks():
    yield from named("a", (made(""), fails, breaks, lacks, has))
'''
WAITS = '''import subprocess, os, time
from running import named

def waits():
    with open("begun", "a") as file:
        started = subprocess.Popen(["sleep", "59"], start_new_session=True)
        file.write("%d\\\\n" % started.pid)
        file.flush()
    started.wait()

def checks():
    yield from named("a", (waits,))
    yield "b: waits", waits
'''.replace("\\\\n", "\\n")
UNIT = '''from running import Skipped

def test_lacks():
    raise Skipped("no-such-command")

def test_has():
    raise Skipped("bash", "bash is not liked")

def test_adds(tmp_path):
    assert 1 + 1 == 2
    assert list(tmp_path.iterdir()) == []

def test_errs():
    assert 1 + 1 == 3, "they are two"
'''
# what all say of EXAMPLES, in some order, and what of UNIT
SAID = ["failed: a: breaks: ZeroDivisionError: integer division or modulo by zero", "failed: a: fails: line 1 é"]
SKIPPED = ["skipped: a: has: bash is not liked", "skipped: a: lacks: there is no no-such-command on PATH"]


@contextlib.contextmanager
def copied(examples: str, unit: str = "") -> Iterator[str]:
    """A folder with a copy of ci/checks, which has these checks and these unit tests alone."""
    with tempfile.TemporaryDirectory() as folder:
        os.makedirs(os.path.join(folder, "ci", "tests"))
        shutil.copytree(os.path.join(TOP, "tools"), os.path.join(folder, "tools"))
        for name in OWN:
            shutil.copy(os.path.join(TOP, "ci", name), os.path.join(folder, "ci"))
        files = {"vindaesk": "#!/bin/sh\n", "ci/slow.txt": "a: lacks\n", "ci/tests/test_unit.py": unit}
        for module in collection.MODULES + collection.ON_REQUEST:
            files["ci/%s.py" % module] = "def checks(): return ()\n"
        files["ci/examples.py"] = examples
        for name, text in files.items():
            with open(os.path.join(folder, name), "w", encoding="utf-8") as file:
                file.write(text)
        os.chmod(os.path.join(folder, "vindaesk"), 0o755)
        yield folder


def started(folder: str, words: List[str], variables: Dict[str, str]) -> "subprocess.Popen[str]":
    """A call of the copy."""
    return subprocess.Popen(
        [os.path.join(folder, "ci", "checks"), *words], cwd=folder, env={**os.environ, "CI_NO_SKIP": "", **variables},
        stdin=subprocess.DEVNULL, stdout=subprocess.PIPE, stderr=subprocess.STDOUT, text=True
    )


def ended(folder: str, *words: str, **variables: str) -> Tuple[int, List[str]]:
    """The status of a call of the copy, and the lines that it prints."""
    call = started(folder, list(words), variables)
    out, _ = call.communicate(timeout=SECONDS)
    return call.returncode, out.splitlines()


def options(*jobs: str) -> List[List[str]]:
    """The options of each way to run checks that is there, with these numbers of processes."""
    found = [["--no-pytest", "--jobs", number] for number in jobs]
    return found + ([["--jobs", number] for number in jobs] if ways.python_with_pytest() else [])


def reports_each_end() -> str:
    for way in options("2", "1"):
        with copied(EXAMPLES) as folder:
            status, lines = ended(folder, *way)
            if (status, sorted(lines[:2]), lines[2:]) != (1, SAID, [*SKIPPED, "1 passed, 2 failed, 2 skipped"]):
                return "%s: status %d, %s" % (way, status, lines)
            status, lines = ended(folder, *way, "a: has", "a: lacks", CI_NO_SKIP="1")
            wanted = ["failed: a: has: it was skipped, though there is bash: bash is not liked", SKIPPED[1],
                      "0 passed, 1 failed, 1 skipped"]
            if (status, lines) != (1, wanted):
                return "%s: where no skip is right: status %d, %s" % (way, status, lines)
    return ""


def knows_its_names() -> str:
    for way in options("1"):
        with copied(EXAMPLES) as folder:
            if ended(folder, *way, "a: passes") != (0, ["1 passed, 0 failed, 0 skipped"]):
                return "%s: %s" % (way, ended(folder, *way, "a: passes"))
    with copied(EXAMPLES) as folder:
        status, lines = ended(folder, "a: lacks", "zz")
        is_right = (status, lines[:2]) == (2, ["ci/checks: nothing is named by 'zz'; the names are", "a: passes"])
        return "" if is_right else "an unknown word: status %d, %s" % (status, lines)


def reports_a_lost_process() -> str:
    kills = EXAMPLES.replace("return why", "os.kill(os.getpid(), signal.SIGKILL)")
    for way in options("2"):
        with copied(kills) as folder:
            status, lines = ended(folder, *way, "a: passes")
            if (status, lines[-1:]) != (1, ["0 passed, 1 failed, 0 skipped"]):
                return "%s: status %d, %s" % (way, status, lines)
    return ""


def runs_unit_tests() -> str:
    for way in options("2"):
        with copied(EXAMPLES, UNIT) as folder:
            status, lines = ended(folder, *way, "tests/", CI_NO_SKIP="1")
        said = "\n".join(lines)
        wanted = ("failed: ci/tests/test_unit.py::test_errs: ", "they are two\n", "\nskipped: ci/tests/test_unit.py::test_lacks: "
                  "there is no no-such-command on PATH\n1 passed, 2 failed, 1 skipped", "failed: ci/tests/test_unit.py::"
                  "test_has: it was skipped, though there is bash: bash is not liked\n")
        if status != 1 or not all(part in said for part in wanted):
            return "%s: status %d, %s" % (way, status, lines)
    return ""


def writes_a_report() -> str:
    if not ways.python_with_pytest():
        raise Skipped("pytest-3", "there is no pytest")
    with copied(EXAMPLES) as folder:
        ended(folder, "--junitxml", "report.xml")
        suite = xml.etree.ElementTree.parse(os.path.join(folder, "report.xml")).getroot()[0]
        found = {it.get("name"): [part.tag for part in it] for it in suite}
    wanted = {"a: passes": [], "a: fails": ["failure"], "a: breaks": ["failure"], "a: lacks": ["skipped"],
              "a: has": ["skipped"]}
    return "" if found == wanted else "it has %s" % found


def waited_for(path: str, count: int) -> List[int]:
    """The numbers of the lines of a file, once it has this many."""
    until = time.monotonic() + SECONDS
    while time.monotonic() < until:
        with contextlib.suppress(OSError), open(path) as file:
            found = file.read().split("\n")
            if len(found) > count:
                return [int(it) for it in found[:count]]
        time.sleep(0.02)
    return []


def ends_what_it_runs() -> str:
    for way in options("2"):
        for number in (signal.SIGINT, signal.SIGTERM):
            with copied(WAITS) as folder:
                call = started(folder, way, {})
                pids = waited_for(os.path.join(folder, "begun"), int(way[-1]))
                call.send_signal(number)
                out, _ = call.communicate(timeout=SECONDS)
                if call.returncode != 128 + number or not pids or any(map(goes_on, pids)):
                    return "%s, %s: status %d, processes %s, %s" % (way, number.name, call.returncode, pids, out)
    return ""


def checks() -> Checks:
    yield from named("ci/checks itself", (reports_each_end, knows_its_names, reports_a_lost_process, runs_unit_tests,
                                          writes_a_report, ends_what_it_runs))
