"""Tries the plugin of pytest, vindaesk.pytest_plugin, where there is a Python with pytest: stored scripts are tests,
fixtures, what is accepted, processes of pytest-xdist, and the reports."""
import json
import os
import shutil
import subprocess
import sys
from typing import Iterator, List, Tuple

from golden import CARD, IDS
from running import SECONDS, TOP, Checks, Skipped
from tools import Place, place

TEST = """
def test_picture(vindaesk_session, assert_picture, assert_bounds):
    vindaesk_session.script(open(__file__.replace("test_a.py", "a.script")).read())
    assert_bounds("@id/reply", 0, 0, 30, 8)
    assert_bounds("@id/reply", 0, 0, 30, 8, in_window=True)
    assert_picture("own.png")

def test_bounds(vindaesk_session, assert_bounds):
    vindaesk_session.script("window 9 9\\nadd root View 3 4\\nframe")
    assert_bounds("v1", 0, 0, 3, 5)
"""


def python() -> str:
    """A Python that has pytest."""
    for command in (sys.executable, "/usr/bin/python3", "python3"):
        ended = subprocess.run([command, "-c", "import pytest; print(pytest.__version__)"], stdout=subprocess.PIPE,
                               stderr=subprocess.DEVNULL)
        if ended.returncode == 0 and int(ended.stdout.split(b".")[0]) >= 7:
            return command
    raise Skipped("/usr/lib/python3/dist-packages/pytest/__init__.py")


def has_xdist(command: str) -> bool:
    return subprocess.run([command, "-c", "import xdist"], stderr=subprocess.DEVNULL).returncode == 0


def call(it: Place, command: str, *words: str) -> Tuple[int, str]:
    """The status of a run of pytest in a folder, and what it writes."""
    names = {**os.environ, "PYTHONPATH": os.path.join(TOP, "tools"), "PYTEST_ADDOPTS": "", "PYTHONDONTWRITEBYTECODE": "1"}
    ended = subprocess.run([command, "-m", "pytest", "-p", "vindaesk.pytest_plugin", "-q", "--rootdir", it.folder, *words],
                           stdout=subprocess.PIPE, stderr=subprocess.STDOUT, cwd=it.folder, env=names, timeout=SECONDS * 2)
    return ended.returncode, ended.stdout.decode()


def put_suite(it: Place) -> None:
    it.put("ids.txt", IDS)
    it.put("a.script", CARD % "Reply")
    it.put("b.script", CARD % "Reply")
    # of another tool
    it.put("other.script", "display dialog")
    it.put("c.xml", "<a/>")
    it.put("vindaesk.toml", "")
    it.put("test_a.py", TEST)
    it.put("a.toml", "picture = true\n[small]\nwindow = [60, 40]\n[large]\nwindow = [80, 40]\n")
    it.put("b.answer", "v1\nv2\nsettled 0\nv1 0 0 60 40\nv2 0 0 30 8\n")
    os.unlink(os.path.join(it.folder, "vindaesk.toml"))


def tries(it: Place, command: str) -> Iterator[Tuple[Tuple[str, ...], int, str, List[str]]]:
    """Calls of pytest in their order, each with its status, its last line without the time, and parts of what it
    writes."""
    failing = ["a.script::small", "it has no a@small.answer", "there is no own.png; --vindaesk-accept writes it", "own.png-"]
    yield (), 1, "4 failed, 1 passed", failing + ["report/index.html shows what failed"]
    yield ("-k", "small", "--vindaesk-accept"), 0, "1 passed, 4 deselected", []
    yield ("--lf", "--vindaesk-accept"), 1, "1 failed, 2 passed, 2 deselected", ["v1 is at (0, 0, 3, 4) in its parent, and should be at"]
    yield ("a.script", "b.script"), 0, "3 passed", []
    yield ("other.script",), 1, "1 failed", ["it has no other.answer"]
    it.put("a.script", CARD % "Other")
    more = ("-n", "2") if has_xdist(command) else ()
    said = ["a.script::large", 'in v2 TextView @id/reply "Other"', "own.png-"]
    yield (*more, "--junitxml", "j.xml", "--vindaesk-report", "out"), 1, "4 failed, 1 passed", said


def summed(text: str) -> str:
    """The last line of pytest, without the time."""
    return text.rstrip("\n").split("\n")[-1].rpartition(" in ")[0]


def runs_suites() -> str:
    command = python()
    with place() as it:
        put_suite(it)
        for words, status, last, parts in tries(it, command):
            found, text = call(it, command, *words)
            missing = [part for part in parts if part not in text]
            if (found, summed(text)) != (status, last) or missing:
                return "%s: status %d, without %s: %s" % (words, found, missing, text)
        rows = json.loads(it.read("out/failures.json"))
        names = sorted(row["name"] for row in rows)
        wanted = ["a.script::large", "a.script::small", "test_a.py::test_picture"]
        junit = it.read("j.xml").decode()
        if names != wanted or junit.count('name="vindaesk.found.png"') != 3:
            return "the report has %s, JUnit %s" % (names, junit)
        page = it.read("out/index.html").decode()
        return "" if "pytest a.script::small --vindaesk-accept" in page else "the page does not show how to accept"


def commands_of(name: str, mark: str) -> List[str]:
    """The lines of a recipe of docs/ci/ that have a mark, from there on."""
    with open(os.path.join(TOP, "docs", "ci", name), encoding="utf-8") as file:
        return [line.split(mark, 1)[1].strip() for line in file if mark in line]


def recipe_for_github() -> str:
    """The commands of the recipe with pytest; it installs a package, in the place of which the plugin is named here."""
    command = python()
    commands = commands_of("pytest.yml", "run: ")
    if len(commands) != 2 or not commands[0].startswith("python3 -m pip install pytest pytest-xdist "):
        return "commands: %s" % commands
    if not has_xdist(command):
        raise Skipped("/usr/lib/python3/dist-packages/xdist/__init__.py")
    with place() as it:
        os.mkdir(os.path.join(it.folder, "screens"))
        for name in ("card.script", "card.answer", "card.png"):
            shutil.copy(os.path.join(TOP, "examples", name), os.path.join(it.folder, "screens"))
        shutil.copy(os.path.join(TOP, "docs", "examples", "test_card.py"), os.path.join(it.folder, "screens"))
        it.put("screens/ids.txt", IDS)
        words = commands[1].split(" ")
        if words[:3] != ["python3", "-m", "pytest"]:
            return "commands: %s" % commands
        status, text = call(it, command, *words[3:])
        if status or summed(text) != "2 passed" or "report.xml" not in it.names():
            return "status %d: %s" % (status, text)
        it.put("screens/card.script", it.read("screens/card.script").replace(b"Reply", b"Reply!"))
        status, text = call(it, command, *words[3:])
        return "" if status == 1 and "report/index.html shows what failed" in text else "status %d: %s" % (status, text)


def recipe_for_gradle() -> str:
    """The commands of the tasks for Gradle, which is not there to run them."""
    commands = [json.loads("[%s]" % it.rstrip(")").replace("runall.get()", '"runall"'))
                for it in commands_of("vindaesk.gradle.kts", "commandLine(")]
    with place() as it:
        os.mkdir(os.path.join(it.folder, "screens"))
        it.put("screens/a.script", (CARD % "Reply").replace("@id/reply", "@7f080002"))
        wanted = [(1, b"0 passed, 1 failed"), (0, b"1 passed, 0 failed"), (0, b"1 passed, 0 failed")]
        for words, (status, last) in zip([*commands, commands[0]], wanted):
            found = it.call(*words)
            if (found[0], found[1].splitlines()[-1]) != (status, last):
                return "%s: %s" % (words, found)
        made = sorted(os.listdir(os.path.join(it.folder, "build")))
        return "" if made == ["screens", "screens.xml"] else "files: %s" % made


def checks() -> Checks:
    yield "pytest: runs suites", runs_suites
    yield "pytest: the recipe for GitHub", recipe_for_github
    yield "pytest: the recipe for Gradle", recipe_for_gradle
