"""The package of tools as a Python project: each subpackage uses only those below it, and `mypy --strict` and
`pyflakes` find nothing in it, nor in ci/."""
import ast
import glob
import os
import subprocess
from functools import partial
from typing import Iterator, Sequence, Tuple

from running import TOP, Checks, Skipped, need

MYPY = ("--strict", "--no-error-summary")
# the Python of Debian's mypy, and where it has pytest
PYTHON_OF_MYPY = "/usr/bin/python3"
PYTEST = "/usr/lib/python3/dist-packages/pytest/__init__.py"
PACKAGE = os.path.join(TOP, "tools", "vindaesk")
# from the lowest; those of one row do not use each other
LAYERS = (
    ("common",), ("provenance",), ("program",), ("scripts",), ("layouts", "resources"), ("pictures",), ("views",),
    ("apps",), ("building", "installing", "lint", "pages", "session", "testing"), ("language", "preview", "server"),
    ("command_line",),
)


def imported(path: str) -> Iterator[Tuple[str, int]]:
    """The subpackages beside its own that a module imports from, as `from ..layouts import ..`, each with the line."""
    with open(path, encoding="utf-8") as file:
        tree = ast.parse(file.read())
    for node in ast.walk(tree):
        if isinstance(node, ast.ImportFrom) and node.level == 2:
            for name in [node.module] if node.module else [it.name for it in node.names]:
                yield name.split(".")[0], node.lineno


def wrong_way() -> str:
    """An import that does not lead down, or a subpackage that has no layer."""
    height = {name: number for number, layer in enumerate(LAYERS) for name in layer}
    for subpackage in sorted(it.name for it in os.scandir(PACKAGE) if it.is_dir() and it.name[0] not in "._"):
        if subpackage not in height:
            return "tools/vindaesk/%s has no layer in ci/package.py" % subpackage
        for name in sorted(os.listdir(os.path.join(PACKAGE, subpackage))):
            path = os.path.join(PACKAGE, subpackage, name)
            for other, line in imported(path) if name.endswith(".py") else ():
                if other != subpackage and height.get(other, -1) >= height[subpackage]:
                    return "%s:%d: %s may not use %s" % (os.path.relpath(path, TOP), line, subpackage, other)
    return ""


def says_nothing(command: str, words: Sequence[str], **variables: str) -> str:
    """What a command says that should say nothing."""
    ended = subprocess.run(
        [need(command), *words], stdout=subprocess.PIPE, stderr=subprocess.STDOUT, cwd=TOP, env={**os.environ, **variables}
    )
    return ended.stdout.decode("utf-8", "replace")[-2000:] if ended.returncode else ""


def types() -> str:
    """What `mypy` finds in the tools and in ci/, which uses them: one run reads each module once. Where it does not find
    the types of pytest, ci/ is passed over."""
    need("mypy")
    has_pytest = subprocess.run([PYTHON_OF_MYPY, "-c", "import pytest"], stderr=subprocess.DEVNULL).returncode == 0
    paths = ["tools/vindaesk", "tools/entry.py"]
    if has_pytest:
        paths += [os.path.relpath(it, TOP) for it in glob.glob(os.path.join(TOP, "ci", "**", "*.py"), recursive=True)]
    why = says_nothing("mypy", [*MYPY, "--cache-dir", "out/mypy", *paths], MYPYPATH="tools:ci")
    if not why and not has_pytest:
        raise Skipped(PYTEST)
    return why


def checks() -> Checks:
    yield "package: each subpackage uses those below it alone", wrong_way
    yield "package: mypy", types
    yield "package: pyflakes3", partial(says_nothing, "pyflakes3", ["setup.py", "tools", "ci", "bench"])
