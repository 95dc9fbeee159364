"""The unit tests of ci/tests/ where pytest is not there: functions `test_*` without arguments, or with `tmp_path`
alone, which is an empty folder. pytest collects the same files by itself."""
import ast
import glob
import importlib.util
import inspect
import os
import pathlib
import tempfile
import traceback
import types
from functools import partial
from typing import Any, Callable, Dict, List

from running import TOP, Checks, Skipped

FOLDER = os.path.join("ci", "tests")


def loaded(path: str) -> types.ModuleType:
    """The module of a file."""
    spec = importlib.util.spec_from_file_location(os.path.basename(path)[: -len(".py")], os.path.join(TOP, path))
    assert spec is not None and spec.loader is not None
    module = importlib.util.module_from_spec(spec)
    spec.loader.exec_module(module)
    return module


def arguments(test: Callable[..., Any], folder: str) -> Dict[str, pathlib.Path]:
    """The arguments that a test takes, by their names."""
    asked = [] if isinstance(test, type) else list(inspect.signature(test).parameters)
    if isinstance(test, type) or asked not in ([], ["tmp_path"]) or hasattr(test, "pytestmark"):
        raise Skipped("pytest", "it needs pytest")
    return {name: pathlib.Path(folder) for name in asked}


def failed_at(error: AssertionError, path: str) -> str:
    """The line of a test at which it failed."""
    rows = [it for it in traceback.extract_tb(error.__traceback__) if it.filename == os.path.join(TOP, path)]
    return "line %s: %s" % (rows[-1].lineno, str(error) or rows[-1].line) if rows else "%r" % error


def tried(path: str, name: str) -> str:
    """Why a test fails, or nothing."""
    try:
        test = getattr(loaded(path), name)
        with tempfile.TemporaryDirectory() as folder:
            test(**arguments(test, folder))
    except AssertionError as error:
        return failed_at(error, path)
    except ModuleNotFoundError as error:
        if error.name == "pytest":
            raise Skipped("pytest", "it needs pytest")
        raise
    return ""


def names(path: str) -> List[str]:
    """The names of the tests of a file, and of the classes of tests."""
    with open(os.path.join(TOP, path), encoding="utf-8") as file:
        tree = ast.parse(file.read())
    return [it.name for it in tree.body if isinstance(it, ast.FunctionDef) and it.name.startswith("test_")
            or isinstance(it, ast.ClassDef) and it.name.startswith("Test")]


def checks() -> Checks:
    for path in sorted(glob.glob(os.path.join(TOP, FOLDER, "**", "test_*.py"), recursive=True)):
        short = os.path.relpath(path, TOP)
        for name in names(short):
            yield "%s::%s" % (short, name), partial(tried, short, name)
