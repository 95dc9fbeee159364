"""By what `ci/checks` runs the checks: by pytest, or by a pool of processes."""
import argparse
import importlib.util
import os
import subprocess
import sys
from typing import List

from running import TOP

CI = os.path.join(TOP, "ci")
DEBIAN = "/usr/bin/python3"
NEEDED = ("pytest", "xdist")


def python_with_pytest() -> str:
    """A Python with pytest and pytest-xdist, or nothing."""
    if all(map(importlib.util.find_spec, NEEDED)):
        return sys.executable
    try:
        tried = subprocess.run([DEBIAN, "-c", "import " + ", ".join(NEEDED)], stderr=subprocess.DEVNULL)
    except OSError:
        return ""
    return "" if tried.returncode else DEBIAN


def command(asked: argparse.Namespace, python: str) -> List[str]:
    """What runs the checks."""
    if not python:
        return [sys.executable, "-B", os.path.join(CI, "pool.py"), str(asked.jobs), str(asked.slowest), *asked.words]
    own = ["--report-of-checks=%d" % asked.slowest]
    own += ["-n%d" % asked.jobs] if asked.jobs > 1 else []
    own += ["--junitxml=" + os.path.abspath(asked.junitxml)] if asked.junitxml else []
    quiet = ["-B", "-m", "pytest", "-p", "no:terminal", "-p", "no:cacheprovider"]
    return [python, *quiet, "--rootdir", TOP, "-c", os.devnull, *own, CI]
