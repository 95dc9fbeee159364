"""A wheel, which `pip` installs, by Python's own setuptools and the root's pyproject.toml."""
import os
import subprocess
import sys
import tempfile

from ..common.failures import Failure, NOT_RUN
from ..common.places import TOP
from . import contents, needs

# what setuptools and setup.py read
SOURCES = ("pyproject.toml", "setup.py", "README.md", "LICENSE", "tools", *contents.READ)
PYTHONS = (sys.executable, "/usr/bin/python3")
HAS_ALL = "import setuptools, wheel.bdist_wheel; assert int(setuptools.__version__.split('.')[0]) >= 61"
BUILD = "import os, sys; os.umask(0o022); from setuptools import build_meta; build_meta.build_wheel(sys.argv[1])"


def platform(program: str) -> str:
    """The tag of the systems on which a program runs (PEP 600)."""
    return "manylinux_%d_%d_x86_64" % needs.of_program(program).libc


def python() -> str:
    """A Python that has what makes wheels."""
    for path in PYTHONS:
        if os.path.exists(path) and not subprocess.run([path, "-c", HAS_ALL], stderr=subprocess.DEVNULL).returncode:
            return path
    raise Failure("setuptools (61 or later) and wheel make the wheel, and no Python has them here: "
                  "apt-get install python3-setuptools python3-wheel", NOT_RUN)


def put_sources(folder: str, commit: str) -> None:
    """Puts all that the wheel is made of into a folder, since setuptools writes beside the sources."""
    found: contents.Contents = {}
    for path in SOURCES:
        found.update(contents.below(TOP, path, contents.MADE))
    found["COMMIT"] = contents.File(commit.encode())
    contents.write(found, folder)


def write(out: str, program: str, commit: str, date: int) -> str:
    """Writes the wheel into a folder; its path. The program and the date are those of the release."""
    before = set(os.listdir(out))
    with tempfile.TemporaryDirectory() as folder:
        put_sources(folder, commit)
        variables = {**os.environ, "SOURCE_DATE_EPOCH": str(date), "VINDAESK_PROGRAM": program,
                     "PYTHONDONTWRITEBYTECODE": "1"}
        ended = subprocess.run([python(), "-c", BUILD, out], cwd=folder, env=variables, stdout=subprocess.PIPE,
                               stderr=subprocess.STDOUT)
    made = sorted(set(os.listdir(out)) - before)
    if ended.returncode or len(made) != 1:
        said = ended.stdout.decode("utf-8", "replace").strip().splitlines()[-1:]
        raise Failure("setuptools ends with status %d: %s" % (ended.returncode, "".join(said)), NOT_RUN)
    return os.path.join(out, made[0])
