"""The stored cases of examples/ and ci/worked/, by `tools/runall`: each answer is that of one case, which passes."""
import glob
import os
import subprocess
import sys
from functools import partial

from running import SECONDS, TOP, Checks

FOLDERS = ("examples", os.path.join("ci", "worked"))


def passes(folder: str) -> str:
    """Why the cases of a folder do not pass, or nothing."""
    answers = glob.glob(os.path.join(TOP, folder, "**", "*.answer"), recursive=True)
    command = [sys.executable, os.path.join(TOP, "tools", "runall"), folder, "--no-cache", "--jobs", "2"]
    ended = subprocess.run(command, stdout=subprocess.PIPE, stderr=subprocess.STDOUT, cwd=TOP, timeout=SECONDS)
    wanted = b"%d passed, 0 failed\n" % len(answers)
    return "" if (ended.returncode, ended.stdout) == (0, wanted) else ended.stdout.decode("utf-8", "replace")


def checks() -> Checks:
    for folder in FOLDERS:
        yield "stored cases: %s" % folder, partial(passes, folder)
