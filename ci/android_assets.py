"""Android's own library for resources, asked about tables: ci/android/assets.cpp is compiled once a run over Debian's
android-libandroidfw-dev, and asked by lines. Where a compiler or the package is missing, it is not there."""
import functools
import os
import shutil
import subprocess
import tempfile
from typing import List, Optional, Sequence

from running import TOP, Skipped
from vindaesk.resources.configuration import Configuration

SOURCE = os.path.join(TOP, "ci", "android", "assets.cpp")
HEADERS = "/usr/include/android"
HEADER = os.path.join(HEADERS, "androidfw", "AssetManager2.h")
LIBRARIES = "/usr/lib/x86_64-linux-gnu/android"
SECONDS = 600
# the program in its folder
NAME = "assets"


@functools.lru_cache(maxsize=None)
def folder() -> "Optional[tempfile.TemporaryDirectory[str]]":
    """The folder of the program, or None where it cannot be built here. It ends with the process that asked for it."""
    if not shutil.which("g++") or not os.path.exists(HEADER):
        return None
    made = tempfile.TemporaryDirectory()
    command = ["g++", "-w", "-O1", "-std=c++17", "-I" + HEADERS, SOURCE, "-o", os.path.join(made.name, NAME),
               "-L" + LIBRARIES, "-Wl,-rpath," + LIBRARIES, "-landroidfw", "-lutils", "-lbase"]
    ended = subprocess.run(command, stderr=subprocess.PIPE, timeout=SECONDS)
    if ended.returncode:
        raise AssertionError("%s: %s" % (SOURCE, ended.stderr.decode()[:500]))
    return made


def program() -> Optional[str]:
    """The program, or None where it cannot be built here."""
    made = folder()
    return None if made is None else os.path.join(made.name, NAME)


def ask(apps: Sequence[str], questions: Sequence[str]) -> List[str]:
    """The answers of Android's library to questions about apps; Skipped where it is not there."""
    path = program()
    if path is None:
        raise Skipped(HEADER, "there is no g++, or no " + HEADER)
    given = "".join(it + "\n" for it in questions).encode()
    ended = subprocess.run([path, *apps], input=given, stdout=subprocess.PIPE, stderr=subprocess.DEVNULL,
                           timeout=SECONDS)
    answers = ended.stdout.decode("utf-8", "backslashreplace").split("\n")[:-1]
    if ended.returncode or len(answers) != len(questions):
        raise AssertionError("status %d, %d answers to %d questions" % (ended.returncode, len(answers), len(questions)))
    return answers


def locale_tag(device: Configuration) -> str:
    """The locale of a device as Android's library takes it."""
    parts = [device.language, device.script, device.region, device.variant]
    return "-".join(it for it in parts if it) + ("-u-nu-" + device.numbering if device.numbering else "") or "-"
