"""The case folders below those that the variable VINDAESK_CASES names, joined by `:`. A case folder has the files
`args` (one word a line), `stdin`, `stdout` and `status`, and beside them the layout files that are where the program
runs."""
import os
import tempfile
from functools import partial
from typing import List

from running import PROGRAM, Checks, difference, run

CASE_FILES = {"args", "stdin", "stdout", "status", "note"}


def contents(folder: str, name: str) -> bytes:
    """What a file of a case holds."""
    with open(os.path.join(folder, name), "rb") as file:
        return file.read()


def case(folder: str) -> str:
    """Why a stored case fails, or nothing."""
    with tempfile.TemporaryDirectory() as place:
        for name in set(os.listdir(folder)) - CASE_FILES:
            with open(os.path.join(place, name), "wb") as file:
                file.write(contents(folder, name))
        words = contents(folder, "args").split(b"\n")[:-1]
        ended = run([PROGRAM.encode(), *words], contents(folder, "stdin"), place)
    return difference(contents(folder, "stdout"), int(contents(folder, "status")), *ended)


def places() -> List[str]:
    """The folders that the variable names."""
    return list(filter(None, os.environ.get("VINDAESK_CASES", "").split(":")))


def folders(place: str) -> List[str]:
    """The case folders below a folder."""
    return [it for it, _, files in sorted(os.walk(place)) if {"args", "stdin", "stdout", "status"} <= set(files)]


def checks() -> Checks:
    for place in places():
        if not folders(place):
            yield place, "no case is there".format
        for folder in folders(place):
            yield folder, partial(case, folder)
