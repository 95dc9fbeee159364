"""What is added to the program touches the files that docs/ARCHITECTURE.md lists: each patch of ci/examples/ applies to the
sources as they are, and its files are those of the table below the link to it.

The patches are no part of the program. They compile under `rt try`; where the sources moved under one, it is made again so:

    git apply --3way ci/examples/class.patch      # and mend what it marks
    (cd crates/view_tool && rt try -- run < SCRIPT)
    git diff HEAD -U1 -- . ':!ci/examples' > ci/examples/class.patch
    git checkout HEAD -- .
"""
import os
import re
import subprocess
from functools import partial
from typing import Iterator, List, Set

from running import TOP, Checks, Skipped

PAGE = "docs/ARCHITECTURE.md"
PATCHES = {"a line": "line", "a class": "class", "an attribute": "attribute"}
# a row of a table: a crate or a place, and the files
ROW = re.compile(r"\|(?:`(\w+)`|[^|`]+)\|([^|]*)\|[^|]*\|$")
TOUCHED = re.compile(r"^\+\+\+ b/(.*)$", re.MULTILINE)


def path_of(name: str) -> str:
    return os.path.join(TOP, "ci", "examples", name + ".patch")


def touched(name: str) -> Set[str]:
    """The files that a patch touches."""
    with open(path_of(name), encoding="utf-8") as file:
        return set(TOUCHED.findall(file.read()))


def rows(lines: List[str]) -> Iterator[str]:
    """The files of the first table of some lines of the page, by their paths from the top."""
    is_begun = False
    for line in lines:
        row = ROW.match(line)
        if is_begun and not row:
            return
        if row:
            is_begun = True
            for path in re.findall(r"`([^`]+)`", row[2]):
                yield "crates/%s/%s" % (row[1], path) if row[1] else path


def listed(name: str) -> Set[str]:
    """The files of the table below the link to a patch."""
    with open(os.path.join(TOP, PAGE), encoding="utf-8") as file:
        lines = file.read().splitlines()
    link = "(../ci/examples/%s.patch)" % name
    at = next((number for number, line in enumerate(lines) if link in line), len(lines))
    return set(rows(lines[at:]))


def same_files(name: str) -> str:
    """Why the table and the patch do not have the same files, or nothing."""
    table, patch = listed(name), touched(name)
    reasons = ["the table lacks %s" % it for it in sorted(patch - table)]
    reasons += ["the patch does not touch %s" % it for it in sorted(table - patch)]
    return "; ".join(reasons)


def applies(name: str) -> str:
    """Why a patch does not apply to the sources, or nothing."""
    try:
        made = subprocess.run(["git", "apply", "--check", path_of(name)], cwd=TOP, stderr=subprocess.PIPE, text=True)
    except FileNotFoundError:
        raise Skipped("git is not here")
    return made.stderr.strip()


def checks() -> Checks:
    for what, name in PATCHES.items():
        yield "additions: the patch of %s applies" % what, partial(applies, name)
        yield "additions: %s touches the files of its table" % what, partial(same_files, name)
