"""Misspelled words in pages, comments, messages and names, as `codespell` finds them. spelling.txt has words that are
right here, also wrong ones that checks need."""
import os
import subprocess
import tempfile
from functools import partial
from typing import Sequence

from running import TOP, Checks, need

RIGHT = os.path.join(TOP, "ci", "spelling.txt")
# names in the sources of crates
NAMES = "afterall,bu,fo,isnt,nam,upto"
TEXTS = ("README.md", "CHANGELOG.md", "docs", "vindaesk", ".ci/run", "ci", "tools", "bench", "examples")
SKIPPED = "*/locale_data.py,*/platform_names.txt,*/out/*,*/spelling.py,*/__pycache__/*,spelling.txt,*.png,*.apk,*.arsc,*.xml,*.dump"


def misspelled(paths: Sequence[str], names: str) -> str:
    """The lines with a misspelled word below some paths, or nothing."""
    words = [need("codespell"), "--ignore-words", RIGHT, "--ignore-words-list", names, "--skip", SKIPPED, *paths]
    ended = subprocess.run(words, stdout=subprocess.PIPE, stderr=subprocess.DEVNULL, cwd=TOP, text=True)
    found = ended.stdout.splitlines()
    return "; ".join(found[:9]) + ("; and %d more" % (len(found) - 9) if len(found) > 9 else "")


def example() -> str:
    """Why a misspelled word is not found."""
    wrong = "bel" + "eived"
    with tempfile.TemporaryDirectory() as folder:
        path = os.path.join(folder, "page.md")
        with open(path, "w", encoding="utf-8") as file:
            file.write("The crate is\n%s to be right.\n" % wrong)
        found = misspelled([path], NAMES)
    return "" if found == "%s:2: %s ==> believed" % (path, wrong) else "it finds '%s'" % found


def checks() -> Checks:
    yield "spelling: an example", example
    yield "spelling: pages, tools and checks", partial(misspelled, TEXTS, "-")
    yield "spelling: crates", partial(misspelled, ["crates"], NAMES)
