"""A folder of what failed: index.html, which needs nothing beside it, the pictures as PNG files, and failures.json."""
import base64
import json
import os
import re
import shlex
from typing import Dict, Iterable, List, NamedTuple, Optional, Sequence, Set

from ..common import embedding, files
from ..common.failures import Failure, NOT_RUN
from . import evidence
from .case import Case
from .evidence import Evidence

TEMPLATE = os.path.join(os.path.dirname(os.path.abspath(__file__)), "report.html")
PAGE, LIST = "index.html", "failures.json"
PICTURES = (evidence.WANTED, evidence.FOUND, evidence.DIFFERENCE)
# how many failures the page shows whole, and how many bytes of pictures; of the others it has the names
MAX_SHOWN = 500
MAX_BYTES = 1 << 26
MAX_TEXT = 200000
MAX_NAME = 120
UNSAFE = re.compile(r"[^A-Za-z0-9_.@+-]")

Record = Dict[str, object]


def prepare(folder: str) -> None:
    """Makes the folder of a report, or takes away what an earlier one left in it."""
    try:
        os.makedirs(folder, exist_ok=True)
    except OSError as error:
        raise Failure("%s cannot be made: %s" % (folder, error.strerror), NOT_RUN)
    path = os.path.join(folder, LIST)
    if os.path.isfile(path):
        try:
            old = [name for it in json.loads(files.read(path)) for name in it["files"]]
        except (ValueError, KeyError, TypeError):
            raise Failure("%s is no list of a report" % path, NOT_RUN)
        for name in old:
            if os.path.basename(str(name)) == name and str(name).endswith(PICTURES):
                files.remove(os.path.join(folder, name))
    elif os.listdir(folder):
        raise Failure("%s has files that are of no report" % folder, NOT_RUN)


def places(cases: Sequence[Case], folder: str) -> Dict[Case, str]:
    """For each case where its pictures go: a path without its ending, which no other case has."""
    found: Dict[Case, str] = {}
    taken: Set[str] = set()
    for case in cases:
        plain = UNSAFE.sub("_", os.path.normpath(case.name()).lstrip("./"))[-MAX_NAME:] or "_"
        name, count = plain, 1
        while name in taken:
            count += 1
            name = "%s-%d" % (plain, count)
        taken.add(name)
        found[case] = os.path.join(folder, name)
    return found


class Failed(NamedTuple):
    """A failure: the name of what failed, why, how long it took in seconds, what it left, and the call that accepts
    it."""

    name: str
    why: str
    seconds: float
    evidence: Evidence
    accept: str


class Sum(NamedTuple):
    """How many passed, how long all took together in seconds, and the call that accepts all failures."""

    passed: int
    seconds: float
    accept: str


def link(of: Evidence) -> str:
    """Where the page shows a failure."""
    folder, name = os.path.split(of.path)
    return os.path.join(folder, PAGE) + "#" + name


def picture_url(path: str, room: List[int]) -> Optional[str]:
    """A picture as an address with its bytes, as long as there is room for it."""
    body = files.read(path)
    room[0] -= len(body)
    return "data:image/png;base64," + base64.b64encode(body).decode() if room[0] >= 0 else None


def listed(it: Failed) -> Record:
    """A failure as the list has it."""
    of = it.evidence
    return {
        "name": it.name, "why": it.why, "seconds": round(it.seconds, 3),
        "files": [os.path.basename(of.path) + ending for ending in of.endings],
        "regions": [{"box": row.box, "pixels": row.pixels, "view": row.view} for row in of.regions],
    }


def record(it: Failed, room: List[int]) -> Record:
    """A failure as the page has it."""
    of = it.evidence
    images = {}
    for ending in PICTURES:
        path = of.file(ending)
        images[ending.split(".")[1]] = picture_url(path, room) if path else None
    text = of.text or ("" if of.pictures else it.why)
    return {
        **listed(it), "anchor": os.path.basename(of.path), "text": text[:MAX_TEXT], "cut": max(0, len(text) - MAX_TEXT),
        "why": of.pictures, "images": images, "more": of.more_regions, "accept": it.accept,
    }


def command_to_accept(command: Sequence[str], names: Iterable[str]) -> str:
    """The call that accepts some cases."""
    return " ".join(shlex.quote(it) for it in [*command, *names])


def write(folder: str, failed: Sequence[Failed], whole: Sum) -> str:
    """Writes the page and the list. Returns the path of the page."""
    room = [MAX_BYTES]
    data: Record = {
        "failures": [record(it, room) for it in failed[:MAX_SHOWN]], "others": [it.name for it in failed[MAX_SHOWN:]],
        "passed": whole.passed, "accept": whole.accept, "seconds": round(whole.seconds, 1),
    }
    files.replace(os.path.join(folder, LIST), (json.dumps([listed(it) for it in failed], indent=1) + "\n").encode())
    path = os.path.join(folder, PAGE)
    files.replace(path, embedding.page(TEMPLATE, "%d failed" % len(failed), data))
    return path
