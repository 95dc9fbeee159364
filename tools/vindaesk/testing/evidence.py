"""What a case that fails leaves: the pictures wanted and found and their difference as files, where these differ and in
which views, and the text of the difference."""
import os
from functools import partial
from typing import Callable, Dict, List, NamedTuple, Optional

from ..common import files
from ..pictures import difference, png
from ..pictures.png import Picture
from ..pictures.regions import Box
from ..views import placement
from ..views.placement import Placed
from . import comparing, kinds
from .case import Case, Pictures

WANTED, FOUND, DIFFERENCE = ".wanted.png", ".found.png", ".difference.png"
# how many regions are listed
MOST_REGIONS = 40


class Region(NamedTuple):
    """Where pictures differ: left, top, right and bottom, how many pixels, and the view there, which may be none."""

    box: Box
    pixels: int
    view: str


class Evidence(NamedTuple):
    """What is kept of a failure: its text, why the pictures differ, and the files by their endings, whose names begin
    with `path`; and where they differ."""

    text: str
    pictures: str
    path: str
    endings: List[str]
    regions: List[Region]
    more_regions: int

    def file(self, ending: str) -> Optional[str]:
        """A file by its ending, where it is there."""
        return self.path + ending if ending in self.endings else None


def regions_in(found: difference.Difference, views: List[Placed]) -> List[Region]:
    """The first regions of a difference, each with its view."""
    rows = []
    for it in found.regions[:MOST_REGIONS]:
        view = placement.view_at(views, it.box)
        rows.append(Region(it.box, it.pixels, placement.title(view) if view else ""))
    return rows


def lines_of(rows: List[Region], more: int) -> List[str]:
    """Regions as lines."""
    lines = []
    for it in rows:
        count = "1 pixel" if it.pixels == 1 else "%d pixels" % it.pixels
        lines.append("%d %d %d %d" % it.box + ": " + count + (" in " + it.view if it.view else ""))
    return lines + (["and %d more regions" % more] if more else [])


def without_pictures(text: str, path: str) -> Evidence:
    """What a failure leaves that has no picture."""
    return Evidence(text, "", path, [], [], 0)


def of_pictures(text: str, made: Pictures, views: Callable[[], List[Placed]], path: str) -> Evidence:
    """Keeps the pictures of a failure in files whose names begin with a path; the views are asked for where they are
    needed."""
    parts: Dict[str, Optional[Picture]] = {WANTED: made.wanted, FOUND: made.found}
    rows: List[Region] = []
    more = 0
    if made.wanted and made.found and made.wanted != made.found and made.wanted[:2] == made.found[:2]:
        found = difference.compared(made.wanted, made.found)
        parts[DIFFERENCE] = difference.drawn(made.wanted, found)
        rows = regions_in(found, views())
        more = len(found.regions) - len(rows)
    there = {ending: picture for ending, picture in parts.items() if picture}
    os.makedirs(os.path.dirname(path) or ".", exist_ok=True)
    for ending, picture in there.items():
        files.replace(path + ending, png.written(picture))
    return Evidence(text, made.why, path, list(there), rows, more)


def kept(case: Case, text: str, path: str) -> Evidence:
    """Keeps what a case that failed leaves. Without a picture there is the text alone."""
    kind = kinds.of(case)
    if not kind.has_picture(case):
        return without_pictures(text, path)
    return of_pictures(text, comparing.pictures(case), partial(kind.views, case), path)
