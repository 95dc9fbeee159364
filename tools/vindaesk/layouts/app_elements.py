"""The elements of an app's source of which `tools/app` made those of a layout file, by the app.json beside it."""
import functools
import json
import os
from dataclasses import dataclass
from typing import Any, Dict, Tuple

from ..common import messages

REPORT = "app.json"
VERSION = 1
# a report of 4096 layouts has less
MAX_REPORT = 1 << 28
BOUNDS, PICTURE = "bounds", "picture"


@dataclass(frozen=True)
class AppElement:
    """An element of an app's source: its name, its file in the app, its line and column there, 0 where the file has
    none; whether the view was added for it beside its own one; and what is not exact, as what it has an effect on
    (bounds, text, picture or touch), the attribute or nothing, and the reason."""

    name: str
    file: str
    line: int
    column: int
    is_added: bool
    notes: Tuple[Tuple[str, str, str], ...]

    def reasons(self, effect: str) -> Tuple[str, ...]:
        """Why something is not exact."""
        found = ("%s: %s" % (key, why) if key else why for what, key, why in self.notes if what == effect)
        return tuple(dict.fromkeys(found))

    @property
    def has_exact_bounds(self) -> bool:
        """Whether its bounds are those that Android gives."""
        return not self.reasons(BOUNDS)

    @property
    def has_exact_picture(self) -> bool:
        """Whether what is shown of it is what Android shows."""
        return not self.reasons(PICTURE)

    @property
    def place(self) -> str:
        """File, line and column, as compilers write them."""
        return ":".join([self.file, *(str(it) for it in (self.line, self.column) if it)])

    def __str__(self) -> str:
        """The element, where it is, and why its bounds are not exact."""
        found = self.reasons(BOUNDS)
        return messages.printable("%s %s%s" % (self.name, self.place, ": " + "; ".join(found) if found else ""))


Elements = Dict[int, AppElement]


def of_layout(folder: str, name: str) -> Elements:
    """The source of the elements of a layout file in a folder, by their places in that, from 1; nothing where no report
    is there, or has nothing of it."""
    path = os.path.join(folder, REPORT)
    try:
        found = os.stat(path)
    except OSError:
        return {}
    return layouts_of(path, found.st_size, found.st_mtime_ns).get(name, {})


@functools.lru_cache(maxsize=8)
def layouts_of(path: str, size: int, time: int) -> Dict[str, Elements]:
    """The elements of all layouts of a report, by the names of their files; nothing of another file."""
    try:
        if size > MAX_REPORT:
            raise ValueError("it has more than %d bytes" % MAX_REPORT)
        with open(path, "rb") as file:
            whole = json.loads(file.read().decode())
        if not isinstance(whole, dict) or not {"layouts", "version"} & set(whole):
            return {}
        if "layouts" not in whole and isinstance(whole["version"], int):
            raise ValueError("it has no layouts")
        if "layouts" not in whole:
            return {}
        if whole["version"] != VERSION:
            raise ValueError("it is of the version %s, and not %d" % (whole["version"], VERSION))
        return {it["name"] + ".xml": elements_of(it) for it in whole["layouts"]}
    except (OSError, ValueError, KeyError, TypeError, AttributeError, RecursionError) as error:
        why = error.strerror if isinstance(error, OSError) else str(error)
        messages.say("no view is marked, since %s is no report that can be read: %s" % (messages.printable(path), why))
        return {}


def elements_of(layout: Any) -> Elements:
    """The elements of a layout."""
    found: Elements = {}
    for row in layout["elements"]:
        notes = tuple((it["effect"], it["attribute"] or "", it["reason"]) for it in row["notes"])
        place = row["file"], row["line"], row["column"] or 0
        for number in (row["view"], *row["added"]):
            if number:
                found[number] = AppElement(row["element"], *place, number != row["view"], notes)
    return found
