"""Where the values of views are in the texts of files: attributes of sources of layouts, and lines of scripts."""
import hashlib
import os
import re
from dataclasses import dataclass, field
from typing import Dict, Iterator, List, Tuple

from ..common.failures import Failure
from ..common import files
from ..layouts import attribute_places, source_reader
from ..layouts.attribute_places import Spot
from ..scripts import script
from ..scripts.script import Script
from ..views.placement import Placed

# lines that set something of the view that is their second word
SETTING = {
    word.encode() for word in (
        "size min margins padding gravity orient direction weight weightsum text bg ink flag rule scroll visible id answer "
        "intercept hook"
    ).split(" ")
}
# up to the value of such a line, and of a line `add`
BEFORE = re.compile(rb" *[^ ]+ +[^ ]+ ?")
BEFORE_ADDED = re.compile(rb" *add +[^ ]+ +")


@dataclass
class Spots:
    """The values of views by the views' numbers, and the digests of the files that they are in."""

    of_views: Dict[int, List[Spot]] = field(default_factory=dict)
    digests: Dict[str, str] = field(default_factory=dict)


def digest(body: bytes) -> str:
    """By what another text of a file is seen."""
    return hashlib.sha256(body).hexdigest()


def starts_of(body: bytes) -> List[int]:
    """Where each line of a file begins."""
    found = [0]
    for line in body.split(b"\n"):
        found.append(found[-1] + len(line) + 1)
    return found


class Lines:
    """Finds the values of views in the lines of a script."""

    def __init__(self, made: Script, views: List[Placed], added: Dict[int, int]):
        self.made, self.added = made, added
        ids = [it.view.id for it in views]
        self.numbers = {b"v%d" % it.view.number: it.view.number for it in views}
        self.ids = {it.view.id: it.view.number for it in views if it.view.id and ids.count(it.view.id) == 1}
        self.bodies: Dict[str, bytes] = {}
        self.starts: Dict[str, List[int]] = {}

    def view(self, word: bytes) -> int:
        """The number of the view of a word; 0 where it is not known."""
        if word.startswith(b"@"):
            try:
                return self.ids.get(int(word[1:], 16), 0)
            except ValueError:
                return 0
        return self.numbers.get(word, 0)

    def start(self, number: int) -> int:
        """Where the line of a number begins in its file; below 0 where the file has another line there."""
        place = self.made.place(number)
        if place.file not in self.bodies:
            self.bodies[place.file] = files.read(place.file) if os.path.isfile(place.file) else b""
            self.starts[place.file] = starts_of(self.bodies[place.file])
        starts = self.starts[place.file]
        at = starts[place.number - 1] if 0 < place.number <= len(starts) else len(self.bodies[place.file]) + 1
        return at if self.bodies[place.file][at : at + len(place.text)] == place.text else -1

    def found(self) -> Iterator[Tuple[int, Spot]]:
        """The values, each with the number of its view."""
        for number, line in enumerate(self.made.lines, 1):
            words = script.words_of(line)
            is_added = number in self.added
            if len(words) < 3 or not (is_added or words[0] in SETTING):
                continue
            view = self.added[number] if is_added else self.view(words[1])
            place = self.made.place(number)
            before = (BEFORE_ADDED if is_added else BEFORE).match(place.text)
            at = self.start(number) if view and before and place.file else -1
            if before and at >= 0:
                text = script.without_return(place.text)[before.end() :]
                start = at + before.end()
                yield view, Spot(words[0].decode(), text.decode("utf-8", "replace"), place.file, place.number, start,
                                 start + len(text))


def of_script(made: Script, views: List[Placed], added: Dict[int, int]) -> Spots:
    """The values of a script's own lines."""
    lines = Lines(made, views, added)
    spots = Spots()
    for view, spot in lines.found():
        spots.of_views.setdefault(view, []).append(spot)
    spots.digests = {path: digest(body) for path, body in lines.bodies.items()}
    return spots


def of_places(places: Dict[int, Tuple[str, int, int]]) -> Spots:
    """The values of elements, by file, line and column of each view's element."""
    spots = Spots()
    known: Dict[str, Dict[Tuple[int, int], List[Spot]]] = {}
    for view, (path, line, column) in places.items():
        if path not in known:
            try:
                body = files.read(path, source_reader.MAX_BYTES) if column else b""
            except Failure:
                body = b""
            known[path] = attribute_places.of_source(body, path) if body else {}
            spots.digests[path] = digest(body)
        spots.of_views[view] = known[path].get((line, column), [])
    return spots
