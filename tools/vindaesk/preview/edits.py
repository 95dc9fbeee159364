"""Writes a value back into the text of its file, and changes nothing else in it."""
import os
import shutil
import tempfile
import threading
from dataclasses import dataclass, replace
from typing import Dict, Tuple

from ..common import files
from ..common.failures import NOT_RUN, WRONG, Failure
from ..layouts import attributes, values
from ..layouts.attribute_places import Spot
from ..layouts.documents import ANDROID
from ..layouts.values import Unfit
from ..scripts import grammar
from ..scripts.names import Ids
from ..scripts.resource_names import Names
from . import spots

PREFIX = "android:"
# attributes that are a text, which may be empty, beside those whose form is known
TEXTS = frozenset(("hint", "contentDescription", "tooltipText", "tag"))
# a value that begins so names something, which only the app knows
NAMING = ("@", "?")
ESCAPES = {"&": "&amp;", "<": "&lt;", "\n": "&#10;", "\t": "&#9;", "\r": "&#13;"}
QUOTES = {'"': "&quot;", "'": "&apos;"}


def check_attribute(spot: Spot, text: str) -> None:
    """A value that an attribute cannot have is a failure."""
    name = spot.name[len(PREFIX) :]
    may_be_empty = spot.name.startswith(PREFIX) and (name in attributes.KNOWN or name in TEXTS)
    if not text.strip() and not may_be_empty:
        raise Failure("%s cannot be empty; take it out of %s in an editor" % (spot.name, spot.file), WRONG)
    if not spot.name.startswith(PREFIX) or text.strip().startswith(NAMING) or name not in attributes.KNOWN:
        return
    try:
        values.read(text, attributes.form_of(ANDROID, name), Names())
    except Unfit as unfit:
        raise Failure("%s: %s" % (spot.name, unfit), WRONG)


def check_line(line: bytes, ids: Ids) -> None:
    """A line that has no form is a failure."""
    if b"\n" in line or b"\r" in line:
        raise Failure("a line of a script has no line feed; \\n in a text means one", WRONG)
    found = ids.expanded(line)
    if found.unknown:
        raise Failure(found.unknown[0].why, WRONG)
    reading = grammar.read(found.text.decode())
    misfit = reading.misfit or grammar.out_of_bounds(reading)
    if misfit:
        raise Failure(misfit.why, WRONG)


def escaped(spot: Spot, text: str) -> bytes:
    """A text as the source of an attribute has it."""
    return "".join(QUOTES[it] if it == spot.quote else ESCAPES.get(it, it) for it in text).encode()


def edited(body: bytes, spot: Spot, text: str, ids: Ids) -> bytes:
    """A file with another text in the place of a value."""
    try:
        text.encode()
    except UnicodeEncodeError:
        raise Failure("the text has half of a character", WRONG)
    if spot.quote:
        check_attribute(spot, text)
        return body[: spot.start] + escaped(spot, text) + body[spot.end :]
    begin = body.rfind(b"\n", 0, spot.start) + 1
    check_line(body[begin : spot.start] + text.encode(), ids)
    return body[: spot.start] + text.encode() + body[spot.end :]


@dataclass(frozen=True)
class Change:
    """What a write changed in a file: where the value was, its text and its number of bytes since then, and the digest
    of the file after it."""

    start: int
    end: int
    text: str
    length: int
    after: str

    def moved(self, spot: Spot) -> Spot:
        """Where a value of the file is after it."""
        if spot.start == self.start:
            return replace(spot, text=self.text, end=self.start + self.length)
        shift = self.length - (self.end - self.start) if spot.start >= self.end else 0
        return replace(spot, start=spot.start + shift, end=spot.end + shift)


class Writer:
    """Writes values, one after another. What it wrote itself is no change by others: values that were found before then
    are found again."""

    def __init__(self) -> None:
        # by the file and its digest before
        self.changes: Dict[Tuple[str, str], Change] = {}
        self.writing = threading.Lock()

    def caught_up(self, spot: Spot, known: str, now: str) -> Tuple[Spot, str]:
        """Where a value is after what was written since a file had a digest, and the digest that it has then."""
        path = os.path.realpath(spot.file)
        while known != now and (path, known) in self.changes:
            change = self.changes[path, known]
            spot, known = change.moved(spot), change.after
        return spot, known

    def write(self, spot: Spot, old: str, text: str, known: str, ids: Ids) -> None:
        """Writes a value that had another text. The file has to be the one of a digest still, except what was written
        here."""
        with self.writing:
            body = files.read(spot.file)
            now = spots.digest(body)
            spot, known = self.caught_up(spot, known, now)
            if known != now:
                raise Failure("%s changed meanwhile; nothing is written" % spot.file, NOT_RUN)
            if spot.text != old:
                raise Failure("the view has no such value any more; nothing is written", WRONG)
            made = edited(body, spot, text, ids)
            put(spot.file, made)
            after, path = spots.digest(made), os.path.realpath(spot.file)
            if after != now:
                length = len(made) - len(body) + spot.end - spot.start
                self.changes[path, now] = Change(spot.start, spot.end, text, length, after)
            # what the file has now comes after all others
            self.changes.pop((path, after), None)


def put(path: str, body: bytes) -> None:
    """Puts a text in the place of a file's, whose rights stay; it is never half written."""
    path = os.path.realpath(path)
    place = None
    try:
        handle, place = tempfile.mkstemp(prefix=".", dir=os.path.dirname(path))
        with open(handle, "wb") as file:
            file.write(body)
        shutil.copymode(path, place)
        os.replace(place, path)
        place = None
    except OSError as error:
        raise Failure("%s cannot be written: %s" % (path, error.strerror), NOT_RUN)
    finally:
        if place is not None:
            os.unlink(place)
