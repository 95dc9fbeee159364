"""What scripts and layouts have in common: offers, symbols, and names in the list of ids."""
import os
import re
from typing import Iterator, List, NamedTuple

from ..common import files
from ..scripts.resource_names import LINE
from . import texts
from .texts import Json

# kinds of offers and of symbols, by the numbers of the protocol
VARIABLE, PROPERTY, VALUE, KEYWORD, CLASS, FILE, REFERENCE = 6, 10, 12, 14, 7, 17, 18
OBJECT = 19
NAME = re.compile(r"@\+?(?:([\w.]+):)?(\w+)/([\w.$-]+)", re.ASCII)


class Offer(NamedTuple):
    """What may be put in: its text, its kind, and more about it."""

    label: str
    kind: int
    detail: str = ""


def symbol(name: str, detail: str, span: Json, below: List[Json]) -> Json:
    """A part of an outline. Its range has those of the parts below it, as the protocol requires."""
    end = max([span["end"], *(it["range"]["end"] for it in below)], key=lambda it: (it["line"], it["character"]))
    return {"name": name, "detail": detail.replace("\n", " "), "kind": OBJECT, "range": {"start": span["start"], "end": end},
            "selectionRange": span, "children": below}


def named_in_list(path: str, word: str) -> Iterator[Json]:
    """The line of the list of ids that has a name, as `@id/send`, or an id, as `@7f080002`."""
    named = NAME.fullmatch(word)
    if not word.startswith("@") or not os.path.isfile(path):
        return
    for number, line in enumerate(files.read(path).split(b"\n"), 1):
        found = re.fullmatch(LINE, line.strip().decode("utf-8", "replace"), re.ASCII)
        if not found:
            continue
        is_name = bool(named) and named is not None and found[2] == named[2] and found[3] == named[3] and (
            named[1] in (None, found[1]))
        is_number = not named and found[4].lower().lstrip("0") == word[1:].lower().lstrip("0")
        if is_name or is_number:
            yield texts.location(path, number)
