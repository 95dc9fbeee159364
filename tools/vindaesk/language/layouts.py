"""Sources of layouts: what does not fit, what may be there, and where resources are."""
import os
import re
from dataclasses import dataclass, field
from typing import Dict, Iterator, List, NamedTuple, Optional, Tuple
from xml.parsers import expat

from ..common.failures import Failure
from ..layouts import attribute_places, attributes, source_reader, values
from ..layouts.attribute_places import Spot
from ..layouts.documents import ANDROID
from ..scripts import names
from ..scripts.grammar import CLASSES
from ..scripts.resource_names import Names
from . import symbols
from .resources import Resources
from .symbols import CLASS, PROPERTY, REFERENCE, VALUE, Offer
from .texts import Json, Span, Text, location, units

ERROR, WARNING = 1, 2
# the place before a message, and the attribute that it is about
SAID = re.compile(r"(?:.*?):([0-9]+):([0-9]+): (?:([\w.-]+(?::[\w.-]+)?): )?(.*)", re.DOTALL)
NOTED = re.compile(r"(android:[\w.-]+) is passed over")
# the tag that is open at the end of a text: its name, its attributes, and the value that is begun
OPEN = re.compile(r"<(/?)([\w.:-]*)((?:\s+[\w.:-]+\s*=\s*(?:\"[^\"<]*\"|'[^'<]*'))*)(\s*)([\w.:-]*)(?:\s*=\s*([\"'])([^\"'<]*))?\Z")
LAST_PART = re.compile(r"[^|]*\Z")
BOOLEANS = ("true", "false")


class AnyNames(Names):
    """Gives each name of a resource an id: what a project's libraries have is not known."""

    def id_of(self, package: str, kind: str, name: str) -> int:
        return self.found(package, kind, name) or 0x7FFF0000

    def made(self, name: str) -> int:
        return 0x7FFF0000


class Element(NamedTuple):
    """An element of a source: its line and column, both from 1, its depth, its name, and its values."""

    line: int
    column: int
    depth: int
    name: str
    spots: List[Spot]


@dataclass
class Analysis:
    """What there is to say of a source: messages, and its elements."""

    said: List[Json] = field(default_factory=list)
    elements: List[Element] = field(default_factory=list)


def names_of(text: Text) -> Names:
    """The names that the source may use."""
    if Resources.of(text.path):
        return AnyNames()
    listed = names.beside(text.folder).listed
    return Names(listed.written(), names.LIST)


def analysed(text: Text) -> Analysis:
    """A source as it is in the editor."""
    found = Analysis()
    body = text.whole.encode("utf-8", "replace")
    found.elements = elements_of(body)
    notes: List[str] = []
    try:
        _, wrong = source_reader.read(body, "-", names_of(text), notes)
    except Failure as failure:
        wrong = [str(failure)]
    found.said = [diagnostic(text, found, it, ERROR) for it in wrong]
    found.said += [diagnostic(text, found, it, WARNING) for it in notes]
    return found


def elements_of(body: bytes) -> List[Element]:
    """The elements of a source, up to where it is no XML."""
    spots = attribute_places.of_begun_source(body, "-")
    found: List[Element] = []
    depth = [0]
    parser = expat.ParserCreate()

    def start(name: str, _: object) -> None:
        place = (parser.CurrentLineNumber, parser.CurrentColumnNumber + 1)
        found.append(Element(*place, depth[0], name, spots.get(place, [])))
        depth[0] += 1

    def end(_: str) -> None:
        depth[0] -= 1

    parser.StartElementHandler, parser.EndElementHandler = start, end
    try:
        parser.Parse(body, True)
    except (expat.ExpatError, LookupError, ValueError):
        pass
    return found


def diagnostic(text: Text, found: Analysis, sentence: str, severity: int) -> Json:
    """A message at the value that it is about, at the attribute's element, or at a place."""
    said = SAID.fullmatch(sentence)
    line, column, name, why = (int(said[1]), int(said[2]), said[3], said[4]) if said else (1, 1, None, sentence)
    noted = NOTED.match(why)
    name = noted[1] if noted else name
    element = next((it for it in found.elements if (it.line, it.column) == (line, column)), None)
    spot = next((it for it in element.spots if it.name == name), None) if element else None
    message = "%s: %s" % (name, why) if name and not noted else why
    place = range_of_spot(text, spot) if spot else text.range(word_from(text, line - 1, column - 1))
    return {"range": place, "severity": severity, "source": "vindaesk", "code": name or "xml", "message": message}


def word_from(text: Text, number: int, start: int) -> Span:
    """The part of a line from a place on that is one word."""
    line = text.line(number)
    found = re.compile(r"<?[\w.:/-]*").match(line, start)
    return Span(number, min(start, len(line)), found.end() if found else len(line))


def range_of_spot(text: Text, spot: Spot) -> Json:
    """The value of an attribute as a range."""
    body = text.whole.encode("utf-8", "replace")
    return {"start": position(body, spot.start), "end": position(body, spot.end)}


def position(body: bytes, at: int) -> Json:
    """A place of a text, by its byte."""
    before = body[:at].decode("utf-8", "replace")
    return {"line": before.count("\n"), "character": units(before[before.rfind("\n") + 1 :])}


# what may be at a place


def before_of(text: Text, number: int, place: int) -> str:
    """All of a text before a place."""
    return "\n".join([*text.lines[:number], text.line(number)[:place]])


def offered(text: Text, number: int, place: int) -> Tuple[str, List[Offer]]:
    """The beginning of what is at a place, and what may be there."""
    found = OPEN.search(before_of(text, number, place))
    if not found or (found[1] and not found[6]):
        return "", []
    element, blank, attribute, quote, value = found[2], found[4] or found[3], found[5], found[6], found[7]
    if quote:
        last = LAST_PART.search(value)
        begun = last[0].lstrip() if last and not value.startswith(("@", "?")) else value
        kind = re.match(r"@(\w+)/", begun)
        offers = values_of(text, attribute)
        return begun, [it for it in offers if it.label.startswith(kind[0])] if kind else offers
    if not blank:
        return element, [Offer(it, CLASS) for it in classes_of(text)]
    given = set(re.findall(r"([\w.:-]+)\s*=", found[3]))
    return attribute, [Offer(it, PROPERTY, detail) for it, detail in attributes_of() if it not in given]


def classes_of(text: Text) -> List[str]:
    """The classes of elements: those of the program, and of an app's layout all that can be laid out."""
    if Resources.of(text.path) is None:
        return CLASSES.split(" ")
    # loaded where there is an app, since that takes as long as a small script
    from ..apps import rules
    from ..apps.widget_table import Table

    return list(Table(list(rules.RULES), []).rows)


def attributes_of() -> List[Tuple[str, str]]:
    """The attributes that may be there, with what they take."""
    return [("android:" + name, values.said(it.form)) for name, it in attributes.KNOWN.items()]


def values_of(text: Text, attribute: str) -> List[Offer]:
    """What the value of an attribute may be: its words, and resources by their names."""
    name = attribute.rpartition(":")[2]
    form = attributes.form_of(ANDROID if attribute.startswith("android:") else "", name)
    words = [*form.words, *form.flags, *(BOOLEANS if "boolean" in form.forms else ())]
    there = Resources.of(text.path)
    known = names.beside(text.folder)
    listed = there.names() if there else [name for it in known.listed.names for name in [known.name(it)] if name]
    if name == "id":
        return [Offer("@+id/", REFERENCE)]
    if attribute == "style":
        listed = [it for it in listed if it.startswith("@style/")]
    return [*(Offer(it, VALUE) for it in words), *(Offer(it, REFERENCE) for it in listed)]


def completions(text: Text, number: int, place: int) -> List[Json]:
    """What may be at a place."""
    begun, listed = offered(text, number, place)
    span = text.range(Span(number, max(place - len(begun), 0), place))
    return [{"label": it.label, "kind": it.kind, "detail": it.detail, "textEdit": {"range": span, "newText": it.label}}
            for it in dict.fromkeys(listed)]


# what is at a place


class At(NamedTuple):
    """What is at a place: the element there, the name of an attribute, and its value if the place is in that."""

    element: str
    attribute: str
    value: Optional[str]


def at(text: Text, found: Analysis, number: int, place: int) -> Optional[At]:
    """The attribute, or the element, at a place."""
    byte = len(before_of(text, number, place).encode("utf-8", "replace"))
    body = text.whole.encode("utf-8", "replace")
    for it in found.elements:
        for spot in it.spots:
            # the name, the equals sign and the quotation mark come before a value
            start = body.rfind(spot.name.encode(), 0, spot.start)
            if start <= byte <= spot.end:
                return At(it.name, spot.name, spot.text if byte >= spot.start else None)
        if it.line == number + 1 and it.column <= place + 1 <= it.column + 1 + len(it.name):
            return At(it.name, "", None)
    return None


def definitions(text: Text, found: Analysis, number: int, place: int) -> Iterator[Json]:
    """Where the resource is that a value names: in the project, in this source, in resources.lines, in the list of
    ids."""
    there = at(text, found, number, place)
    named = symbols.NAME.fullmatch(there.value) if there and there.value else None
    if there is None or there.value is None or not there.value.startswith("@"):
        return
    project = Resources.of(text.path)
    if named and project:
        yield from (location(*it) for it in project.places(named[2], named[3]))
    if named and named[2] == "id":
        for it in found.elements:
            for spot in it.spots:
                if spot.name.endswith(":id") and spot.text == "@+id/" + named[3]:
                    yield {"uri": text.uri, "range": range_of_spot(text, spot)}
    if not project:
        known = names.beside(text.folder)
        yield from symbols.named_in_list(known.path, there.value)
        yield from lines_of(text.folder, known, there.value)


def lines_of(folder: str, known: names.Ids, word: str) -> Iterator[Json]:
    """The lines `res` beside a source that give a resource its value."""
    wanted = known.expanded(b"id v1 " + word.encode("utf-8", "replace")).text.split(b" ")[-1].lstrip(b"@").lstrip(b"0").lower()
    for name in ("resources.lines", "resources-night.lines"):
        path = os.path.join(folder, name)
        if os.path.isfile(path):
            with open(path, "rb") as file:
                for number, line in enumerate(file, 1):
                    words = known.expanded(line).text.split()
                    if words[:1] == [b"res"] and words[1].lstrip(b"@").lstrip(b"0").lower() == wanted:
                        yield location(path, number)


def outline(text: Text, found: Analysis) -> List[Json]:
    """The elements as a tree."""
    rows: Dict[int, List[Json]] = {}
    for it in reversed(found.elements):
        below = rows.pop(it.depth + 1, [])[::-1]
        given = {spot.name.rpartition(":")[2]: spot.text for spot in it.spots}
        detail = " ".join(filter(None, [given.get("id", "").rpartition("/")[2], given.get("text")]))
        span = text.range(Span(it.line - 1, it.column - 1, it.column + len(it.name)))
        rows.setdefault(it.depth, []).append(symbols.symbol(it.name, detail, span, below))
    return rows.get(0, [])[::-1]
