"""What is said of what the mouse points at."""
import functools
from typing import List, Optional, Tuple

from ..apps import android_names
from ..scripts import explanations, grammar, names, script
from ..scripts.explanations import Tables
from ..views import placement
from . import layouts, scripts, symbols
from .resources import Resources
from .texts import Json, Span, Text


@functools.lru_cache(1)
def tables() -> Tables:
    """The tables of the pages."""
    return explanations.read()


def hover(text: Text, said: str, span: Optional[Span] = None) -> Optional[Json]:
    """What is said, at a part of a line."""
    if not said:
        return None
    found: Json = {"contents": {"kind": "plaintext", "value": said.strip()}}
    return {**found, "range": text.range(span)} if span else found


def of_script(text: Text, found: scripts.Analysis, number: int, place: int) -> Optional[Json]:
    """What a word of a script means."""
    line = text.line(number)
    word = scripts.word_at(line, place)
    if not word or script.words_of(line.encode("utf-8", "replace")) == []:
        return None
    span = Span(number, word.start(), word.end())
    if not line[: word.start()].strip():
        return hover(text, "".join(it.text for it in tables().lines if word[0] in it.words), span)
    view = scripts.view_at(found, word[0], names.beside(text.folder))
    if view is not None:
        return hover(text, placement.title(view), span)
    return hover(text, said_of_word(text, line, word.start() + 1), span)


def said_of_word(text: Text, line: str, column: int) -> str:
    """What may be in the place of a word, by the form of its line."""
    expanded = names.beside(text.folder).expanded(line.encode("utf-8", "replace"))
    reading = grammar.read(expanded.text.decode("utf-8", "replace"))
    for word in reading.words:
        if word.slot and expanded.written_column(word.column) == column:
            return "%s: %s" % (word.slot.name, word.slot.kind.says)
    return ""


def of_layout(text: Text, found: layouts.Analysis, number: int, place: int) -> Optional[Json]:
    """What an attribute or a class means, and where the resource is that a value names."""
    there = layouts.at(text, found, number, place)
    if there is None:
        return None
    said = of_android(there.attribute or there.element)
    places = places_of(text, there.value or "")
    return hover(text, said + "".join("%s:%d\n" % it for it in places))


def of_android(whole: str) -> str:
    """What becomes of an attribute, as `android:text`, or of a class."""
    prefix, _, name = whole.rpartition(":")
    known = [it.text for it in tables().attributes if prefix == "android" and name in it.words]
    return "".join(known) or android_names.explained(name)


def places_of(text: Text, value: str) -> List[Tuple[str, int]]:
    """Where the resource of a name is in the project."""
    named = symbols.NAME.fullmatch(value)
    project = Resources.of(text.path)
    return project.places(named[2], named[3]) if named and project else []
