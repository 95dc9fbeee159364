"""Scripts: which lines are refused, what words mean, what may follow, and where things are."""
import os
import re
from dataclasses import dataclass, field
from typing import Dict, Iterator, List, Optional, Tuple

from ..common.failures import Failure
from ..lint import refused_lines
from ..scripts import grammar, names, replies, script
from ..scripts.grammar import Slot
from ..scripts.replies import Answer, Part
from ..scripts.script import Includer, Script
from ..views import placement, view_tree
from ..views.view_tree import View
from . import symbols, texts
from .symbols import FILE, KEYWORD, REFERENCE, VALUE, VARIABLE, Offer
from .texts import Json, Kind, Span, Text

ERROR = 1
# what is said of a line in a file that others include, which has no window and no root of its own
OF_LINES = ("30 ", "31 ", "32 ")
CULPRIT = re.compile(r"\\.?|[^ |]+\|?(?![^ ]*\|)|[^ |]+")
PLACE = re.compile(r"(.*):([0-9]+): include: ", re.DOTALL)
WORD = re.compile(r"[^ ]+")
OF_WINDOW = re.compile(r" *in +[^ ]+ +")
OF_IDS = re.compile(r"@(?:[\w.]+:)?id/")


@dataclass
class Analysis:
    """What the program says of a script: the refused lines; its views, by their numbers, with the line that made each,
    from 0; and why it cannot be carried out at all."""

    findings: List[refused_lines.Finding] = field(default_factory=list)
    tree: Optional[view_tree.Tree] = None
    lines_of: Dict[int, Tuple[str, int]] = field(default_factory=dict)
    why: str = ""


def analysed(text: Text) -> Analysis:
    """A script as it is in the editor, carried out. Where a file that it includes cannot be read, it is without lines
    `include`."""
    found = Analysis()
    whole = text.whole.encode("utf-8", "surrogateescape")
    try:
        lines = Includer().lines(text.path or "-", whole, [])
    except Failure as failure:
        found.why = str(failure)
        kept = [b"" if script.included(it) is not None else it for it in whole.split(b"\n")]
        lines = Includer().lines(text.path or "-", b"\n".join(kept), [])
    try:
        carry_out(found, script.named(lines, text.path or "-", is_strict=False), text.kind)
    except (Failure, OSError) as failure:
        found.why = str(failure)
    return found


def carry_out(found: Analysis, made: Script, kind: Kind) -> None:
    """Has the program carry a script out."""
    found.tree = view_tree.Tree(made.folder, made.ids)
    checker = refused_lines.Checker(made)
    form = "stack" if kind is Kind.STACK else "run"
    for part, answer in replies.answers(view_tree.parts_of(made.lines), made.folder, form):
        found.findings += checker.part(part, answer)
        if form == "run":
            follow(found, made, part, answer)


def follow(found: Analysis, made: Script, part: Part, answer: Answer) -> None:
    """Notes the views that a part made, and its line."""
    if found.tree is None:
        return
    before = set(found.tree.views)
    found.tree.follow(part, answer)
    place = made.place(part.first + len(part.lines) - 1)
    for number in set(found.tree.views) - before:
        found.lines_of[number] = (place.file, place.number - 1)


def culprit(line: str, column: int) -> Span:
    """The part of a line from a column on, from 1, that a message is about; its line is still to be put in."""
    start = min(column - 1, len(line))
    found = CULPRIT.match(line, start)
    return Span(0, start, found.end() if found else start)


def diagnostics(text: Text, found: Analysis) -> Iterator[Json]:
    """The messages of check."""
    if found.why:
        place = PLACE.match(found.why)
        number = int(place[2]) - 1 if place and place[1] == text.path else 0
        yield diagnostic(text, Span(number, 0, len(text.line(number))), "failure", found.why)
    for it in found.findings:
        if text.kind is Kind.LINES and not it.title.startswith(OF_LINES):
            continue
        if it.file == (text.path or "-"):
            span = culprit(text.line(it.line - 1), it.column)._replace(line=it.line - 1)
            yield diagnostic(text, span, it.title, it.why)
        else:
            number = including(text, it.file)
            where = "%s:%d:%d: " % (os.path.relpath(it.file, text.folder), it.line, it.column)
            yield diagnostic(text, Span(number, 0, len(text.line(number))), it.title, "%s%s: %s" % (where, it.title, it.why))


def including(text: Text, path: str) -> int:
    """The line, from 0, that includes a file, or the first one, where another file includes it."""
    for number, line in enumerate(text.lines):
        name = script.included(line.encode("utf-8", "surrogateescape"))
        if name and os.path.realpath(os.path.join(text.folder, name)) == os.path.realpath(path):
            return number
    return next((number for number, line in enumerate(text.lines) if line.split()[:1] == ["include"]), 0)


def diagnostic(text: Text, span: Span, code: str, why: str) -> Json:
    """A message at a part of a line."""
    return {"range": text.range(span), "severity": ERROR, "source": "vindaesk", "code": code, "message": why}


# words


def word_at(line: str, place: int) -> Optional["re.Match[str]"]:
    """The word of a line that has a place in it, or ends there."""
    return next((it for it in WORD.finditer(line) if it.start() <= place <= it.end()), None)


def slots_at(before: str) -> List[Slot]:
    """What may be in the place of the next word of a line, of which this is what comes before."""
    words = list(grammar.words_from(before))
    found = []
    for form in grammar.forms_of(words[0].text) if words else ():
        trial = grammar.tried(before, words, form)
        if trial.word is None and trial.slot is not None and not trial.slot.kind.is_rest:
            found.append(trial.slot)
    return found


def edit_of(before: str) -> Optional[str]:
    """What comes before in the edit of a line `hook`; None where it is no such line, or not yet at an edit."""
    words = before.split()
    if words[:1] != ["hook"] or len(words) < 2:
        return None
    rest = words[2:]
    while ";" in rest:
        rest = rest[rest.index(";") + 1 :]
    return " ".join([*rest, ""])


def listed_at(before: str, text: Text, found: Analysis) -> List[Offer]:
    """What may be the next word of a line, of which this is what comes before."""
    before = OF_WINDOW.sub("", before)
    edit = edit_of(before)
    if not before.strip() or edit == "":
        words = grammar.FIRST_WORDS if edit is None else grammar.EDIT_WORDS
        return [Offer(it, KEYWORD) for it in (*words, *(("include",) if edit is None else ()))]
    if before.split()[0] == "include":
        return files_in(text.folder)
    return [it for slot in slots_at(edit or before) for it in choices(slot, text, found)]


def completions(text: Text, found: Analysis, number: int, place: int) -> List[Json]:
    """What may be at a place of a line."""
    line = text.line(number)
    word = word_at(line, place)
    start = word.start() if word else place
    span = text.range(Span(number, start, word.end() if word else place))
    return [{"label": it.label, "kind": it.kind, "detail": it.detail, "textEdit": {"range": span, "newText": it.label}}
            for it in dict.fromkeys(listed_at(line[:start], text, found))]


def choices(slot: Slot, text: Text, found: Analysis) -> List[Offer]:
    """What may be in the place of a word of a form."""
    kind = slot.kind
    listed = [Offer(it, KEYWORD if it == slot.name else VALUE) for it in kind.choices]
    if kind is grammar.view and found.tree:
        return listed + views_of(found.tree)
    if kind is grammar.file_name:
        return listed + files_in(text.folder)
    if kind in (grammar.an_id, grammar.an_id_of_a_resource):
        known = names.beside(text.folder)
        named = [(known.name(it), it) for it in known.listed.names]
        return listed + [Offer(name, REFERENCE, "@%08x" % it) for name, it in named
                         if name and (kind is not grammar.an_id or OF_IDS.match(name))]
    return listed


def views_of(tree: view_tree.Tree) -> List[Offer]:
    """The views that lines may name, by their numbers and ids."""
    found = []
    for it in tree.views.values():
        title = placement.title(it)
        found.append(Offer("v%d" % it.number, VARIABLE, title))
        name = placement.id_of(it)
        if name:
            found.append(Offer(name, REFERENCE, title))
    return found


def files_in(folder: str) -> List[Offer]:
    """The files of a folder that lines may name."""
    try:
        listed = sorted(os.listdir(folder))
    except OSError:
        return []
    return [Offer(it, FILE) for it in listed if grammar.matches(grammar.NAME, it) and os.path.isfile(os.path.join(folder, it))]


# where things are


def view_at(found: Analysis, word: str, known: names.Ids) -> Optional[View]:
    """The view that a word names."""
    if found.tree is None:
        return None
    plain = known.expanded(b"id v1 " + word.encode("utf-8", "replace")).text.split(b" ")[-1].decode()
    if not grammar.matches(grammar.VIEW, plain):
        return None
    try:
        return found.tree.view(plain.encode())
    except (KeyError, StopIteration):
        return None


def definitions(text: Text, found: Analysis, number: int, place: int) -> Iterator[Json]:
    """Where what a word names is: the line that made a view, a file, or a name in the list of ids."""
    line = text.line(number)
    word = word_at(line, place)
    if not word:
        return
    first = line.split()[0]
    if first in ("include", "inflate") and word[0] != first and word[0] != "into":
        path = os.path.join(text.folder, word[0])
        if os.path.isfile(path):
            yield texts.location(path, 1)
    known = names.beside(text.folder)
    view = view_at(found, word[0], known)
    if view is not None and view.number in found.lines_of:
        path, at = found.lines_of[view.number]
        yield texts.location(path, at + 1) if path != "-" else {"uri": text.uri, "range": texts.range_of(at, 0, 0)}
    yield from symbols.named_in_list(known.path, word[0])


def outline(text: Text, found: Analysis) -> List[Json]:
    """The views as a tree, each at the line that made it."""
    if found.tree is None or found.tree.root is None:
        return []
    return [symbol(text, found, found.tree.root)]


def symbol(text: Text, found: Analysis, view: View) -> Json:
    """A view with those in it."""
    path, number = found.lines_of.get(view.number, ("", 0))
    number = number if path == (text.path or "-") else including(text, path)
    span = text.range(Span(number, 0, len(text.line(number))))
    below = [symbol(text, found, it) for it in view.children.values()]
    detail = " ".join(filter(None, [placement.id_of(view), view.text]))
    return symbols.symbol("v%d %s" % (view.number, view.kind), detail, span, below)
