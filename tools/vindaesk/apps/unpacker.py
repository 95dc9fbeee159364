"""The layouts of an app, under names that lines can say, and the values of the resources that they name."""
import os
import re
from typing import Container, Dict, Iterable, Iterator, List, NamedTuple, Optional, Tuple

from ..common import progress
from ..common.failures import Failure
from ..common.messages import shown, tool
from ..layouts import attributes, dimensions, documents
from ..layouts.documents import REFERENCE, Start
from ..program import process
from ..scripts.script import MAX_LINE
from .archives import Archive, failure

LAYOUT = re.compile(r"res/layout(-[^/]+)?/([^/]+)\.xml")
TABLE = "resources.arsc"
SCRIPT = "resources.lines"
# after the refusal of a string: what most likely is the reason
EMOJI = "; aapt2 writes an emoji in a form that is no UTF-8, and %s reads it"
UNSAYABLE = re.compile(r"[^A-Za-z0-9_.-]")
MAX_NAME = 64
# the longest files that the program reads, and how much of an app is taken
MAX_LAYOUT = 1 << 20
MAX_TABLE = 1 << 24
MAX_ALL = 1 << 28
MAX_LAYOUTS = 10000
# how many ids one call looks up, and how many resources may have a value
TOGETHER = 64
MAX_VALUES = 4096
# attributes that name views, or that are passed over
WITHOUT_VALUES = (attributes.REFERENCE, attributes.ANY)
ANSWER = re.compile(r"([0-9a-f]{8}) (color|dimen|text|other|complex|none)(?: (.*))?", re.DOTALL)


class Unpacked(NamedTuple):
    """A layout: its name in the app, the one that lines say, and its bytes."""

    path: str
    name: str
    body: bytes


def said(stem: str, of: str, taken: Iterable[str]) -> str:
    """A name that lines can say, and that no other file has."""
    plain = UNSAYABLE.sub("_", stem + of).lstrip(".") or "_"
    name, count = plain[: MAX_NAME - 4] + ".xml", 1
    while name in taken:
        count += 1
        ending = "-%d.xml" % count
        name = plain[: MAX_NAME - len(ending)] + ending
    return name


def layouts_of(archive: Archive) -> List[Unpacked]:
    """The layouts of an app: first those of the default configuration, whose names are most likely theirs."""
    found: Dict[str, Unpacked] = {}
    named = [it for it in map(LAYOUT.fullmatch, archive.names()) if it]
    size = 0
    if len(named) > MAX_LAYOUTS:
        raise failure(archive.path, "it has more than %d layouts" % MAX_LAYOUTS)
    # a name that lines can say is its own before another one becomes it
    for it in sorted(named, key=lambda it: (bool(it[1]), bool(UNSAYABLE.search(it[2])), it[0])):
        path, (of, stem) = it[0], it.groups()
        name = said(stem, of or "", found)
        found[name] = Unpacked(path, name, archive.read(path, MAX_LAYOUT))
        size += len(found[name].body)
        if size > MAX_ALL:
            raise failure(archive.path, "its layouts have more than %d bytes" % MAX_ALL)
    if not found:
        raise failure(archive.path, "it has no layout, as res/layout/NAME.xml")
    return list(found.values())


def table_of(archive: Archive) -> Tuple[Optional[bytes], str]:
    """The compiled table of resources; or nothing, and why."""
    if TABLE not in archive.infos:
        return None, "the app has no %s" % TABLE
    if archive.infos[TABLE].file_size > MAX_TABLE:
        return None, "%s has more than %d bytes" % (TABLE, MAX_TABLE)
    return archive.read(TABLE, MAX_TABLE), ""


def put(folder: str, files: Dict[str, bytes]) -> None:
    """Writes files into a new folder."""
    for name, body in files.items():
        with open(os.path.join(folder, name), "wb") as file:
            file.write(body)


def named(names: List[str], folder: str, refused: Dict[str, str]) -> List[int]:
    """The resources that known attributes of a folder's layouts name, in order, but ids of views. The layouts that are
    refused are noted."""
    found: Dict[int, None] = {}
    for name in progress.counted(names, len(names), "layouts"):
        lines, why = documents.printed(name, folder)
        if lines is None:
            refused[name] = why
        for node in documents.nodes_in(lines or []):
            for it in node.attributes if isinstance(node, Start) else ():
                form = attributes.form_of(it.namespace, it.name)
                if it.value.kind == REFERENCE and it.value.word and form not in WITHOUT_VALUES:
                    found[it.value.word] = None
    return list(found)


def answers(ids: List[int], folder: str) -> Tuple[List[str], str]:
    """What `lookup` writes of resources; or why it does not."""
    found: List[str] = []
    for at in range(0, len(ids), TOGETHER):
        words = ["%08x" % it for it in ids[at : at + TOGETHER]]
        written, status = process.ran(["lookup", TABLE, *words], b"", folder)
        if status == 2:
            return [], "this program has no lookup"
        if status == 1:
            why = shown(written.rstrip(b"\n")[len(b"file: ") :])
            hint = EMOJI % tool("app") if why.startswith("refused 4 ") else ""
            return [], "%s is %s%s" % (TABLE, why, hint)
        if status:
            raise process.failed(status)
        found += written.decode().split("\n")[:-1]
    return found, ""


def dimension(word: int) -> Optional[str]:
    """The number and the unit of a dimension as a line says them, where the number is whole."""
    number, unit = dimensions.whole(word), dimensions.unit(word)
    return None if number is None or unit is None else "%d %s" % (number, unit)


def text_of(text: str) -> bytes:
    """A text as a line says it."""
    plain = documents.unescaped(text).replace("\\", "\\\\").replace("\n", "\\n").encode()
    # a carriage return at the end of a line is dropped
    return plain + b"\r" if plain.endswith(b"\r") else plain


def line_of(answer: str, paths: Container[str]) -> Tuple[bytes, bool]:
    """The line that gives a resource its value, by what `lookup` says of it; or a comment, since no line can say it. A
    text that is the path of a file of the app means that file."""
    found = ANSWER.fullmatch(answer)
    if not found:
        raise Failure("the program wrote an answer of no known form: %s" % shown(answer.encode()))
    number, kind, rest = found.groups()
    line, why = b"", "is of a kind that no line can say"
    if kind == "color":
        line = ("res @%s color %s" % (number, rest)).encode()
    elif kind == "dimen":
        size = dimension(int(rest, 16))
        line = ("res @%s dimen %s" % (number, size)).encode() if size else b""
        why = "is no whole number of a unit"
    elif kind == "text" and rest != "none" and documents.unescaped(rest[1:-1]) in paths:
        why = "is the file %s" % shown(rest[1:-1].encode())
    elif kind == "text" and rest != "none":
        line = b"res @%s text %s" % (number.encode(), text_of(rest[1:-1]))
        why = "is too long for a line"
    elif kind == "none":
        why = "is not in the table of this app"
    is_said = 0 < len(line) <= MAX_LINE
    return (line if is_said else ("# @%s %s" % (number, why)).encode()), is_said


def lines_of(found: List[str], paths: Container[str] = ()) -> Iterator[Tuple[bytes, bool]]:
    """The lines for what `lookup` says, each with whether it gives a value, in an app of these files."""
    count = 0
    for answer in found:
        line, is_said = line_of(answer, paths)
        count += is_said
        if count > MAX_VALUES:
            line, is_said = b"# @%s is one more than may have a value" % answer[:8].encode(), False
        yield line, is_said
