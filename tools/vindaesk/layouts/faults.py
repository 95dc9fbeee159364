"""Which element and which attribute of a layout file a refusal is about, and the line of the element in its source.

Elements and lines come from `dump`. The attribute is found by the program too: files that have the element alone, with
its first attribute, its first two, and so on, are inflated at the density and with the resources of the script, and the
first that is refused alike has it.
"""
import os
import re
import tempfile
from typing import Dict, List, Optional, Tuple

from ..common import messages
from ..common.failures import Failure
from ..scripts import replies, sentences
from ..scripts.grammar import CLASSES, guess
from ..scripts.refusals import REFUSALS
from ..scripts.replies import Part, Refusal
from . import app_elements, attributes, compiler, documents, values
from .documents import ANDROID, REFERENCE, Attribute, End, Node, Start
from ..scripts.resource_names import Names

ELEMENT = re.compile(rb" element ([1-9][0-9]*)$")
MEMBER = re.compile(rb" e([1-9][0-9]*)")
OFFSET = re.compile(rb" at ([0-9]+)$")
UNRESOLVED, THEME, BAD_VALUE, DUPLICATE, NO_SIZE, CYCLE, UNKNOWN_CLASS = 12, 13, 14, 16, 17, 18, 23
OF_ATTRIBUTES = (UNRESOLVED, THEME, BAD_VALUE, DUPLICATE)
SIZES = ("layout_width", "layout_height")
KINDS = {"color": "a colour", "dimen": "a dimension", "text": "a text"}
NOT_XML, MISSING = 5, 39
# how many files are looked into
MOST = 100


def shown(it: Attribute, names: Names) -> str:
    """An attribute as a source has it, with resources by their names."""
    name = ("android:" if it.namespace == ANDROID else "") + it.name
    text = values.shown(it.value, attributes.form_of(it.namespace, it.name), names)
    if text is None:
        text = "%02x %08x" % (it.value.kind, it.value.word)
    return '%s="%s"' % (name, messages.shown(text.encode("utf-8", "replace"), 60))


class Files:
    """The layout files of a script, after the lines `dpi` and `res` that were carried out so far."""

    def __init__(self, folder: str, names: Names):
        self.folder = folder
        self.names = names
        self.settings: List[bytes] = []
        self.known: Dict[Tuple[str, bytes, int], str] = {}

    def detail(self, name: str, refusal: Refusal) -> str:
        """Why a file is refused; nothing where there is no more to say than that."""
        key = (name, refusal.text, len(self.settings))
        if key not in self.known and len(self.known) < MOST:
            self.known[key] = self.looked_up(name, refusal)
        return self.known.get(key, "")

    def looked_up(self, name: str, refusal: Refusal) -> str:
        """The same, from the file."""
        if refusal.number == MISSING:
            return REFUSALS[MISSING].why + guess(name, tuple(sorted(os.listdir(self.folder))))
        if refusal.number == NOT_XML and self.is_source(name):
            return sentences.SOURCE % messages.tool("axml")
        offset = OFFSET.search(refusal.text)
        if offset and refusal.number in REFUSALS:
            return sentences.AT_BYTE % (REFUSALS[refusal.number].why, int(offset[1]))
        numbers = [int(it) for it in (MEMBER if refusal.number == CYCLE else ELEMENT).findall(refusal.text)]
        lines, _ = documents.printed(name, self.folder) if numbers else (None, "")
        starts = documents.starts(list(documents.nodes_in(lines or [])))
        found = [starts[number - 1] for number in numbers if number <= len(starts)]
        of_app = app_elements.of_layout(self.folder, name)
        sources = ["; it is of %s" % of_app[it] for it in numbers if it in of_app]
        return self.of_elements(name, found, refusal.number) + "".join(sources) if found else ""

    def is_source(self, name: str) -> bool:
        """Whether a file is XML as people write it."""
        try:
            with open(os.path.join(self.folder, name), "rb") as file:
                return file.read(64).lstrip(b"\xef\xbb\xbf \t\r\n").startswith(b"<")
        except OSError:
            return False

    def of_elements(self, name: str, found: List[Start], number: int) -> str:
        """Why elements of a file are refused."""
        places = ", ".join(sentences.IN_LINE % (it.name, it.line) for it in found)
        why = REFUSALS[number].why if number in REFUSALS else ""
        if number == UNKNOWN_CLASS:
            names = tuple(CLASSES.split(" "))
            why += guess(found[0].name.rpartition(".")[2], names) or sentences.THERE_ARE % ", ".join(names)
        elif number == NO_SIZE:
            there = {it.name for it in found[0].attributes if it.namespace == ANDROID}
            why = sentences.NO_SIZE % sentences.AND_NO.join("android:" + it for it in SIZES if it not in there)
        elif number in OF_ATTRIBUTES:
            culprit = self.culprit(found[0], number)
            places += ": " + shown(culprit, self.names) if culprit else ""
            why = self.other_kind(culprit) or why if culprit and number == BAD_VALUE else why
        return messages.printable("%s: %s: %s" % (name, places, why))

    def other_kind(self, it: Attribute) -> str:
        """What is said where an attribute names a resource whose value is of a kind that it cannot have."""
        name = b"@%x" % it.value.word
        for line in reversed(self.settings) if it.value.kind == REFERENCE else ():
            words = [word for word in line.split(b" ") if word]
            if words[0] == b"res" and b"@" + words[1][1:].lstrip(b"0").lower() == name:
                kind = KINDS.get(words[2].decode("utf-8", "replace"), "another value")
                return sentences.OTHER_KIND % (kind, values.said(attributes.form_of(it.namespace, it.name)))
        return ""

    def culprit(self, start: Start, number: int) -> Optional[Attribute]:
        """The attribute for which an element is refused; nothing where that cannot be found."""
        whole = start.attributes
        try:
            with tempfile.TemporaryDirectory() as folder:
                for count in range(1, len(whole) + 1):
                    nodes: List[Node] = [start._replace(attributes=whole[:count]), End(0, start.namespace, start.name)]
                    with open(os.path.join(folder, "a%d.xml" % count), "wb") as file:
                        file.write(compiler.compiled(nodes))
                lines = [b"inflate a%d.xml into v1" % count for count in range(1, len(whole) + 1)]
                parts = [Part([*self.settings, b"add root FrameLayout 0 0"]), Part(lines)]
                *_, (_, answer) = replies.answers(parts, folder)
        except Failure:
            return None
        places = sorted(it.place for it in answer.refusals.values() if it.number == number)
        return whole[places[0]] if places else None
