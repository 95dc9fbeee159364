"""The views of a script, line by line: what lines make of them that the reply of `bounds` does not say."""
from __future__ import annotations

import os
import re
from typing import TYPE_CHECKING, Dict, FrozenSet, Iterator, List, Optional, Sequence, Set, Tuple

from ..scripts import names, script
from ..scripts.names import Ids
from ..scripts.replies import Answer, Part
from ..scripts.script import Line
from . import facts
from .facts import Origin, Settings, Source

if TYPE_CHECKING:
    from ..layouts.app_elements import AppElement

TEXT_LINE = rb" *text +[^ ]+ (.*)"
TEXT_RESOURCE = rb" *res +[^ ]+ +text (.*)"
VISIBILITIES = ["visible", "invisible", "gone"]
CLEAR = "#00000000"
# lines whose reply says what they made
REPLYING = (b"add", b"inflate", b"frame")
# a comment after which a view is made that rules of lint pass over
IGNORE = re.compile(rb"# *tools:ignore[ =]+([^\r]*)\r?")

# a view's number and the word of a line that sets something of it
Fact = Tuple[int, str]


class View:
    """A view. A text is None where its class shows none, a background where a hook may have set it. `given` has what
    lines and attributes set of it, and `rules` for each verb `yes` or the id of a sibling (facts.py)."""

    def __init__(self, number: int, parent: Optional["View"], kind: str):
        self.number = number
        self.parent = parent
        self.depth: int = parent.depth + 1 if parent else 1
        self.kind = kind
        self.children: Dict[int, "View"] = {}
        self.id = 0
        # its id by name, where the list of ids has one
        self.id_name: Optional[str] = None
        self.text: Optional[str] = "" if kind == "TextView" else None
        self.visibility = VISIBILITIES[0]
        self.background: Optional[str] = CLEAR
        self.answer = "off"
        self.given: Settings = {}
        self.rules: Dict[str, str] = {}
        self.origin: Optional[Origin] = None
        self.known_source: Optional[Source] = None
        # the element of an app's source that it was made of
        self.of_app: Optional[AppElement] = None

    @property
    def source(self) -> Optional[Source]:
        """The element or the line that made it; nothing where lines have no places."""
        if self.known_source is None and self.origin:
            self.known_source = facts.source_of(self.origin, self.kind)
        return self.known_source

    def is_touched(self) -> bool:
        """Whether it answers touches itself."""
        return self.answer != "off"

    def value(self, name: str) -> Optional[str]:
        """What an edit that a hook may make has set."""
        return self.background if name == "bg" else self.given.get(name, "")

    def put(self, name: str, value: Optional[str]) -> None:
        """Sets that."""
        if name == "bg":
            self.background = value
        else:
            self.given[name] = value

    def and_below(self) -> Iterator["View"]:
        """The view and all below it, in preorder."""
        yield self
        for child in self.children.values():
            yield from child.and_below()


class Armed:
    """The hooks that are armed: of each view that has one, which values it sets of which views."""

    def __init__(self) -> None:
        self.hooks: Dict[int, Dict[Fact, str]] = {}
        # whether all of these are known to be armed still
        self.is_sure = True

    def fired(self, count: int) -> Tuple[bool, Dict[Fact, Set[Optional[str]]]]:
        """After a frame in which this number of hooks fired: whether these were all, and which values they set."""
        found: Dict[Fact, Set[Optional[str]]] = {}
        for fact, value in [pair for sets in self.hooks.values() for pair in sets.items()] if count else []:
            found.setdefault(fact, set()).add(value)
        are_all = self.is_sure and count == len(self.hooks)
        if are_all:
            self.hooks = {}
        elif count:
            self.is_sure = False
        return are_all, found


class Tree:
    """The views after some lines of a script. `written` are these lines as they were written, where views are to have
    the places of theirs."""

    def __init__(self, folder: str, ids: Ids = names.NONE, written: Sequence[Line] = ()):
        self.folder = folder
        self.ids = ids
        self.written = written
        self.before = {(it.file, it.number): it.text for it in written if it.text.startswith(b"#")}
        self.beside = os.path.dirname(written[0].file) if written and written[0].file != "-" else ""
        self.line: Optional[Line] = None
        self.views: Dict[int, View] = {}
        self.root: Optional[View] = None
        self.named: Dict[int, Dict[int, View]] = {}
        # what lines `res` have set
        self.colours: Dict[int, int] = {}
        self.texts: Dict[int, str] = {}
        self.lengths: Dict[int, str] = {}
        self.armed = Armed()

    def view(self, name: bytes) -> View:
        """The view of a number, or the first in preorder of an id."""
        if name.startswith(b"v"):
            return self.views[int(name[1:])]
        named = self.named[int(name[1:], 16)]
        if len(named) == 1 or self.root is None:
            return next(iter(named.values()))
        return next(it for it in self.root.and_below() if it.number in named)

    def put(self, number: int, parent: Optional[View], kind: str) -> View:
        """A new view, the last child of its parent, or the root."""
        made = self.views[number] = View(number, parent, kind)
        made.origin = Origin(self.line) if self.line else None
        if parent:
            parent.children[number] = made
        else:
            self.root = made
        return made

    def set_id(self, view: View, number: int) -> None:
        """Gives a view an id, or takes it away."""
        if view.id:
            self.named[view.id].pop(view.number)
        view.id = number
        view.id_name = self.ids.name(number) if number else None
        if number:
            self.named.setdefault(number, {})[view.number] = view

    # one function a line; `words` are those of the line, `reply` is what the program says of it

    def add(self, words: List[bytes], line: bytes, reply: bytes) -> None:
        """`add root C W H` or `add V C W H`."""
        parent = None if words[1] == b"root" else self.view(words[1])
        made = self.put(int(reply[1:]), parent, words[2].decode())
        made.given.update(facts.of_line(["size", "", *(it.decode() for it in words[3:])]))
        if made.origin:
            made.origin = made.origin._replace(ignored=self.ignored())

    def ignored(self) -> FrozenSet[str]:
        """The rules of lint that a comment right before the present line names."""
        line = self.line
        before = self.before.get((line.file, line.number - 1)) if line else None
        found = IGNORE.fullmatch(before) if before else None
        return frozenset(it for it in re.split("[ ,]+", found[1].decode("utf-8", "replace")) if it) if found else frozenset()

    def inflate(self, words: List[bytes], line: bytes, reply: bytes) -> None:
        """`inflate NAME` or `inflate NAME into V`."""
        from . import inflating

        place = self.view(words[3]) if len(words) == 4 else None
        first, last = (int(word[1:]) for word in reply.split(b" ")[1:3])
        inflating.inflate(self, words[1].decode(), place, first, last)

    def remove(self, words: List[bytes], line: bytes, reply: bytes) -> None:
        """`remove V`."""
        view = self.view(words[1])
        for it in list(view.and_below()):
            self.set_id(it, 0)
            self.armed.hooks.pop(it.number, None)
            del self.views[it.number]
        if view.parent:
            del view.parent.children[view.number]
        else:
            self.root = None

    def id(self, words: List[bytes], line: bytes, reply: bytes) -> None:
        """`id V @HEX`."""
        self.set_id(self.view(words[1]), int(words[2][1:], 16))

    def text(self, words: List[bytes], line: bytes, reply: bytes) -> None:
        """`text V T`."""
        self.view(words[1]).text = text_of(TEXT_LINE, line)

    def bg(self, words: List[bytes], line: bytes, reply: bytes) -> None:
        """`bg V C`."""
        self.view(words[1]).background = words[2].decode().lower()

    def visible(self, words: List[bytes], line: bytes, reply: bytes) -> None:
        """`visible V S`."""
        self.view(words[1]).visibility = words[2].decode()

    def res(self, words: List[bytes], line: bytes, reply: bytes) -> None:
        """`res @HEX color C`, `res @HEX text T` or `res @HEX dimen N U`."""
        number = int(words[1][1:], 16)
        self.colours.pop(number, None)
        self.texts.pop(number, None)
        self.lengths.pop(number, None)
        if words[2] == b"color":
            self.colours[number] = int(words[3][1:], 16)
        elif words[2] == b"text":
            self.texts[number] = text_of(TEXT_RESOURCE, line)
        else:
            self.lengths[number] = (words[3] + words[4]).decode()

    def answer(self, words: List[bytes], line: bytes, reply: bytes) -> None:
        """`answer V A`."""
        self.view(words[1]).answer = words[2].decode()

    def setting(self, words: List[bytes], line: bytes, reply: bytes) -> None:
        """A line that sets something of a view, as `margins V L T R B`."""
        self.view(words[1]).given.update(facts.of_line([it.decode() for it in words]))

    def rule(self, words: List[bytes], line: bytes, reply: bytes) -> None:
        """`rule V VERB X`."""
        rules, verb, value = self.view(words[1]).rules, words[2].decode(), words[3].decode().lower()
        rules.pop(verb, None)
        if value not in ("no", "@0"):
            rules[verb] = value

    def hook(self, words: List[bytes], line: bytes, reply: bytes) -> None:
        """`hook V E ; E ..`."""
        found: Dict[Fact, str] = {}
        for edit in b" ".join(words[2:]).split(b" ; "):
            parts = edit.split(b" ")
            for name, value in values_of(parts).items():
                found[self.view(parts[1]).number, name] = value
        self.armed.hooks[self.view(words[1]).number] = found

    def frame(self, words: List[bytes], line: bytes, reply: bytes) -> None:
        """`frame`, after which hooks may have set something."""
        are_all, found = self.armed.fired(int(reply.split(b" ")[1]))
        for (number, name), values in found.items():
            view = self.views.get(number)
            if view is not None:
                values = values if are_all else values | {view.value(name)}
                view.put(name, next(iter(values)) if len(values) == 1 else None)

    def follow(self, part: Part, answer: Answer) -> None:
        """What the lines of a part made of the views."""
        for place, line in enumerate(part.lines):
            words = script.words_of(line)
            if words and place not in answer.refusals and words[0] in LINES:
                self.line = self.written[part.first + place - 1] if self.written and part.first else None
                LINES[words[0]](self, words, line, answer.replies[-1] if words[0] in REPLYING else b"")


LINES = {
    word.encode(): getattr(Tree, word)
    for word in ("add", "inflate", "remove", "id", "text", "bg", "visible", "answer", "res", "rule", "hook", "frame")
}
SETTING = ("size", "min", "margins", "padding", "gravity", "orient", "direction", "weight", "weightsum", "ink", "flag",
           "intercept")
LINES.update({word.encode(): Tree.setting for word in SETTING})


def values_of(words: List[bytes]) -> Dict[str, str]:
    """What an edit of a hook sets, and to what."""
    if words[0] == b"bg":
        return {"bg": words[2].decode().lower()}
    return {name: value for name, value in facts.of_line([it.decode() for it in words]).items() if value is not None}


def text_of(form: bytes, line: bytes) -> str:
    """The text at the end of a line, without its escapes."""
    found = re.fullmatch(form, script.without_return(line), re.DOTALL)
    return script.unescaped(found[1].decode()) if found else ""


def parts_of(lines: List[bytes], ends: Sequence[bytes] = REPLYING) -> List[Part]:
    """A script in parts that end with these lines: where a reply says what a line made."""
    parts, begun = [], 0
    for number, line in enumerate(lines, 1):
        words = script.words_of(line)
        if number == len(lines) or (words and words[0] in ends):
            parts.append(Part(lines[begun:number], begun + 1))
            begun = number
    return parts
