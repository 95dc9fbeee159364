"""Cuts classes of Android's sources down to what measures and places views. A file NAME.cut says of a class which of
its members stay, and which have a short body of our own; constants that are needed stay by themselves. It has these
lines, then a line `---`, then members in Java:

    from PATH       the source, below the folder of Android's base
    class TEXT      the head of the class, in the place of its own
    keep NAME ..    members that stay: all of a name, or with NAME/N those of N parameters; without such lines all do
    drop NAME ..    members that go
    cases METHOD CASE ..   the cases of a switch of a method that stay, by the ends of their names
    swap METHOD | ONE | OTHER   a part of a method that is replaced, once: where a known difference can be switched
"""
import os
import re
from dataclasses import dataclass, field
from typing import Dict, Iterator, List, NamedTuple, Set

WORD = re.compile(r"[A-Za-z_$][\w$]*")
PIECE = re.compile(r"""//[^\n]*|/\*.*?\*/|"(?:\\.|[^"\\])*"|'(?:\\.|[^'\\])*'|.""", re.DOTALL)
IMPORT = re.compile(r"^import (static )?([\w.]+?)(\.\*)?;", re.MULTILINE)
NESTED = re.compile(r"\b(?:class|interface|enum)\s+(\w+)")
CASE = re.compile(r"\bcase\s+[\w.]*?(\w+)\s*:")


class Member(NamedTuple):
    """A member of a class: its name, with `/N` after it if it has N parameters; its text; and whether it is a field of
    a plain type that does not change."""

    key: str
    text: str
    is_constant: bool

    @property
    def name(self) -> str:
        """The name alone."""
        return self.key.split("/")[0]

    def is_in(self, names: Set[str]) -> bool:
        """Whether it is one of those that are named."""
        return self.name in names or self.key in names


class Source(NamedTuple):
    """A source file: its package and imports, the head of its class, and the members of that."""

    top: str
    head: str
    members: List[Member]


@dataclass
class Cut:
    """What a NAME.cut says."""

    path: str = ""
    head: str = ""
    keep: Set[str] = field(default_factory=set)
    drop: Set[str] = field(default_factory=set)
    cases: Dict[str, List[str]] = field(default_factory=dict)
    swaps: List[List[str]] = field(default_factory=list)
    own: str = ""


def plain(text: str) -> str:
    """A source without comments and annotations."""
    kept = "".join(" " if it.startswith(("//", "/*")) else it for it in PIECE.findall(text))
    made: List[str] = []
    at = 0
    for found in re.finditer(r"@(?!interface)[A-Za-z_][\w.]*", kept):
        if found.start() < at:
            continue
        made.append(kept[at : found.start()])
        at = found.end()
        rest = re.match(r"\s*\(", kept[at:])
        if rest:
            at = closing(kept, at + rest.end() - 1, "()") + 1
    return "".join(made) + kept[at:]


def closing(text: str, at: int, pair: str) -> int:
    """Where the bracket that opens at a place is closed."""
    depth = 0
    for found in PIECE.finditer(text, at):
        depth += (found[0] == pair[0]) - (found[0] == pair[1])
        if depth == 0:
            return found.start()
    raise ValueError("a bracket is not closed")


def ends(text: str) -> Iterator[int]:
    """Where the members of a class end: after a semicolon, or a body that is no value of a field."""
    at, begin = 0, 0
    while at < len(text):
        found = PIECE.match(text, at)
        assert found is not None
        at = found.end()
        if found[0] == "(":
            at = closing(text, at - 1, "()") + 1
        elif found[0] == "{":
            at = closing(text, at - 1, "{}") + 1
            if "=" not in re.sub(r"\([^()]*\)", "", text[begin : found.start()]):
                yield at
                begin = at
        elif found[0] == ";":
            yield at
            begin = at


def member(text: str) -> Member:
    """A member by its text."""
    head = re.split(r"[={]", text, 1)[0]
    nested = NESTED.search(head)
    if nested:
        return Member(nested[1], text, False)
    if "(" in head:
        begin = head.index("(")
        names = WORD.findall(head[:begin])
        given = re.sub(r"<[^<>]*>", "", head[begin + 1 : closing(head, begin, "()")]).strip()
        return Member("%s/%d" % (names[-1] if names else "", given.count(",") + 1 if given else 0), text, False)
    names = WORD.findall(head)
    is_constant = {"static", "final"} <= set(names) and bool({"int", "float", "boolean", "long", "String"} & set(names))
    return Member(names[-1] if names else "", text, is_constant)


def read(text: str) -> Source:
    """The parts of a source file."""
    text = plain(text)
    found = re.search(r"^(?:public |abstract |final )*(?:class|interface)\b[^{]*\{", text, re.MULTILINE)
    assert found is not None, "the file has no class"
    body = text[found.end() : closing(text, found.end() - 1, "{}")]
    members, begin = [], 0
    for end in ends(body):
        members.append(member(body[begin:end].strip()))
        begin = end
    return Source(text[: found.start()], found[0][:-1].strip(), [it for it in members if it.text != ";"])


def read_cut(text: str) -> Cut:
    """What a NAME.cut says."""
    made = Cut()
    head, _, made.own = text.partition("\n---\n")
    for line in head.split("\n"):
        word, _, rest = line.partition(" ")
        if word == "from":
            made.path = rest
        elif word == "class":
            made.head = rest
        elif word in ("keep", "drop"):
            getattr(made, word).update(rest.split())
        elif word == "cases":
            name, *cases = rest.split()
            made.cases[name] = cases
        elif word == "swap":
            made.swaps.append(rest.split(" | "))
    return made


def with_cases(text: str, wanted: List[str]) -> str:
    """A method of whose outermost switch only some cases stay, each a group with its own `break`."""
    begin = text.index("{", text.index("switch")) + 1
    end = closing(text, begin - 1, "{}")
    body = text[begin:end]
    found = list(CASE.finditer(body))
    kept = []
    for one, after in zip(found, [*[it.start() for it in found[1:]], len(body)]):
        if any(one[1].endswith("_" + it) for it in wanted):
            kept.append(body[one.start() : after])
    return text[:begin] + "\n".join(kept) + text[end:]


def members_of(source: Source, cut: Cut) -> List[str]:
    """The members that stay, with the constants that these name, in their order."""
    own = {member(it).key for it in parts(cut.own)}
    stay = [it for it in source.members if not it.is_in(cut.drop) and it.key not in own]
    kept = {it for it in stay if not cut.keep or it.is_in(cut.keep)}
    named = set(WORD.findall(" ".join(it.text for it in kept) + cut.own))
    is_changed = True
    while is_changed:
        more = {it for it in stay if it.is_constant and it.name in named} - kept
        named |= set(WORD.findall(" ".join(it.text for it in more)))
        kept |= more
        is_changed = bool(more)
    return [shortened(it, cut) for it in stay if it in kept]


def shortened(it: Member, cut: Cut) -> str:
    """The text of a member, with the cases that stay, and with what is swapped."""
    text = with_cases(it.text, cut.cases[it.name]) if it.name in cut.cases and "switch" in it.text else it.text
    for name, one, other in cut.swaps:
        if name == it.name:
            assert text.count(one) == 1, "%s has not one '%s'" % (name, one)
            text = text.replace(one, other)
    return text


def parts(body: str) -> Iterator[str]:
    """The texts of the members of a class."""
    begin = 0
    body = plain(body)
    for end in ends(body):
        yield body[begin:end].strip()
        begin = end


def is_known(name: str, is_whole: bool, known: Set[str]) -> bool:
    """Whether an import names a class that is there, one of its members, or a package with one."""
    parts = name.split(".")
    is_own = any(".".join(parts[:count]) in known for count in range(1, len(parts) + 1))
    return name.startswith("java.") or is_own or (is_whole and any(it.startswith(name + ".") for it in known))


def with_imports(text: str, known: Set[str]) -> str:
    """A source without imports of classes that are not there."""
    return IMPORT.sub(lambda it: it[0] if is_known(it[2], bool(it[3]), known) else "", text)


def made(base: str, cut: Cut, known: Set[str]) -> str:
    """The source of a class that is cut; `known` are the names of all classes that are there."""
    with open(os.path.join(base, cut.path), encoding="utf-8") as file:
        source = read(file.read())
    body = "\n\n".join([*members_of(source, cut), cut.own])
    return "%s\n\n%s {\n%s\n}\n" % (with_imports(source.top, known), cut.head or source.head, body)
