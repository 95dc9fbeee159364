"""The contracts of the crates as their sources have them: public calls, their clauses, and the comments above these."""
import glob
import os
import re
from dataclasses import dataclass, field
from typing import Dict, Iterator, List, Optional, Set, Tuple

from running import TOP

FUNCTION = re.compile(r"( *)(pub )?(?:extern \"C\" )?fn (\w+)")
BLOCK = re.compile(r"(?:impl|trait|pub trait)(?:<[^{]*?>)? (.*)")
TYPE = re.compile(r"pub (?:struct|enum|trait|type) (\w+)")
CLAUSE = re.compile(r" *ensures(?: (\w+))? \{(?: (\w+))?")
RECORD = re.compile(r"pub record (\w+)\b")
FIELD = re.compile(r"  pub (\w+) :")
INVARIANT = re.compile(r"    (?:pub )?ghost (\w+): \{")
EXPORTED = re.compile(r"^pub use ([^;]+);", re.M)


@dataclass(frozen=True)
class Clause:
    """A clause of a contract, or a field of a record of definitions. `name` is "" where it has none; `line` is that of its
    file, from 1 on; `promise` is the comment above it, which may be above several; `head` is the word that it begins
    with."""
    name: str
    line: int
    promise: str
    head: str = ""


@dataclass(frozen=True)
class Record:
    """A record of a crate's definitions with its fields."""
    name: str
    path: str
    fields: Tuple[Clause, ...]


@dataclass(frozen=True)
class Call:
    """A function with a contract. `owner` is the type or the trait whose block it is in, or ""."""
    name: str
    owner: str
    path: str
    line: int
    summary: str
    clauses: Tuple[Clause, ...]


@dataclass
class Item:
    """What a crate exports: a function, or a type with its invariants and calls. `path` and `line` are where it is
    declared."""
    name: str
    path: str
    line: int
    summary: str
    invariants: Tuple[Clause, ...] = ()
    calls: List[Call] = field(default_factory=list)


@dataclass
class Source:
    """A file of a crate: its path from the top of the repository, and its lines."""
    path: str
    lines: List[str]

    def comment_above(self, at: int) -> str:
        """The `///` lines above line `at`, counted from 0, as one text."""
        found: List[str] = []
        while at > 0 and re.match(r" *(///|#\[)", self.lines[at - 1]):
            at -= 1
            if "///" in self.lines[at]:
                found.insert(0, self.lines[at].split("///", 1)[1].strip())
        return " ".join(found)

    def clauses_of(self, at: int, margin: str) -> Iterator[Clause]:
        """The clauses of the function that begins at line `at`; its body begins at a brace of its own margin."""
        comment: List[str] = []
        is_open = False
        for number in range(at, len(self.lines)):
            line = self.lines[number]
            if line in (margin + "{", margin + "}") or number > at and FUNCTION.match(line):
                return
            words = line.strip()
            if words.startswith("//"):
                comment = [*comment, words[2:].strip()] if is_open else [words[2:].strip()]
            is_open = words.startswith("//")
            found = CLAUSE.match(line)
            if found:
                yield Clause(found[1] or "", number + 1, " ".join(word for word in comment if word), found[2] or "")

    def fields(self, at: int) -> Iterator[Clause]:
        """The fields of the record of definitions that begins at line `at`, counted from 0."""
        comment: List[str] = []
        is_open = False
        for number in range(at + 1, len(self.lines)):
            line = self.lines[number]
            if not line.startswith("  "):
                return
            words = line.strip()
            if words.startswith("-- "):
                comment = [*comment, words[3:]] if is_open else [words[3:]]
            is_open = words.startswith("--")
            found = FIELD.match(line)
            if found:
                yield Clause(found[1], number + 1, " ".join(comment))

    def owners(self) -> Iterator[Tuple[int, str, str]]:
        """Each line with its number from 0 on and the type or trait in whose block it is."""
        owner = ""
        for number, line in enumerate(self.lines):
            block = BLOCK.match(line)
            if block:
                of = re.search(r"\bfor (\w+)", block[1]) or re.match(r"(\w+)", block[1])
                owner = of[1] if of else ""
            elif line.startswith("}"):
                owner = ""
            yield number, line, owner

    def calls(self) -> Iterator[Call]:
        """The functions with a contract that are public, or in the block of a trait."""
        for number, line, owner in self.owners():
            found = FUNCTION.match(line)
            if found and (found[2] or owner):
                clauses = tuple(self.clauses_of(number, found[1]))
                if clauses:
                    yield Call(found[3], owner, self.path, number + 1, self.comment_above(number), clauses)

    def invariants(self, at: int) -> Iterator[Clause]:
        """What always holds of a value of the type that is declared at line `at`, counted from 0."""
        for number in range(at, len(self.lines)):
            found = INVARIANT.match(self.lines[number])
            if found:
                yield Clause(found[1], number + 1, "")
            if self.lines[number].startswith("}") or self.lines[number].endswith(";"):
                return

    def types(self) -> Iterator[Item]:
        for number, line in enumerate(self.lines):
            found = TYPE.match(line)
            if found:
                invariants = tuple(self.invariants(number)) if "struct" in line else ()
                yield Item(found[1], self.path, number + 1, self.comment_above(number), invariants)


def files(crate: str, folder: str, ending: str) -> Iterator[Source]:
    """The files of a folder of a crate."""
    for path in sorted(glob.glob(os.path.join(TOP, "crates", crate, folder, "**", "*" + ending), recursive=True)):
        with open(path, encoding="utf-8") as file:
            yield Source(os.path.relpath(path, TOP), file.read().split("\n"))


def sources(crate: str) -> Iterator[Source]:
    return files(crate, "src", ".rt")


def definitions(crate: str) -> Iterator[Source]:
    return files(crate, "specs", ".antt")


def exported(crate: str) -> Set[str]:
    """The names that the root file of a crate exports, those for C too."""
    root = os.path.join(TOP, "crates", crate, "src", "lib.rt")
    if not os.path.exists(root):
        return set()
    with open(root, encoding="utf-8") as file:
        text = file.read()
    names = set(re.findall(r"^pub extern \"C\" fn (\w+)", text, re.M))
    for use in EXPORTED.findall(text):
        inner = re.search(r"\{([^}]*)\}", use)
        for name in (inner[1].split(",") if inner else [use.rsplit("::", 1)[-1]]):
            names.add(name.split(" as ")[-1].strip())
    return names - {""}


def items(crate: str) -> List[Item]:
    """What a crate exports that has a contract, in the order of its files: functions, and types with their calls."""
    names = exported(crate)
    found: Dict[str, Item] = {}
    for source in sources(crate):
        for item in source.types():
            found.setdefault(item.name, item)
        for call in source.calls():
            if call.owner == "":
                found[call.name] = Item(call.name, call.path, call.line, call.summary, (), [call])
            elif call.owner in found or call.owner in names:
                found.setdefault(call.owner, Item(call.owner, call.path, call.line, "")).calls.append(call)
    return [item for item in found.values() if item.name in names and (item.calls or item.invariants)]


def call_named(crate: str, name: str) -> Optional[Call]:
    """The public function of a crate, which is in no block."""
    return next((call for source in sources(crate) for call in source.calls() if call.name == name and not call.owner), None)


def record_named(crate: str, name: str) -> Optional[Record]:
    """The record of this name among the definitions of a crate, if there is one."""
    for source in definitions(crate):
        for number, line in enumerate(source.lines):
            found = RECORD.match(line)
            if found and found[1] == name:
                return Record(name, source.path, tuple(source.fields(number)))
    return None


def crates() -> List[str]:
    """All crates, the lowest first."""
    with open(os.path.join(TOP, "crates.txt"), encoding="utf-8") as file:
        return [re.split(r"[ :]", line)[0] for line in file.read().splitlines() if line.strip()]
