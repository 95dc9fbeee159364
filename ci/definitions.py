"""The definitions of `specs/` and the lemmas of `proofs/`, and which of them each one uses, by the names in their
texts.

A name counts as used where it occurs: as what a file imports, or as what the file itself defines. So nothing that is
used is missed but what the language reads in without its name, and a local variable of the same name hides what is not.
"""
import os
import re
from typing import Dict, Iterator, List, Sequence, Set, Tuple

from running import TOP

# by the module and the name
Known = Dict[str, Dict[str, "Definition"]]

CRATES = os.path.join(TOP, "crates")
TOKEN = re.compile(r"[^\s(){}\[\],.;]+")
COMMENT = re.compile(r"(?:^|\s)--(?:\s.*)?$", re.M)
RUST_COMMENT = re.compile(r"(?:^|\s)//.*$", re.M)
IMPORT = re.compile(r"\s*(?:pub )?(?:ghost )?use (Rattle\.[\w.]+?)(?:\.\{([^}]*)\}| as (\S+?))?;?$")
IS_IMPORT = re.compile(r"\s*(?:pub )?(?:ghost )?use ")
# a lemma that code names for a tactic
PATH = re.compile(r"\b(\w+)::((?:proofs|specs)::[^\s(),]+)")
WORDS = r"(?:(?:abbrev|unfoldable|opaque|pub|infix[lr]?|\d+)\s+)*"
TYPE = re.compile(WORDS + r"(data|record)\s+([^\s:({]+)")
NAMED = re.compile(WORDS + r"([^\s:(){},]+)\s*(?:[({].*[)}]\s*)?:(?:\s|$)")
MODULE = re.compile(WORDS + r"(module)\s")
# a law that is there to be read, as one that ties a table of the code to the definitions
OWN_SAKE = re.compile(r"-- for its own sake\b", re.I)
# what is declared below another line: a constructor, or a definition of a module with parameters
INNER = re.compile(r"^\s+" + WORDS + r"(?:(?:data|record)\s+)?([^\s:(){},]+)\s*(?:[({].*[)}]\s*)?:(?:\s|$)", re.M)


class Definition:
    """A definition or a lemma, or all of a module with parameters: its file's module, its name, the line at which it
    begins, and the names that it gives."""

    def __init__(self, module: str, name: str, path: str, line: int, kind: str):
        self.module, self.name, self.path, self.line, self.kind = module, name, path, line, kind
        self.lines: List[str] = []
        self.names = {name}

    def end(self) -> None:
        """Takes its text as whole."""
        text = COMMENT.sub("", "\n".join(self.lines))
        self.tokens = set(TOKEN.findall(text))
        if self.kind in ("data", "module"):
            self.names |= set(INNER.findall(text))


class File:
    """A file of definitions, or of code: its imports and the definitions in it."""

    def __init__(self, path: str):
        self.path = path
        with open(path, encoding="utf-8") as file:
            self.text = file.read()
        lines = self.text.split("\n")
        self.imports: Dict[str, Set[Tuple[str, str]]] = {}
        self.modules: Set[str] = set()
        for found in filter(None, map(IMPORT.match, filter(IS_IMPORT.match, lines))):
            module, names, alias = found.groups()
            if alias or not names:
                self.modules.add(module)
            for name in (names or "").split(","):
                own, _, other = name.strip().partition(" as ")
                self.imports.setdefault(other or own, set()).add((module, own))
        # the text without imports
        self.body = "\n".join(line for line in lines if not IS_IMPORT.match(line))
        self.definitions: List[Definition] = []
        self.own: Dict[str, Definition] = {}

    def uses(self, tokens: Set[str], known: Known) -> Iterator[Definition]:
        """What tokens of the file mean, of what is known by its module and its name."""
        for token in tokens & self.own.keys():
            yield self.own[token]
        for token in tokens & self.imports.keys():
            yield from filter(None, (known.get(module, {}).get(name) for module, name in self.imports[token]))
        for module in self.modules & known.keys():
            yield from (known[module][name] for name in tokens & known[module].keys())

    def named(self, known: Known) -> Iterator[Definition]:
        """The lemmas that are named by their paths."""
        crate = os.path.relpath(self.path, CRATES).split(os.sep)[0]
        for first, rest in PATH.findall(self.body):
            module, _, name = ".".join([crate if first == "crate" else first, *rest.split("::")]).rpartition(".")
            yield from filter(None, [known.get("Rattle." + module, {}).get(name)])


def module_of(path: str) -> str:
    """The module of a file below crates/."""
    return "Rattle." + os.path.relpath(path, CRATES)[: -len(".antt")].replace(os.sep, ".")


def parsed(path: str) -> File:
    """A file with its definitions."""
    file, last = File(path), None
    for number, line in enumerate(file.text.split("\n"), 1):
        if line[:1].strip() and not line.startswith(("--", "use ", "pub use ", "mod ", "pub mod ")):
            kind = TYPE.match(line) or MODULE.match(line)
            named = kind or NAMED.match(line)
            if named and (kind or last is None or named.groups()[-1] != last.name):
                last = Definition(module_of(path), named.groups()[-1], path, number, kind[1] if kind else "")
                file.definitions.append(last)
        if last is not None and not line.startswith(("use ", "pub use ")):
            last.lines.append(line)
    for it in file.definitions:
        it.end()
        file.own.update(dict.fromkeys(it.names, it))
    return file


def files_below(ending: str, folders: Sequence[str]) -> Iterator[str]:
    """The files of these folders of all crates that have an ending."""
    for crate in sorted(os.listdir(CRATES)):
        for folder in folders:
            for at, inner, names in sorted(os.walk(os.path.join(CRATES, crate, folder))):
                inner.sort()
                yield from (os.path.join(at, name) for name in sorted(names) if name.endswith(ending))


def is_root(path: str) -> bool:
    """Whether all of a file is read for a proof of code: what answers the goals of a function, or is its proof by hand."""
    return os.path.basename(path) in ("Answers.antt", "Invariants.antt", "Proof.antt")


def is_example(path: str) -> bool:
    """Whether a file has worked examples, which are there for their own sake."""
    return path.endswith("Examples.antt")


def all_files() -> List[File]:
    """All files of definitions and lemmas."""
    return [parsed(path) for path in files_below(".antt", ("specs", "proofs"))]


def is_for_its_own_sake(file: File, it: Definition) -> bool:
    """Whether the comment above a definition, or at the head of its file, says that nothing has to use it."""
    lines = file.text.split("\n")
    above = it.line - 1
    while above > 0 and lines[above - 1].startswith("--"):
        above -= 1
    return any(OWN_SAKE.match(line) for line in (lines[0], lines[above]))


def unreached(files: List[File]) -> Iterator[Definition]:
    """The definitions and lemmas that no code, no answer to a goal of code, and nothing that is for its own sake uses
    in any way. Those whose name has holes are not looked at, since the language uses some of them without their
    names."""
    places = {it: file for file in files for it in file.definitions}
    known: Known = {}
    for it in places:
        known.setdefault(it.module, {}).update(dict.fromkeys(it.names, it))
    ready: List[Definition] = []
    for code in map(File, files_below(".rt", ("src",))):
        ready += code.uses(set(TOKEN.findall(RUST_COMMENT.sub("", code.body))), known)
        ready += code.named(known)
    for file in filter(lambda file: is_root(file.path), files):
        ready += file.uses(set(TOKEN.findall(COMMENT.sub("", file.body))), known)
    ready += [it for it, file in places.items() if is_for_its_own_sake(file, it)]
    reached = set()
    while ready:
        found = ready.pop()
        if found not in reached:
            reached.add(found)
            ready += places[found].uses(found.tokens, known)
    for it, file in places.items():
        if it not in reached and "◌" not in it.name and not is_root(file.path) and not is_example(file.path):
            yield it
