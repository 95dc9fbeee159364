"""What each rule of lint means, with an example in which it finds something and one in which it finds nothing: the
sections of rules.md, which ci/lint_rules.py tries. Read without the rules themselves, which take longer to be
loaded."""
import os
import re
from typing import Dict, List, NamedTuple, Tuple

PAGE = os.path.join(os.path.dirname(__file__), "rules.md")
TITLE, FENCE = "## ", "```"
# what a block says that has what is found, and the lines before the examples
FINDS, FAILS, PASSES = "finds", "Fails:", "Passes:"
ANDROID = re.compile(r"`([A-Za-z]+)`")
LINK = re.compile(r"\[([^]]*)\]\([^)]*\)")

# the texts of files by their paths below a folder; the first is the one that is linted
Files = Dict[str, str]


class Section(NamedTuple):
    """A rule's section: its name, the line with its severity and Android's names, these names, what it means; an
    example in which it finds something, with what it finds, and the files that differ in one in which it finds nothing;
    and the lines as they are printed."""

    name: str
    weight: str
    android: Tuple[str, ...]
    meaning: str
    fails: Files
    finds: str
    passes: Files
    lines: List[str]

    def text(self) -> str:
        """The section as a terminal shows it: examples are indented."""
        return "\n".join([self.name, *shown(self.lines)]).rstrip("\n") + "\n"


def shown(lines: List[str]) -> List[str]:
    """Lines of a section without what only a page needs. An example of several files names each."""
    found: List[str] = []
    is_block = False
    for line in lines:
        if line.startswith(FENCE):
            name = line[len(FENCE) :]
            is_block = not is_block
            found += ["", "It finds:" if name == FINDS else name + ":", ""] if name else [""]
        else:
            found.append("    " + line if is_block else LINK.sub(r"\1", line))
    return [line for before, line in zip(["-", *found], found) if line or before]


def section_of(name: str, lines: List[str]) -> Section:
    """The section of some lines after its title."""
    weight, *meaning = [it for it in lines[: lines.index(FAILS)] if it]
    fails: Files = {}
    passes: Files = {}
    at, finds, block = fails, "", ""
    for line in lines:
        if line == PASSES:
            at = passes
        elif line.startswith(FENCE):
            block = line[len(FENCE) :]
        elif block == FINDS:
            finds += line + "\n"
        elif block:
            at[block] = at.get(block, "") + line + "\n"
    plain = LINK.sub(r"\1", " ".join(meaning))
    return Section(name, weight, tuple(ANDROID.findall(weight)), plain, fails, finds, passes, lines)


def read() -> Dict[str, Section]:
    """All sections, by the names of their rules."""
    with open(PAGE, encoding="utf-8") as file:
        parts = ("\n" + file.read()).split("\n" + TITLE)[1:]
    found = [part.rstrip("\n").split("\n") for part in parts]
    return {it[0]: section_of(it[0], it[1:]) for it in found}


def explained(word: str) -> str:
    """The sections of a rule, or of those that have one of Android's names; nothing where none has."""
    return "\n".join(it.text() for it in read().values() if word == it.name or word in it.android)
