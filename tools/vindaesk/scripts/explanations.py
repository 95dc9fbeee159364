"""What refusals, faults, lines and attributes mean, by the tables of docs/SCRIPT.md and docs/FORMATS.md.

Rows of refusals and faults have a number, a name, a meaning and when they come; those of lines a form, an effect and a
reply; those of attributes their names, what they take, and what they set.
"""
import os
import re
from typing import Iterator, List, NamedTuple, Tuple

from ..common.places import TOP

PAGES = ("SCRIPT.md", "FORMATS.md")
NUMBER, NAME = re.compile("[0-9]+"), re.compile("[A-Z][A-Za-z]*")
# the refusal of a line that cannot be read, after which the forms of lines are listed
UNREAD = "Syntax"


class Explanation(NamedTuple):
    """The words by which something is asked for, how it is listed, and what there is to say of it."""

    words: Tuple[str, ...]
    listed: str
    text: str


class Tables(NamedTuple):
    """All that can be explained."""

    refusals: List[Explanation]
    lines: List[Explanation]
    attributes: List[Explanation]

    def words(self) -> Tuple[str, ...]:
        """All words that are explained."""
        return tuple(word for table in self for it in table for word in it.words)


def rows() -> Iterator[List[str]]:
    """The cells of each row of a table, and an empty row where there is none."""
    for page in PAGES:
        with open(os.path.join(TOP, "docs", page), encoding="utf-8") as file:
            for line in file:
                plain = line.rstrip("\n").replace("`", "").replace("\\|", "\1")
                cells = re.split(" *[|] *", plain)[1:-1] if plain.startswith("|") else []
                yield [it.replace("\1", "|") for it in cells]


def names_of(cell: str) -> Iterator[str]:
    """The names of attributes in a cell; one that begins with dots is the name before with another ending."""
    last = ""
    for part in cell.split(", "):
        last = re.sub("[A-Z][a-z]*$", "", last) + part[2:] if part.startswith("..") else part
        yield last


def read() -> Tables:
    """The tables of the pages."""
    found = Tables([], [], [])
    kind = ""
    for cells in rows():
        if cells[:2] in (["line", "effect"], ["name", "takes"]):
            kind = cells[0]
        elif not cells:
            kind = ""
        elif len(cells) > 3 and NUMBER.fullmatch(cells[0]) and NAME.fullmatch(cells[1]):
            text = "%s %s: %s.\nIt comes %s.\n" % tuple(cells[:4])
            found.refusals.append(Explanation((cells[0], cells[1]), "%2s %s" % (cells[0], cells[1]), text))
        elif kind and len(cells) > 2 and not cells[0].startswith("-"):
            add(found, kind, cells)
    return found


def add(found: Tables, kind: str, cells: List[str]) -> None:
    """Adds a row of the table of lines or of attributes."""
    if kind == "line":
        text = "The line %s %s.\nIt replies: %s.\n" % tuple(cells[:3])
        found.lines.append(Explanation((cells[0].split(" ")[0],), cells[0], text))
        return
    for name in names_of(cells[0]):
        text = "The attribute %s of a layout file takes: %s.\nIt sets: %s.\n" % (name, *cells[1:3])
        found.attributes.append(Explanation((name,), name, text))


def listed(table: List[Explanation]) -> str:
    """The entries of a table, one a line."""
    return "".join("    %s\n" % it.listed for it in table)


def every(tables: Tables) -> str:
    """The list of all that is explained."""
    titles = ("Refusals and faults", "Lines", "Attributes of layout files")
    return "".join("%s:\n%s" % (title, listed(table)) for title, table in zip(titles, tables))


def explained(tables: Tables, word: str) -> str:
    """What there is to say of a word; nothing where it means nothing."""
    found = "".join(it.text for table in tables for it in table if word in it.words)
    if any(word in it.words and UNREAD in it.words for it in tables.refusals):
        found += "The lines are these, and docs/SCRIPT.md says what each does:\n" + listed(tables.lines)
    return found
