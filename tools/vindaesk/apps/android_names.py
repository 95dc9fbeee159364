"""What becomes of a name of Android that the program has no rule for: by the tables of docs/COMING-FROM-ANDROID.md, the
table of classes, and the names of Android's attributes."""
import os
import re
from typing import Iterator, List, Set

from ..common.places import TOP
from . import platform_names
from .rules import RULES
from .widget_table import SIX, Table

PAGE = "docs/COMING-FROM-ANDROID.md"
PREFIX = re.compile("(android|app):")
# a name with these at its end means all that begin so
ANY = ".."
QUOTED = re.compile("`([^`]+)`")
# what a word of the page means
MAPPED = {"mapped": "the report says where its bounds may be others"}
# a resource or an attribute of the theme by its name, as @string/title, @+id/send or ?android:attr/textColor
REFERENCE = re.compile(r"(@)\+?(?:[\w.]+:)?(\w+)/.+|(\?)(?:[\w.]+:)?(?:attr/)?\w+")


def rows() -> Iterator[List[str]]:
    """The rows of the tables of the page that have a column for the program and one for `tools/app`."""
    with open(os.path.join(TOP, *PAGE.split("/")), encoding="utf-8") as file:
        for line in file:
            cells = [it.strip() for it in line.strip().strip("|").split("|")]
            if line.startswith("|") and "`" in cells[0] and len(cells) == 3:
                yield cells


def plain(cell: str) -> str:
    """A cell without its marks; of a link its text."""
    return re.sub(r"\[([^]]*)\]\([^)]*\)", r"\1", cell).replace("`", "")


def fits(word: str, name: str) -> bool:
    """Whether a name of the page means a word, which may lack the mark of a resource."""
    if name.endswith(ANY):
        return word.startswith(name[:-len(ANY)])
    return word.lstrip("@?") == name.lstrip("@?")


def rows_of(word: str) -> Iterator[List[str]]:
    """The rows of the page that have a name."""
    yield from (row for row in rows() if any(fits(word, name) for name in QUOTED.findall(row[0])))


def of_page(word: str) -> str:
    """What the page has of a name."""
    return "".join("%s: the program alone: %s. With tools/app: %s.\n" % (word, plain(alone), plain(by_tool))
                   for _, alone, by_tool in rows_of(word))


def of_classes(word: str) -> str:
    """What the table of classes has of a name, with what the page says of one whose bounds are exact."""
    row = Table(sorted(RULES), []).row(word)
    if row is None or row.name in SIX:
        return ""
    said = next((plain(by_tool) for _, _, by_tool in rows_of(word.rpartition(".")[2])), "its bounds are exact")
    how = "approximated: " + row.why if row.why else MAPPED.get(said, said)
    return ("The class %s is none of the program's six, %s: refused, 23 UnknownClass. tools/app makes a %s of it; "
            "%s.\n" % (word, ", ".join(SIX), row.kind, how))


def of_attributes(word: str) -> str:
    if word not in platform_names.NUMBER_OF:
        return ""
    return ("The attribute %s of Android has no effect on the program, which counts it as ignored. Where it counts, tools/app "
            "uses it or names it in its report.\n" % word)


def kind_of(word: str) -> str:
    """The kind of a reference, as `@string` or `?attr`; any other word as it is, without Android's prefix."""
    found = REFERENCE.fullmatch(word)
    if found:
        return "@" + found[2] if found[1] else "?attr"
    return PREFIX.sub("", word, 1) if PREFIX.match(word) else word


def names() -> Set[str]:
    """All names of which there is something to say."""
    of_rows = {name for row in rows() for name in QUOTED.findall(row[0]) if not name.endswith(ANY)}
    return {*of_rows, *Table(sorted(RULES), []).rows, *platform_names.NUMBER_OF}


def explained(word: str) -> str:
    """What there is to say of a name of Android; nothing where it is none. A class may have its package, an attribute
    its prefix, and a resource its name."""
    name = kind_of(word)
    found = of_classes(name) or of_page(name) or of_attributes(name)
    return found + "%s has more.\n" % PAGE if found else ""
