"""Tables that table_writer.py makes of forms that Debian's aapt2 does not write: compact entries, offsets of 16 bits,
staged ids, shared libraries by name, and texts of both forms of UTF-8."""
from typing import Dict

import table_writer
from table_writer import Bag, Package, Pool, Value
from vindaesk.resources.packed import packed
from vindaesk.resources.qualifiers import parse_qualifiers

REFERENCE, ATTRIBUTE, STRING, DIMENSION, DYNAMIC, DYNAMIC_ATTRIBUTE, DECIMAL = 1, 2, 3, 5, 7, 8, 0x10
EMOJI = "Hi 😀 \0 é"


def configuration(qualifiers: str) -> bytes:
    return packed(parse_qualifiers(qualifiers))


def filled(package: Package) -> Package:
    """A package with strings in three configurations, of which some are only in one, sizes, and styles."""
    package.type(1, "attr")
    package.type(2, "string")
    package.type(3, "dimen")
    package.type(4, "style")
    for number, name in enumerate(("depth", "share")):
        package.put(0x10000 + number, configuration(""), name, Bag(0, [(0x01000000, Value(DECIMAL, 0x40))]))
    for number in range(40):
        package.put(0x20000 + number, configuration(""), "s%d" % number, Value(STRING, "plain %d" % number))
        if number % 7 == 3:
            package.put(0x20000 + number, configuration("de-v21"), "s%d" % number, Value(STRING, "deutsch %d" % number))
    package.put(0x20000 + 50, configuration("night"), "emoji", Value(STRING, EMOJI))
    package.put(0x30000, configuration(""), "gap", Value(DIMENSION, 0x1001))
    package.put(0x30002, configuration(""), "other", Value(REFERENCE, 0x7F030000))
    attributes = [(0x7F010000, Value(DIMENSION, 0x801)), (0x7F010001, Value(ATTRIBUTE, 0x7F010000))]
    package.put(0x40000, configuration(""), "Base", Bag(0, attributes))
    package.put(0x40001, configuration(""), "Child", Bag(0x7F040000, [(0x7F010000, Value(REFERENCE, 0x7F030002))]))
    return package


def library(name: str = "org.example.library") -> bytes:
    """A shared library with a text, an attribute, and a style that has it."""
    package = Package(0, name)
    package.type(1, "attr")
    package.type(2, "string")
    package.type(3, "style")
    package.put(0x10000, configuration(""), "tint", Bag(0, [(0x01000000, Value(DECIMAL, 0x10))]))
    package.put(0x20000, configuration(""), "shared", Value(STRING, "of the library"))
    package.put(0x20001, configuration(""), "again", Value(DYNAMIC, 0x00020000))
    package.put(0x30000, configuration(""), "Shared", Bag(0, [(0x00010000, Value(0x1C, 0xFF0000FF))]))
    return table_writer.table([package])


def client(number: int = 5) -> bytes:
    """An app that calls the library by an id of its own."""
    package = Package(0x7F, "org.example.client")
    package.type(1, "string")
    package.type(2, "style")
    package.put(0x10000, configuration(""), "own", Value(DYNAMIC, number << 24 | 0x20001))
    package.put(0x20000, configuration(""), "Mine", Bag(number << 24 | 0x30000, [
        (number << 24 | 0x10000, Value(DYNAMIC_ATTRIBUTE, number << 24 | 0x10000))]))
    package.library([(number, "org.example.library")])
    return table_writer.table([package])


def staged() -> bytes:
    """An app whose staged ids have others in the end."""
    package = Package(0x7F, "org.example.staged")
    package.type(1, "string")
    package.put(0x10000, configuration(""), "text", Value(STRING, "final"))
    package.put(0x10001, configuration(""), "same", Value(REFERENCE, 0x7FFE0000))
    package.aliases([(0x7FFE0000, 0x7F010000)])
    return table_writer.table([package])


def tables() -> Dict[str, bytes]:
    """The tables by their names."""
    forms = {it: table_writer.table([filled(Package(0x7F, "org.example", it))]) for it in ("dense", "sparse", "short")}
    forms["compact"] = table_writer.table([filled(Package(0x7F, "org.example", is_compact=True))])
    forms["compact short"] = table_writer.table([filled(Package(0x7F, "org.example", "short", True))])
    forms["utf16"] = table_writer.table([filled(Package(0x7F, "org.example"))], Pool(is_utf8=False))
    forms["halves"] = table_writer.table([filled(Package(0x7F, "org.example"))], Pool(encode=table_writer.modified))
    forms.update(library=library(), client=client(), staged=staged())
    return forms
