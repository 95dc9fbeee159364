"""The resource tables of examples/app/: each resource has the line that follows from what other tools print of the
table.

NAME.dump beside NAME.arsc is what `aapt dump --values resources` has printed: for each configuration the type and the
word of each resource, or that it is complex. Lines are worked out from what is under `config (default)`, through
sixteen references. All resources of the table are looked up, also those without a default, and one id more.
"""
import glob
import os
import re
from functools import partial
from typing import Dict, List, Tuple

from running import PROGRAM, TOP, Checks, difference, run

FOLDER = os.path.join(TOP, "examples", "app")
IDS = 64
REFERENCES = 16
COLORS = (b"1c", b"1d", b"1e", b"1f")

SPEC = re.compile(rb" {6}spec resource 0x(\w{8}) ")
CONFIG = re.compile(rb" {6}config (.*):")
COMPLEX = re.compile(rb" {8}resource 0x(\w{8}) \S+ <bag>")
PLAIN = re.compile(rb" {8}resource 0x(\w{8}) \S+ t=0x(\w\w) d=0x(\w{8}) ")
STRING = re.compile(rb' {10}\(string(?:8|16)\) "(.*)"')


class Printed:
    """What was printed of a table: its ids, and what each holds in the default configuration."""

    def __init__(self, text: bytes):
        self.ids: List[bytes] = []
        self.held: Dict[bytes, Tuple[bytes, ...]] = {}
        self.strings: Dict[Tuple[bytes, ...], bytes] = {}
        is_default, last = False, b""
        for line in text.split(b"\n"):
            if found := SPEC.match(line):
                self.ids.append(found[1])
            elif found := CONFIG.match(line):
                is_default = found[1] == b"(default)"
            elif not is_default:
                continue
            elif found := COMPLEX.match(line):
                self.held[found[1]] = (b"complex",)
            elif found := PLAIN.match(line):
                last = found[1]
                self.held[last] = found.groups()[1:]
            elif found := STRING.match(line):
                self.strings[self.held[last]] = re.sub(rb"[\0-\x1f]", lambda it: b"\\x%02x" % it[0][0], found[1])

    def value(self, name: bytes) -> Tuple[bytes, ...]:
        """What an id holds, through references."""
        for _ in range(REFERENCES + 1):
            held = self.held.get(name, (b"none",))
            if held[0] != b"01" or held[1] == b"0" * 8:
                return held
            name = held[1]
        return (b"none",)

    def line(self, name: bytes) -> bytes:
        kind, *word = value = self.value(name)
        if not word:
            return b"%s %s\n" % (name, kind)
        if kind == b"03":
            return b'%s text "%s"\n' % (name, self.strings[value])
        if kind == b"05":
            return b"%s dimen %s\n" % (name, *word)
        if kind in COLORS:
            return b"%s color #%s\n" % (name, *word)
        return b"%s other %s %s\n" % (name, *value)


def table(path: str) -> str:
    """Why a table fails, or nothing."""
    with open(path[: -len("arsc")] + "dump", "rb") as file:
        printed = Printed(file.read())
    asked = [*printed.ids, b"ffffffff"]
    if len(printed.held) < 2:
        return "nothing was printed of it"
    for k in range(0, len(asked), IDS):
        ids = asked[k : k + IDS]
        written = run([PROGRAM, "lookup", os.path.basename(path), *ids], b"", os.path.dirname(path))
        why = difference(b"".join(map(printed.line, ids)), 0, *written)
        if why:
            return "from %s on: %s" % (ids[0].decode(), why)
    return ""


def checks() -> Checks:
    for path in sorted(glob.glob(os.path.join(FOLDER, "*.arsc"))):
        yield os.path.relpath(path, TOP), partial(table, path)
