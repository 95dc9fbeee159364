"""Answers as they are kept: with names in the place of ids, and with the places where lines were written. So a resource
that is added to an app, or a line to a file that is included, changes none of them."""
import os
import re
from typing import List

from ..scripts.names import Ids
from ..scripts.script import Script

REFUSED = re.compile(rb"line ([1-9][0-9]*): (.*)", re.DOTALL)
STATE = re.compile(rb"state ((?:[0-9a-f]{2})+)")
# a state: its head, and the kinds of its entries; docs/FORMATS.md has the form
HEAD = bytes.fromhex("565302")
OFFSET, TEXT = 1, 2
# an attribute that names a resource, in what `dump` prints
REFERENCE = re.compile(rb"(attr [^ ]+ [^ ]+ [^ ]+ 01) ([0-9a-f]{8})")


def entries_of(state: bytes) -> List[bytes]:
    """The entries of a saved state; none where it is of another form."""
    found, at = [], len(HEAD) + 2
    while state.startswith(HEAD) and at + 5 <= len(state):
        kind = state[at + 4]
        size = 9 if kind == OFFSET else 7 + int.from_bytes(state[at + 5 : at + 7], "little")
        if kind not in (OFFSET, TEXT) or at + size > len(state):
            return []
        found.append(state[at : at + size])
        at += size
    return found if at == len(state) else []


def state_by_names(reply: bytes, ids: Ids) -> bytes:
    """The reply of a line `save`: where names of its ids are known, each entry by its name, ordered by these."""
    found = STATE.fullmatch(reply)
    entries = entries_of(bytes.fromhex(found[1].decode())) if found else []
    names = [ids.name(int.from_bytes(it[:4], "little")) for it in entries]
    if not any(names):
        return reply
    rows = [(name or "@%08x" % int.from_bytes(it[:4], "little"), it[4:].hex()) for name, it in zip(names, entries)]
    return b"state " + " ".join("%s %s" % row for row in sorted(rows)).encode()


def place_of(made: Script, number: int) -> bytes:
    """How an answer names the line of a number: as it was written; with its file where that was included."""
    line = made.place(number)
    if line.file == made.file:
        return b"line %d" % line.number
    return os.fsencode(os.path.relpath(line.file, made.folder)) + b" line %d" % line.number


def of_run(answer: bytes, made: Script) -> bytes:
    """The answer of a script as it is kept."""
    lines = answer.split(b"\n")
    for place, line in enumerate(lines):
        refused = REFUSED.fullmatch(line)
        if refused and int(refused[1]) <= len(made.lines):
            lines[place] = place_of(made, int(refused[1])) + b": " + refused[2]
        elif line.startswith(b"state "):
            lines[place] = state_by_names(line, made.ids)
    return b"\n".join(lines)


def of_dump(answer: bytes, ids: Ids) -> bytes:
    """What `dump` prints, as it is kept."""
    lines = answer.split(b"\n")
    for place, line in enumerate(lines):
        found = REFERENCE.fullmatch(line)
        name = ids.name(int(found[2], 16)) if found else None
        if found and name:
            lines[place] = found[1] + b" " + name.encode()
    return b"\n".join(lines)
