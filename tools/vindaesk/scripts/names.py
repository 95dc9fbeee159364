"""Names of ids in lines: `@id/send`, `@app:id/send` or `@android:id/text1` in the place of `@7f080002`.

The program knows numbers alone. So a tool replaces the names of a script by the ids of a list before the program sees
it, and shows ids by their names again. The list is the file `ids.txt` beside the script, in the form of
`aapt2 link --emit-ids`, which `tools/axml` writes too.
"""
import functools
import os
import re
from typing import List, NamedTuple, Optional, Sequence, Tuple

from ..common import files
from ..common.failures import Failure, NOT_RUN
from .resource_names import SYSTEM, Names

LIST = "ids.txt"
# patterns are compiled where a line has a name: each takes as long as the run of a line
NAME = rb"@(\+?)(?:([A-Za-z_][\w.]*):)?([A-Za-z_]\w*)/([\w.$-]+)"
ID = rb"(?<![^ ])@([0-9A-Fa-f]{1,8})(?![^ ])"
WORD = rb"[^ ]+"
# the public ids of Android's own views, from 0x01020000 on; `aapt2 dump resources framework-res.apk` lists them
FIRST_OF_ANDROID = 0x01020000
OF_ANDROID = (
    "background checkbox content edit empty hint icon icon1 icon2 input list message primary progress selectedIcon "
    "secondaryProgress summary tabcontent tabhost tabs text1 text2 title toggle widget_frame button1 button2 button3 "
    "extractArea candidatesArea inputArea selectAll cut copy paste copyUrl switchInputMethod inputExtractEditText "
    "keyboardView closeButton startSelectingText stopSelectingText addToDictionary custom home selectTextMode mask "
    "statusBarBackground navigationBarBackground pasteAsPlainText undo redo replaceText shareText "
    "accessibilityActionShowOnScreen accessibilityActionScrollToPosition accessibilityActionScrollUp "
    "accessibilityActionScrollLeft accessibilityActionScrollDown accessibilityActionScrollRight "
    "accessibilityActionContextClick accessibilityActionSetProgress icon_frame list_container switch_widget "
    "textAssist accessibilityActionMoveWindow autofill accessibilityActionShowTooltip accessibilityActionHideTooltip "
    "accessibilityActionPageUp accessibilityActionPageDown accessibilityActionPageLeft accessibilityActionPageRight"
).split(" ")


class Shift(NamedTuple):
    """Where a name was replaced: the column of the id, and how much shorter than its name it is, in characters."""

    column: int
    less: int


class Unknown(NamedTuple):
    """A name that is not in the list: its column, in characters from 1, and why."""

    column: int
    why: str


class Expanded(NamedTuple):
    """A line with ids in the place of names."""

    text: bytes
    shifts: Sequence[Shift] = ()
    unknown: Sequence[Unknown] = ()

    def written_column(self, column: int) -> int:
        """The column in the line as it was written."""
        return column + sum(it.less for it in self.shifts if it.column < column)


class Ids:
    """The names of a list, with those of Android's own views; `path` is where the list is, or would be."""

    def __init__(self, listed: Names, path: str, is_there: bool = True):
        self.listed = listed
        self.path = path
        self.is_there = is_there

    def number(self, package: str, kind: str, name: str) -> Optional[int]:
        """The id of a name; without a package it is that of any package but Android's."""
        found = self.listed.found(package, kind, name)
        if found is None and (package, kind) == (SYSTEM, "id") and name in OF_ANDROID:
            return FIRST_OF_ANDROID + OF_ANDROID.index(name)
        return found

    def name(self, number: int) -> Optional[str]:
        """The name of an id as lines have it; with its package where a shorter one means another id."""
        if number in self.listed.names:
            package, kind, name = self.listed.names[number]
            is_short = package != SYSTEM and self.listed.found("", kind, name) == number
            return "@%s%s/%s" % ("" if is_short or not package else package + ":", kind, name)
        place = number - FIRST_OF_ANDROID
        return "@%s:id/%s" % (SYSTEM, OF_ANDROID[place]) if 0 <= place < len(OF_ANDROID) else None

    def unknown(self, package: str, kind: str, name: str) -> str:
        """Why a name has no id."""
        from . import sentences
        from .grammar import guess

        whole = "@%s%s/%s" % (package and package + ":", kind, name)
        if package == SYSTEM and kind == "id":
            return sentences.NO_PUBLIC_ID % (whole, guess(name, tuple(OF_ANDROID)))
        if not self.is_there:
            return sentences.NO_LIST % (whole, self.path)
        near = guess(name, tuple(it[2] for it in self.listed.ids if it[1] == kind))
        near = near or guess(kind, tuple(dict.fromkeys(it[1] for it in self.listed.ids)))
        return sentences.NOT_LISTED % (whole, self.path, near)

    def expanded(self, line: bytes) -> Expanded:
        """A line with ids in the place of the names in it. Names within texts stay."""
        if b"@" not in line or b"/" not in line or line.lstrip(b" ").startswith(b"#"):
            return Expanded(line)
        shifts: List[Shift] = []
        unknown: List[Unknown] = []
        made, end = b"", 0
        for start, word in name_words(line):
            column = characters(line[:start]) + 1
            number, why = self.read(word)
            if number is None:
                unknown.append(Unknown(column, why))
                continue
            given = b"@%x" % number
            made += line[end:start] + given
            shifts.append(Shift(characters(made) - len(given) + 1, len(word) - len(given)))
            end = start + len(word)
        return Expanded(made + line[end:], shifts, unknown)

    def read(self, word: bytes) -> Tuple[Optional[int], str]:
        """The id of a word that is a name; or nothing, and why it has none."""
        found = re.fullmatch(NAME, word)
        assert found is not None
        plus, package, kind, name = (part.decode() if part else "" for part in found.groups())
        if plus:
            from . import sentences

            return None, sentences.MAKES_NO_IDS % (kind, name, LIST)
        return self.number(package, kind, name), self.unknown(package, kind, name)

    def named(self, line: bytes) -> bytes:
        """A line with names in the place of its ids, where the list has them."""

        def name(found: "re.Match[bytes]") -> bytes:
            known = self.name(int(found[1], 16))
            return known.encode() if known else found[0]

        return re.sub(ID, name, line) if b"@" in line else line


def characters(text: bytes) -> int:
    """How many characters the beginning of a line has."""
    return len(text.decode("utf-8", "replace"))


def name_words(line: bytes) -> List[Tuple[int, bytes]]:
    """Where the names of a line are: the place of each, and the name. What follows `text V` or `res @HEX text` is a
    text, in which there are none."""
    words = [(it.start(), it[0]) for it in re.finditer(WORD, line[:-1] if line.endswith(b"\r") else line)]
    # a line of a stack of windows: `in 0 text v1 ..`
    first = 2 if words and words[0][1] == b"in" else 0
    plain = [word for _, word in words[first:]]
    if plain[:1] == [b"text"]:
        words = words[: first + 2]
    elif plain[:1] == [b"res"] and plain[2:3] == [b"text"]:
        words = words[: first + 2]
    return [(start, word) for start, word in words if re.fullmatch(NAME, word)]


@functools.lru_cache(64)
def listed(path: str, stamp: Tuple[int, int]) -> Names:
    """The list of a file, which is read again once its time or its size is another one."""
    return Names(files.read(path), path)


def of_file(path: str) -> Ids:
    """The names of a list; without one there are Android's alone."""
    try:
        found = os.stat(path)
    except OSError:
        return Ids(Names(), path, False)
    return Ids(listed(path, (found.st_mtime_ns, found.st_size)), path)


def beside(folder: str, given: Optional[str] = None) -> Ids:
    """The names for the scripts of a folder: those of a list that was given, or of its ids.txt."""
    if given is not None and not os.path.exists(given):
        raise Failure("%s cannot be read: No such file or directory" % given, NOT_RUN)
    return of_file(given if given is not None else os.path.join(folder, LIST))


NONE = Ids(Names(), LIST, False)
