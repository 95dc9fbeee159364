"""Which word of a refused line is meant, and why it is refused. Whether a line is refused, and for what, the program
says; which word does not fit the grammar does."""
import re
from typing import NamedTuple, Optional

from . import grammar, refusals, script, sentences
from .grammar import Misfit

# where the bytes of a saved state are wrong
PLACE = re.compile(rb" at ([0-9]+)$")
# a line of a stack of windows: what is before the line of a script in it
WORD = re.compile(rb"[^ ]+")
OF_WINDOW = re.compile(rb" *in +[^ ]+ +")
NO_PANE = 43
MARK_OF_ORDER = b"\xef\xbb\xbf"


class Reason(NamedTuple):
    """Why a line is refused: the column of the word that is meant, from 1, the number and the name of the refusal, and
    the reason."""

    column: int
    title: str
    why: str


def undecoded(line: bytes) -> Optional[Misfit]:
    """Where a line is no UTF-8."""
    try:
        line.decode()
    except UnicodeDecodeError as error:
        column = len(line[: error.start].decode()) + 1
        return Misfit(column, sentences.NO_UTF8 % line[error.start])
    return None


def unfit(line: bytes, number: int) -> Optional[Misfit]:
    """The word of a line that has no form, is outside its bounds, or is too much, by the number of the refusal."""
    if number == 32:
        return Misfit(len(line[: script.MAX_LINE].decode("utf-8", "replace")) + 1, refusals.REFUSALS[32].why)
    if number not in (30, 31) or undecoded(line):
        return undecoded(line)
    if line.startswith(MARK_OF_ORDER):
        return Misfit(1, sentences.MARK)
    reading = grammar.read(line.decode())
    return reading.misfit if number == 31 else grammar.out_of_bounds(reading)


def meant(line: str, number: int, text: bytes) -> Misfit:
    """The word of a line that a refusal is about, by what the program says of it, and what that means."""
    edit = grammar.no_edit(line) if number == 25 else None
    if edit:
        return Misfit(edit.column, sentences.NO_HOOK_EDIT)
    words = grammar.read(line).words
    why = refusals.why(number, [word.text for word in grammar.words_from(line)])
    about = refusals.REFUSALS[number].about if number in refusals.REFUSALS else ()
    about = refusals.FILE if b" element " in text else about
    for name in about:
        named = [word for word in words if word.slot and word.slot.name == name]
        if named and number == 28 and len({word.text for word in named}) > 1:
            return Misfit(named[0].column, sentences.A_VIEW)
        if named:
            place = PLACE.search(text)
            return Misfit(named[0].column + (2 * int(place[1]) if place and name == "HEX" else 0), why)
    return Misfit(next(grammar.words_from(line)).column, why)


def reason(line: bytes, number: int, text: bytes) -> Reason:
    """Why a line is refused: by the number of the refusal, and what the program says of it, as `refused 28 NoView`."""
    line = script.without_return(line)
    before = OF_WINDOW.match(line)
    inner = line[before.end() :] if before else line
    if number == NO_PANE:
        column = next((it.start() for it in list(WORD.finditer(line))[1:]), 0) + 1
        return Reason(column, sentences.NO_PANE, sentences.NO_PANE_WHY)
    misfit = unfit(inner, number) or meant(inner.decode() or "?", number, text)
    title = " ".join(text.decode("utf-8", "replace").split(" ")[1:3])
    shift = len(line[: before.end()].decode("utf-8", "replace")) if before else 0
    return Reason(misfit.column + shift, title, misfit.why)
