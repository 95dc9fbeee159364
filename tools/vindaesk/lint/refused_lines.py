"""Which lines of a script are refused: where, and why. Of a layout file, which element and attribute of it. What says
why is loaded where a line is refused, since that takes half of a start."""
from __future__ import annotations

from typing import TYPE_CHECKING, Iterator, List, NamedTuple, Optional

from ..common.messages import printable
from ..scripts import replies, script
from ..scripts.replies import Answer, Part, Refusal
from ..scripts.script import Script
from ..views.facts import Place
from . import github

if TYPE_CHECKING:
    from ..layouts.faults import Files

# how many lines are run together
TOGETHER = 1024
SETTINGS = (b"dpi", b"res")


class Finding(NamedTuple):
    """A line that is refused: its file and number, the column of the word that is meant, both from 1, number and name
    of the refusal, and why."""

    file: str
    line: int
    column: int
    title: str
    why: str


class Checker:
    """Finds the refused lines of a script."""

    def __init__(self, made: Script):
        self.made = made
        self.settings: List[bytes] = []
        self._files: Optional[Files] = None

    def files(self) -> Files:
        """The layout files of the script, with the settings up to now."""
        from ..layouts import faults

        if self._files is None:
            self._files = faults.Files(self.made.folder, self.made.ids.listed)
        self._files.settings = self.settings
        return self._files

    def finding(self, number: int, refusal: Refusal) -> Finding:
        """The refused line of a number."""
        from ..scripts import reasons

        line, place = self.made.lines[number - 1], self.made.place(number)
        found = reasons.reason(line, refusal.number, refusal.text)
        expanded = self.made.expanded(number)
        if expanded.unknown:
            column, why = expanded.unknown[0]
            return Finding(place.file, place.number, column, found.title, why)
        words = script.words_of(line)
        why = found.why
        if words[:1] == [b"inflate"] and len(words) > 1:
            why = self.files().detail(words[1].decode("utf-8", "replace"), refusal) or why
        return Finding(place.file, place.number, expanded.written_column(found.column), found.title, why)

    def part(self, part: Part, found: Answer) -> Iterator[Finding]:
        """The refused lines of a part."""
        for place, line in enumerate(part.lines):
            if place in found.refusals:
                yield self.finding(part.first + place, found.refusals[place])
            elif line.lstrip(b" ").startswith(SETTINGS):
                self.settings.append(line)


def findings(made: Script, form: str = "run") -> Iterator[Finding]:
    """The refused lines of a script that the program runs in this form, `run` or `stack`, as they come."""
    checker = Checker(made)
    lines = made.lines
    parts = [Part(lines[at : at + TOGETHER], at + 1) for at in range(0, len(lines), TOGETHER)]
    for part, answer in replies.answers(parts, made.folder, form):
        yield from checker.part(part, answer)


def plain(found: Finding) -> str:
    """A finding as compilers write theirs."""
    return printable("%s:%d:%d: %s: %s" % found)


def as_command(found: Finding) -> str:
    """A finding as GitHub's runners take it, which show it beside the line."""
    return github.command("error", Place(found.file, found.line, found.column), found.title, found.why)


FORMATS = {"plain": plain, "github": as_command}
