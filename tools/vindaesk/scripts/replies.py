"""Which reply belongs to which line, and which lines were refused.

The program says no more of a line than its reply, which may be empty. So a script is run in parts, after each of which
comes a line that is always refused: its refusal has its number, and ends the replies of its part.
"""
import re
from typing import Dict, Iterator, List, NamedTuple, Sequence, Tuple

from ..common import progress
from ..common.failures import Failure, WRONG
from ..common.messages import say, tool
from ..program import process
from . import script
from .script import Script

MARK = b"?"
# no view, window, root, settled frame or pointer of this kind: what a line before it should have made
FOLLOWING = (28, 33, 34, 36, 37, 38)
# what makes these; and refusals by which it is not known what a line should have made
MAKING = [[b"window"], [b"add"], [b"inflate"], [b"id"], [b"frame"], [b"down"]]
UNREAD = (30, 31, 32)
# why there is no picture and no bounds, by the number of the refusal
REASONS = {
    33: "the script opens no window",
    37: "no frame came after the last window",
    36: "the last frame has not settled",
    34: "the tree has no root",
}
REFUSED = re.compile(rb"line ([1-9][0-9]*): (refused ([0-9]+) [A-Za-z]+.*)", re.DOTALL)


class Part(NamedTuple):
    """Lines that are run together. `first` is the number of the first one in the user's script, or 0 where a tool has
    added them."""

    lines: Sequence[bytes]
    first: int = 0


class Refusal(NamedTuple):
    """A line that was refused: its place in its part, the number of the reason, and what the program says."""

    place: int
    number: int
    text: bytes


class Answer(NamedTuple):
    """What a part was answered: the replies of its lines, and its refusals by the place of the line."""

    replies: List[bytes]
    refusals: Dict[int, Refusal]


class Refused:
    """Reports which lines of a script were refused, each with its place and the reason. A script may be run several
    times: a line that is refused again for the same reason counts once.

    Where a line that makes views was refused, most that follow are too. Those that only name what is not there are
    counted then, and not listed.
    """

    MOST = 50

    def __init__(self, made: Script, is_silent: bool = False) -> None:
        self.made = made
        self.count = 0
        self.known: Dict[Tuple[int, bytes], Refusal] = {}
        self.most = 0 if is_silent else self.MOST
        self.shown = 0
        # the names of refusals that were not listed, since they may follow from others, and how many there are
        self.following: Dict[str, int] = {}
        self.is_broken = False

    def add(self, part: Part, refusal: Refusal) -> None:
        """Counts a refused line, and reports it."""
        number = part.first + refusal.place
        if (number, refusal.text) in self.known:
            return
        self.known[number, refusal.text] = refusal
        self.count += 1
        if self.is_broken and refusal.number in FOLLOWING:
            name = refusal.text.decode().split(" ")[2]
            self.following[name] = self.following.get(name, 0) + 1
            return
        self.is_broken |= refusal.number in UNREAD or script.words_of(part.lines[refusal.place])[:1] in MAKING
        self.shown += 1
        if self.shown <= self.most:
            say(self.sentence(number, refusal))

    def sentence(self, number: int, refusal: Refusal) -> str:
        """The place of a line, and why it was refused."""
        # loaded where a line is refused, since that takes a tenth of a start
        from . import reasons

        place, expanded = self.made.place(number), self.made.expanded(number)
        found = reasons.reason(self.made.lines[number - 1], refusal.number, refusal.text)
        column = expanded.written_column(found.column)
        return "%s:%d: %s: %s" % (place.place(), column, found.title, found.why)

    def first(self) -> str:
        """The place of the first refused line and why it was refused; nothing where none was."""
        (number, _), refusal = next(iter(self.known.items()), ((0, b""), None))
        return self.sentence(number, refusal) if refusal else ""

    def add_all(self, part: Part, answer: Answer) -> None:
        """Counts the refused lines of a part."""
        for refusal in answer.refusals.values():
            self.add(part, refusal)

    def end(self) -> int:
        """Reports how many more there are, and returns the status."""
        if self.most and self.shown > self.MOST:
            say("%d more lines are refused" % (self.shown - self.MOST))
        if self.most and self.following:
            count = sum(self.following.values())
            say("%d more %s refused, by %s, as may follow from that; %s lists all" % (
                count, "line is" if count == 1 else "lines are", " or ".join(self.following), tool("check")
            ))
        return WRONG if self.count else 0


def answers(parts: Sequence[Part], folder: str, form: str = "run") -> Iterator[Tuple[Part, Answer]]:
    """Each part with its answer, as it comes, of a script that the program runs in this form. A terminal shows how many
    there were, where they take long."""
    return progress.counted(answered(parts, folder, form), len(parts), "parts of the script")


def answered(parts: Sequence[Part], folder: str, form: str) -> Iterator[Tuple[Part, Answer]]:
    """The same without that."""
    whole = script.joined([line for part in parts for line in (*part.lines, MARK)])
    left = iter(parts)
    part = next(left, None)
    answer, before = Answer([], {}), 0
    for text in process.lines_of(whole, folder, form):
        refused = REFUSED.fullmatch(text)
        place = int(refused[1]) - before - 1 if refused else 0
        if not refused:
            answer.replies.append(text)
        elif part is not None and place == len(part.lines):
            yield part, answer
            answer, before = Answer([], {}), before + place + 1
            part = next(left, None)
        else:
            answer.refusals[place] = Refusal(place, int(refused[3]), refused[2])
    if part is not None:
        raise Failure("the program wrote no answer to line %d of what it was given" % (before + len(part.lines) + 1))
