"""A script that was carried out once, and further questions about what it leaves: each is the same script with lines
after it."""
import itertools
from typing import Iterator, List, NamedTuple, Sequence, Tuple

from ..program import process
from ..scripts import replies, script
from ..scripts.replies import Answer, Part
from ..views.placement import Placed

# the hooks that a change of sizes fires take further frames
FRAMES = [b"frame"] * 3


class Run(NamedTuple):
    """The parts of a script, and the folder of its layout files."""

    parts: Tuple[Part, ...]
    folder: str

    def answers(self, asked: Sequence[Part]) -> Iterator[Answer]:
        """The answers to parts that follow the script."""
        found = replies.answered([*self.parts, *asked], self.folder, "run")
        return (answer for _, answer in itertools.islice(found, len(self.parts), None))

    def focus(self, side: str, number: int) -> int:
        """The number of the view that gets the focus next from a view to a side; 0 where none does."""
        lines = [line for part in self.parts for line in part.lines]
        written, status = process.ran(["focus", side, "v%d" % number], script.joined(lines), self.folder)
        if status not in (0, 1):
            raise process.failed(status)
        last = written.rstrip(b"\n").rpartition(b"\n")[2]
        return int(last[len(b"focus v") :]) if last.startswith(b"focus v") else 0


def bounds_lines(views: Sequence[Placed]) -> List[bytes]:
    """What `bounds` writes of views that lie where they do."""
    found = []
    for it in views:
        if it.bounds is None:
            found.append(b"v%d none" % it.view.number)
        else:
            scroll = b"" if it.scroll is None else b" scroll %d" % it.scroll
            found.append(b"v%d %d %d %d %d" % (it.view.number, *it.bounds) + scroll)
    return found
