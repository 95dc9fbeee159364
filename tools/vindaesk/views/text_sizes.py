"""How much room texts need, by what the program answers when each of them has as much as it asks for."""
import itertools
from typing import Dict, Iterator, List, NamedTuple, Set, Tuple

from ..scripts import replies
from ..scripts.replies import Answer, Part
from .placement import Placed
from .view_tree import View

LARGEST = 16777215
VERBS = ("left_of", "right_of", "above", "below", "align_left", "align_top", "align_right", "align_bottom", "start_of",
         "end_of", "align_start", "align_end")
PARENT_VERBS = ("parent_left", "parent_top", "parent_right", "parent_bottom", "parent_start", "parent_end", "center",
                "center_h", "center_v")
# the hooks that a change of sizes fires take further frames
FRAMES = [b"frame"] * 3


class Need(NamedTuple):
    """What a text needs in the width that its view has: the view's width for one character a line, and its height."""

    width: int
    height: int


class Freeing:
    """The lines that give views, one after the other, all the room that they want."""

    def __init__(self) -> None:
        self.freed: Set[int] = set()
        self.hidden: Set[int] = set()

    def path(self, view: View) -> Iterator[bytes]:
        """Lines after which a view is alone on its way from the root, and nothing there limits it."""
        around = view.parent
        if around is None:
            return
        yield from self.path(around)
        for sibling in around.children.values():
            is_hidden = sibling.number in self.hidden
            if sibling is view and (is_hidden or view.visibility == "gone"):
                self.hidden.discard(sibling.number)
                yield b"visible v%d visible" % sibling.number
            elif sibling is not view and not is_hidden:
                self.hidden.add(sibling.number)
                yield b"visible v%d gone" % sibling.number
        if around.number not in self.freed:
            self.freed.add(around.number)
            yield b"size v%d %d %d" % (around.number, LARGEST, LARGEST)
            yield from unlimited(around)

    def lines(self, it: Placed) -> List[bytes]:
        """Lines that ask how high a view wants to be in its width, and then how wide for a single character."""
        number = it.view.number
        width = it.bounds[2] - it.bounds[0] if it.bounds else 0
        first = [*self.path(it.view), *unlimited(it.view), b"min v%d 0 0" % number]
        ask = [*FRAMES, b"bounds v%d" % number]
        narrow = [b"size v%d wrap wrap" % number, b"text v%d x" % number]
        return [*first, b"size v%d %d wrap" % (number, width), *ask, *narrow, *ask]


def unlimited(view: View) -> Iterator[bytes]:
    """Lines that end what a view's parent makes of its size."""
    yield b"weight v%d 0" % view.number
    if view.kind == "ScrollView":
        yield b"flag v%d fill no" % view.number
    if view.parent and view.parent.kind == "RelativeLayout":
        for verb in VERBS:
            yield b"rule v%d %s @0" % (view.number, verb.encode())
        for verb in PARENT_VERBS:
            yield b"rule v%d %s no" % (view.number, verb.encode())


def sizes_in(answer: Answer, number: int) -> List[Tuple[int, int]]:
    """The sizes of a view in the replies of `bounds`."""
    found = [line.split(b" ") for line in answer.replies if line.startswith(b"v%d " % number)]
    return [(int(it[3]) - int(it[1]), int(it[4]) - int(it[2])) for it in found if len(it) == 5]


def is_still(answer: Answer) -> bool:
    """Whether no hook fired in the frames of an answer: one may have changed what the text needs."""
    return all(line == b"settled 0" for line in answer.replies if line.startswith((b"settled", b"again")))


def needs(parts: List[Part], folder: str, views: List[Placed]) -> Dict[int, Need]:
    """What each text that is laid out needs, by the number of its view; none from where a hook fires on."""
    texts = [it for it in views if it.view.text and it.bounds]
    freeing = Freeing()
    asked = [Part(freeing.lines(it)) for it in texts]
    found: Dict[int, Need] = {}
    answers = replies.answers([*parts, *asked], folder) if texts else iter(())
    for it, (_, answer) in zip(texts, itertools.islice(answers, len(parts), None)):
        if not is_still(answer):
            break
        sizes = sizes_in(answer, it.view.number)
        if len(sizes) == 2:
            found[it.view.number] = Need(sizes[1][0], sizes[0][1])
    return found
