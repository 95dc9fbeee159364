"""What the program makes of a layout: its picture and which lines are refused, and then its views, which take as long
to be followed."""
import hashlib
import itertools
from dataclasses import dataclass, field
from typing import Dict, List, Optional, Tuple

from ..lint import refused_lines
from ..pictures import frames, png
from ..pictures.png import Picture
from ..scripts import replies, script
from ..scripts.replies import Answer, Part
from ..scripts.script import Script, Window
from ..views import placement, view_tree
from ..views.placement import Placed

# how hard pictures are packed: they go no further than this machine
LEVEL = 1
# how many refused lines are shown
MOST = 100


@dataclass
class Drawn:
    """A script that was carried out: its window, its picture as a PNG file with the digest that names it; the refused
    lines; why there is no picture; and what the program answered. Once that is followed there are its views, and those
    that lines `add` made, by the numbers of the lines, from 1."""

    window: Optional[Window] = None
    picture: bytes = b""
    digest: str = ""
    refused: List[refused_lines.Finding] = field(default_factory=list)
    why: str = ""
    answered: List[Tuple[Part, Answer]] = field(default_factory=list)
    views: List[Placed] = field(default_factory=list)
    added: Dict[int, int] = field(default_factory=dict)

    @property
    def is_good(self) -> bool:
        """Whether no line is refused and there is a picture."""
        return not self.refused and not self.why


def packed(picture: Picture) -> Tuple[bytes, str]:
    """A picture as a PNG file, and the name by which it is asked for."""
    body = png.written(picture, level=LEVEL)
    return body, hashlib.sha256(body).hexdigest()[:32]


def frame_lines(lines: List[bytes]) -> List[int]:
    """The numbers of the lines that ask for a frame, from 1."""
    return [number for number, line in enumerate(lines, 1) if script.is_frame(line)]


def up_to(made: Script, frame: int) -> Script:
    """A script up to one of its frames, counted from 1; 0 is all of it."""
    numbers = frame_lines(made.lines)
    if not 0 < frame <= len(numbers):
        return made
    found = Script(made.lines[: numbers[frame - 1]], made.folder, made.written[: numbers[frame - 1]], made.ids)
    found.file = made.file
    return found


def refused_in(made: Script, answered: List[Tuple[Part, Answer]]) -> List[refused_lines.Finding]:
    """The first refused lines of a script."""
    checker = refused_lines.Checker(made)
    found = (it for part, answer in answered if part.first for it in checker.part(part, answer))
    return list(itertools.islice(found, MOST))


def drawn(made: Script) -> Drawn:
    """What the program makes of a script, less its views."""
    found = Drawn(script.last_window(made.lines))
    asked = [Part([b"bounds"]), Part(frames.asked(found.window))]
    found.answered = list(replies.answers([*view_tree.parts_of(made.lines), *asked], made.folder))
    found.refused = refused_in(made, found.answered)
    (_, pixels), (_, bounds) = found.answered.pop(), found.answered[-1]
    frame = frames.frame_of(pixels, found.window, True)
    refusal = next(iter(bounds.refusals.values()), None)
    if refusal or frame.picture is None:
        number = refusal.number if refusal else frame.why
        found.why = "there is no picture: " + replies.REASONS.get(number, "refusal %d" % number)
    else:
        found.picture, found.digest = packed(frame.picture)
    return found


def follow(made: Script, found: Drawn) -> None:
    """Puts the views into what was made of a script."""
    answered, found.answered = found.answered, []
    tree = view_tree.Tree(made.folder, made.ids)
    for part, answer in answered:
        tree.follow(part, answer)
        last = len(part.lines) - 1
        if part.lines and script.words_of(part.lines[last])[:1] == [b"add"] and last not in answer.refusals:
            found.added[part.first + last] = int(answer.replies[-1][1:])
    if not found.why and answered:
        found.views = placement.all_placed(tree.root, answered[-1][1].replies)
