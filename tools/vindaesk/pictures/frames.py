"""The picture of a frame, as the program writes it."""
from typing import Iterator, List, NamedTuple, Optional

from ..common.failures import Failure
from ..scripts import replies, script
from ..scripts.replies import REASONS, Answer, Part, Refused
from ..scripts.script import Script, Window
from .png import Picture

# how many pixels one line may ask for
MOST = 65536


class Frame(NamedTuple):
    """Of the end of a part of a script: the picture of the last frame, or the number of the refusal by which there is
    none; and whether the part's last line is that frame."""

    picture: Optional[Picture]
    why: int
    is_new: bool


def asked(window: Optional[Window], word: bytes = b"pixels") -> List[bytes]:
    """The lines that ask for a whole picture by this word, row after row; without a window, one that is refused."""
    width, height = window or (1, 1)
    rows = MOST // width
    tops = range(0, height, rows)
    return [b"%s 0 %d %d %d" % (word, top, width, min(rows, height - top)) for top in tops]


def parts_of(lines: List[bytes], each_frame: bool) -> List[Part]:
    """A script in parts that end at each frame, or at the end alone, each followed by one that asks for a picture."""
    parts, begun, window = [], 0, None
    for number, line in enumerate(lines, 1):
        window = script.window_of(line) or window
        if number == len(lines) or (each_frame and script.is_frame(line)):
            parts += [Part(lines[begun:number], begun + 1), Part(asked(window))]
            begun = number
    return parts or [Part([], 1), Part(asked(None))]


def frame_of(answer: Answer, window: Optional[Window], is_new: bool) -> Frame:
    """What the lines of `asked` were answered."""
    for refusal in answer.refusals.values():
        return Frame(None, refusal.number, is_new)
    return Frame(Picture(*(window or (0, 0)), [bytes.fromhex(row.decode()) for row in answer.replies]), 0, is_new)


def frames(made: Script, refused: Refused, each_frame: bool = False) -> Iterator[Frame]:
    """What there is to see after each part of a script. Refused lines are reported on the way."""
    window, is_new = None, False
    for part, answer in replies.answers(parts_of(made.lines, each_frame), made.folder):
        if part.first:
            refused.add_all(part, answer)
            window = script.last_window(part.lines) or window
            last = len(part.lines) - 1
            is_new = last >= 0 and script.is_frame(part.lines[last]) and last not in answer.refusals
        else:
            yield frame_of(answer, window, is_new)


def picture_of(frame: Frame) -> Picture:
    """The picture of a frame, or the failure that says why there is none."""
    if frame.picture is None:
        raise Failure("there is no picture: " + REASONS.get(frame.why, "refusal %d" % frame.why))
    return frame.picture


def composed(made: Script, refused: Refused, size: Window) -> Picture:
    """The picture of this size, from the point 0 0 on, that the windows of a stack make after a script. Refused lines
    are reported."""
    parts = [Part(made.lines, 1), Part(asked(size, b"compose"))]
    (part, answer), (_, last) = replies.answers(parts, made.folder, "stack")
    refused.add_all(part, answer)
    return Picture(*size, [bytes.fromhex(row.decode()) for row in last.replies])
