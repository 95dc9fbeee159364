"""A page in HTML of what a script does: its frames, the views after each, and the touches in between."""
import base64
import hashlib
import json
import os
from typing import Container, Dict, Iterator, List, Optional

from ..common import embedding
from ..common.failures import Failure
from ..pictures import frames, png
from ..pictures.png import Picture
from ..scripts import replies, script
from ..scripts.replies import Answer, Part, Refused
from ..scripts.script import Script, Window
from ..views import placement, view_tree
from ..views.placement import Placed

TEMPLATE = os.path.join(os.path.dirname(os.path.abspath(__file__)), "page.html")
TOUCHES = (b"down", b"move", b"up", b"cancel")
BOUNDS = [b"bounds"]

Record = Dict[str, object]


class Pool:
    """Things that are the same in several frames, each kept once."""

    def __init__(self) -> None:
        self.rows: List[Record] = []
        self.places: Dict[bytes, int] = {}

    def place(self, key: bytes, row: Record) -> int:
        """The place of a thing, which is added if it is new."""
        if key not in self.places:
            self.places[key] = len(self.rows)
            self.rows.append(row)
        return self.places[key]


def is_touch(line: bytes) -> bool:
    """Whether a line moves a pointer."""
    return script.words_of(line)[:1] in [[word] for word in TOUCHES]


def parts_of(lines: List[bytes]) -> Iterator[Part]:
    """A script in parts that end where a reply counts, and touches by themselves. After each frame come a part that
    asks for the bounds and one that asks for the picture."""
    window: Optional[Window] = None
    for part in view_tree.parts_of(lines, (*view_tree.REPLYING, *TOUCHES)):
        own = list(part.lines)
        window = script.last_window(own) or window
        if len(own) > 1 and is_touch(own[-1]):
            yield Part(own[:-1], part.first)
            part = Part(own[-1:], part.first + len(own) - 1)
        yield part
        if script.is_frame(own[-1]):
            yield Part(BOUNDS)
            yield Part(frames.asked(window))


def picture_record(picture: Picture, body: bytes) -> Record:
    """A picture as the page has it."""
    url = "data:image/png;base64," + base64.b64encode(body).decode()
    return {"width": picture.width, "height": picture.height, "url": url}


class Recording:
    """What there is to show of a script, put together as answers come: at most a number of frames."""

    def __init__(self, made: Script, most: int, hidden: Container[str] = ()):
        self.tree = view_tree.Tree(made.folder, made.ids, made.written)
        self.most, self.hidden = most, hidden
        self.pictures, self.views = Pool(), Pool()
        # what made the views, by their numbers
        self.sources: Dict[int, Optional[Record]] = {}
        self.steps: List[Record] = []
        self.events: List[Record] = []
        self.more = 0
        # the line of the last frame, 0 where it was refused; the views after it; why it has no picture
        self.line = 0
        self.placed: List[Placed] = []
        self.why = 0
        self.window: Optional[Window] = None

    def take(self, part: Part, answer: Answer) -> None:
        """Takes the answer of the next part."""
        if part.first:
            self.follow(part, answer)
        elif part.lines == BOUNDS:
            self.placed = [] if answer.refusals else placement.all_placed(self.tree.root, answer.replies)
        elif self.line:
            frame = frames.frame_of(answer, self.window, True)
            self.why = frame.why
            if frame.picture:
                self.add(frame.picture)

    def follow(self, part: Part, answer: Answer) -> None:
        """Takes the lines of the script itself."""
        self.tree.follow(part, answer)
        self.window = script.last_window(part.lines) or self.window
        last = len(part.lines) - 1
        is_carried_out = last not in answer.refusals
        self.line = part.first + last if is_carried_out and script.is_frame(part.lines[last]) else 0
        if is_carried_out and is_touch(part.lines[last]):
            words = [word.decode() for word in script.words_of(part.lines[last])]
            self.events.append({
                "line": part.first + last, "words": words, "replies": [it.decode() for it in answer.replies]
            })

    def add(self, picture: Picture) -> None:
        """Adds a frame. The touches that follow belong to it."""
        self.events = []
        if len(self.steps) == self.most:
            self.more += 1
            return
        body = png.written(picture)
        places = []
        for it in self.placed:
            record = placement.state_record(it)
            if it.view.of_app:
                record["app"] = placement.mark(it.view).strip()
            if it.view.number not in self.sources:
                self.sources[it.view.number] = placement.source_record(it.view.source, self.hidden)
            places.append(self.views.place(json.dumps(record).encode(), record))
        place = self.pictures.place(hashlib.sha256(body).digest(), picture_record(picture, body))
        self.steps.append({"line": self.line, "picture": place, "views": places, "events": self.events})


def recorded(made: Script, refused: Refused, most: int, hidden: Container[str] = ()) -> Recording:
    """What there is to show of a script, without places in the files `hidden`. Refused lines are reported on the way."""
    found = Recording(made, most, hidden)
    for part, answer in replies.answers(list(parts_of(made.lines)), made.folder):
        if part.first:
            refused.add_all(part, answer)
        found.take(part, answer)
    if not found.steps:
        refused.end()
        why = found.why or (37 if found.window else 33)
        raise Failure("there is no frame to show: " + replies.REASONS.get(why, "refusal %d" % why))
    return found


def page(title: str, found: Recording) -> bytes:
    """The whole page."""
    data: Record = {"title": title, "steps": found.steps, "pictures": found.pictures.rows, "views": found.views.rows,
                    "sources": found.sources, "more": found.more}
    return embedding.page(TEMPLATE, title, data)
