"""The state of a preview: what each configuration shows, kept up to date by a thread as files change."""
import os
import sys
import threading
from dataclasses import dataclass, field, replace
from typing import Dict, List, Optional, Set, Tuple

from ..common.failures import WRONG, Failure
from ..common.messages import printable
from ..session import LineRefused
from ..testing.configurations import Configuration
from ..views import placement
from ..views.placement import Placed
from . import drawing, edits, findings, spots, watcher
from .drawing import Drawn
from .spots import Spots
from .subjects import Layout, Subject
from .touches import Live

# how many pictures are kept, for pages that still show one
PICTURES = 64
# how long no file changes before lint looks at it, in seconds
QUIET = 0.3
# how long all else waits for a new picture to be sent, and a question for the views of one, in seconds
SENDING, FOLLOWING = 0.1, 10
# how long a thread of Python may go on while others wait, in seconds: what draws reads from the program piece by piece,
# and would wait ten times as long for each as lint works
SWITCH = 0.0005

Record = Dict[str, object]


@dataclass
class Shown:
    """What a configuration shows: the layout and what was drawn of it when it was good last; the values in its files;
    what lint finds, None until it was asked; and what is wrong now. Views and values follow the picture: then it is
    whole."""

    version: int = 0
    # the version in which it was drawn
    drawn_in: int = 0
    layout: Optional[Layout] = None
    drawn: Drawn = field(default_factory=Drawn)
    spots: Spots = field(default_factory=Spots)
    findings: Optional[List[Record]] = None
    messages: List[str] = field(default_factory=list)
    is_old: bool = False
    is_whole: bool = False


def view_record(it: Placed, shown: Shown) -> Record:
    """A view as the page has it."""
    place = shown.layout.places.get(it.view.number) if shown.layout else None
    of_view = shown.spots.of_views.get(it.view.number, [])
    values = [{"name": spot.name, "value": spot.text, "file": spot.file, "line": spot.line} for spot in of_view]
    element = {"name": place.element, "file": shown_path(place.file), "line": place.line, "column": place.column,
               "notes": list(place.notes)} if place else None
    kind = place.element.rpartition(".")[2] if place else it.view.kind
    return {**placement.record(it), "kind": kind, "answer": it.view.answer, "padding": it.view.given.get("padding", ""),
            "margins": it.view.given.get("margins", ""), "element": element, "values": values}


def shown_path(path: str) -> str:
    """A path as the page has it: from the current folder, if it is below that."""
    found = os.path.relpath(path)
    return path if found.startswith(os.pardir) else found


def said(error: Exception) -> str:
    """What went wrong. A mistake of this tool is said too, so that the page goes on following the files."""
    return str(error) if isinstance(error, Failure) else "the preview failed: %s: %s" % (type(error).__name__, error)


def spots_of(layout: Layout, drawn: Drawn) -> Spots:
    """The values of views in the files of a layout."""
    if layout.places:
        places = {number: (it.file, it.line, it.column) for number, it in layout.places.items()}
        return spots.of_places(places)
    return spots.of_script(layout.script, drawn.views, drawn.added)


class Preview:
    """All configurations of a subject."""

    def __init__(self, subject: Subject, can_write: bool = False):
        self.subject, self.can_write = subject, can_write
        self.shown: Dict[str, Shown] = {}
        # pictures by their digests, and the digests of those that were sent
        self.pictures: Dict[str, bytes] = {}
        self.sent: Set[str] = set()
        self.version = 0
        # how many pages there are
        self.pages = 0
        # how many times all configurations were begun to be drawn
        self.draws = 0
        self.first = ""
        self.changed = threading.Condition()
        # what has to be carried out one after another: reading, and what the live program is asked
        self.reading, self.asking = threading.Lock(), threading.Lock()
        self.writer = edits.Writer()
        self.live: Optional[Live] = None
        # of which layout, up to which of its frames, the live program is
        self.live_of: Tuple[Optional[Layout], int] = (None, 0)
        self.ended, self.stale, self.drawn = threading.Event(), threading.Event(), threading.Event()
        self.threads = [threading.Thread(target=it, daemon=True) for it in (self.watch, self.draw, self.look)]

    # threads

    def start(self) -> None:
        """Begins to follow the files."""
        sys.setswitchinterval(SWITCH)
        for it in self.threads:
            it.start()

    def end(self) -> None:
        """Ends the threads and the live program."""
        for event in (self.ended, self.stale, self.drawn):
            event.set()
        for it in self.threads:
            it.join(5)
        self.drop_live()
        self.subject.close()
        with self.changed:
            self.changed.notify_all()

    def watch(self) -> None:
        """Follows the files."""
        self.stale.set()
        watcher.follow(self.subject.files, self.stale.set, self.ended)

    def draw(self) -> None:
        """Draws all configurations each time that files changed: first the one that is looked at."""
        while not self.ended.is_set():
            self.stale.wait()
            self.stale.clear()
            if not self.ended.is_set():
                self.draw_all()

    def draw_all(self) -> None:
        """Draws all configurations, as long as no file changes again. Nothing else is done until the first picture was
        sent."""
        why = ""
        self.draws += 1
        with self.reading:
            try:
                self.subject.load()
            except Exception as error:
                why = said(error)
        for number, wanted in enumerate(self.ordered()):
            made = None if self.stale.is_set() else self.made(wanted, why)
            if made is None:
                return
            self.put(wanted.name, made)
            if number == 0:
                self.let_send(made.drawn.digest)
            self.complete(wanted.name)
        self.drawn.set()

    def let_send(self, digest: str) -> None:
        """Waits until a picture was sent, if there is a page that asks for it."""
        with self.changed:
            if self.pages and digest:
                self.changed.wait_for(lambda: digest in self.sent or self.stale.is_set(), SENDING)

    def look(self) -> None:
        """Has lint look at what was drawn, as long as nothing else is."""
        while not self.ended.is_set():
            self.drawn.wait()
            self.drawn.clear()
            # while a file changes often, lint would make its pictures late
            is_busy = self.stale.wait(QUIET)
            for wanted in self.ordered() if not is_busy else ():
                if not (self.stale.is_set() or self.drawn.is_set() or self.ended.is_set()):
                    self.find(wanted.name)

    def ordered(self) -> List[Configuration]:
        """The configurations, the one that is looked at first."""
        return sorted(self.subject.configurations, key=lambda it: it.name != self.first)

    def made(self, wanted: Configuration, why: str) -> Optional[Shown]:
        """What a configuration shows now, less its views; why it cannot be read, if it cannot. None where a file
        changes meanwhile."""
        shown = Shown(messages=why.splitlines(), is_whole=bool(why))
        try:
            if why:
                return shown
            with self.reading:
                layout = self.subject.layout(wanted)
            if self.stale.is_set():
                return None
            shown.layout, shown.drawn = layout, drawing.drawn(layout.script)
            shown.messages = layout.refused(shown.drawn.refused)
            shown.messages += [shown.drawn.why] if shown.drawn.why else []
        except Exception as error:
            shown.messages, shown.is_whole = said(error).splitlines(), True
        return shown

    def put(self, name: str, new: Shown) -> None:
        """Shows what a configuration makes; the last good picture stays, where that is not good."""
        old = self.shown.get(name)
        is_good = new.layout is not None and new.drawn.is_good
        if not is_good and old is not None and old.layout is not None and old.drawn.is_good:
            new = replace(old, messages=new.messages, is_old=True)
        with self.changed:
            self.version += 1
            new.version = self.version
            new.drawn_in = new.drawn_in or self.version
            if new.drawn.picture:
                self.keep(new.drawn.picture, new.drawn.digest)
            self.shown[name] = new
            self.changed.notify_all()

    def complete(self, name: str) -> None:
        """Puts the views, and the values in the files, into what a configuration shows."""
        shown, messages = self.shown[name], []
        try:
            if shown.layout is not None and not shown.is_whole:
                drawing.follow(shown.layout.script, shown.drawn)
                shown.spots = spots_of(shown.layout, shown.drawn)
        except Exception as error:
            messages = said(error).splitlines()
        with self.changed:
            shown.is_whole = True
            if messages:
                self.version += 1
                shown.version, shown.messages = self.version, [*shown.messages, *messages]
            self.changed.notify_all()

    def find(self, name: str) -> None:
        """Has lint look at a configuration that was drawn."""
        shown = self.shown.get(name)
        if shown is None or shown.layout is None or shown.findings is not None or not shown.drawn.is_good:
            return
        try:
            begun = self.draws
            found, why = findings.findings_of(shown.layout, lambda: self.draws != begun or self.stale.is_set()), []
        except findings.GivenUp:
            return
        except Exception as error:
            found, why = [], said(error).splitlines()
        with self.changed:
            # where the file changed meanwhile, what was found is of no use
            if self.shown.get(name) is shown and not self.stale.is_set():
                self.version += 1
                self.shown[name] = replace(shown, version=self.version, findings=found, messages=shown.messages + why)
                self.changed.notify_all()

    # what a page asks

    def keep(self, picture: bytes, digest: str) -> None:
        """Keeps a picture for pages that ask for it."""
        self.pictures.pop(digest, None)
        self.pictures[digest] = picture
        for old in list(self.pictures)[:-PICTURES]:
            if all(it.drawn.digest != old for it in self.shown.values()):
                del self.pictures[old]
                self.sent.discard(old)

    def note_sent(self, digest: str) -> None:
        """A picture was sent."""
        with self.changed:
            self.sent.add(digest)
            self.changed.notify_all()

    def note_page(self, more: int) -> None:
        """A page is there, or has left."""
        with self.changed:
            self.pages += more

    def summary(self) -> Record:
        """All configurations in short."""
        with self.changed:
            rows = [self.row(it) for it in self.subject.configurations if it.name in self.shown]
            return {"version": self.version, "title": self.subject.title(), "write": self.can_write,
                    "configurations": rows}

    def row(self, wanted: Configuration) -> Record:
        """A configuration in short."""
        it = self.shown[wanted.name]
        return {"name": wanted.name, "version": it.version, "picture": it.drawn.digest or None,
                "window": it.drawn.window, "messages": [printable(text) for text in it.messages], "old": it.is_old,
                "findings": None if it.findings is None else len(it.findings)}

    def state(self, name: str, frame: int = 0) -> Record:
        """All of a configuration, after its last frame or another one."""
        self.first = name
        shown = self.of(name)
        frames = len(drawing.frame_lines(shown.layout.script.lines)) if shown.layout else 0
        if 0 < frame < frames and shown.layout:
            shown = self.at_frame(shown, frame)
        return {**self.row_of(name, shown), "views": [view_record(it, shown) for it in shown.drawn.views],
                "found": shown.findings or [], "frames": frames, "frame": frame if 0 < frame < frames else frames}

    def row_of(self, name: str, shown: Shown) -> Record:
        """The short form of what is shown in a configuration."""
        return {"name": name, "version": shown.version, "picture": shown.drawn.digest or None,
                "drawn": shown.drawn_in, "window": shown.drawn.window,
                "messages": [printable(text) for text in shown.messages], "old": shown.is_old, "write": self.can_write}

    def at_frame(self, shown: Shown, frame: int) -> Shown:
        """What a configuration shows after one of its frames."""
        assert shown.layout is not None
        layout = replace(shown.layout, script=drawing.up_to(shown.layout.script, frame))
        drawn = drawing.drawn(layout.script)
        drawing.follow(layout.script, drawn)
        with self.changed:
            self.keep(drawn.picture, drawn.digest)
        return replace(shown, layout=layout, drawn=drawn, findings=[])

    def of(self, name: str) -> Shown:
        """What a configuration shows, once it is whole."""
        with self.changed:
            if name not in self.shown:
                raise Failure("there is no configuration '%s'" % name, WRONG)
            self.changed.wait_for(lambda: self.shown[name].is_whole or self.ended.is_set(), FOLLOWING)
            return self.shown[name]

    def wait(self, version: int, seconds: float) -> bool:
        """Waits until there is something newer than a version; whether there is."""
        with self.changed:
            return self.changed.wait_for(lambda: self.version > version or self.ended.is_set(), seconds)

    def drop_live(self) -> None:
        """Ends the live program."""
        with self.asking:
            if self.live:
                self.live.close()
            self.live = None

    def touch(self, name: str, lines: List[str], frame: int = 0) -> Record:
        """Sends lines to the program that is kept running after a configuration's script, and says what it replies."""
        shown = self.of(name)
        if shown.layout is None:
            raise Failure("there is nothing to touch yet", WRONG)
        with self.asking:
            if self.live is None or self.live_of[0] is not shown.layout or self.live_of[1] != frame:
                if self.live:
                    self.live.close()
                self.live, self.live_of = Live(drawing.up_to(shown.layout.script, frame)), (shown.layout, frame)
            return self.answered(self.live, lines, shown)

    def answered(self, live: Live, lines: List[str], shown: Shown) -> Record:
        """What the live program replies to lines, and what it shows then."""
        try:
            events = [live.sent(line) for line in lines]
            body, digest = live.picture()
            views = [view_record(it, shown) for it in live.views()]
        except LineRefused as refused:
            raise Failure(str(refused), WRONG)
        except BaseException:
            live.close()
            self.live = None
            raise
        with self.changed:
            self.keep(body, digest)
        return {"events": events, "picture": digest, "views": views, "version": shown.version}

    def edit(self, name: str, view: int, place: int, old: str, text: str) -> None:
        """Writes one of a view's values back: the one of a place in its list, which had this text."""
        if not self.can_write:
            raise Failure("nothing is written without --write", WRONG)
        shown = self.of(name)
        of_view = shown.spots.of_views.get(view, [])
        if not 0 <= place < len(of_view) or shown.layout is None:
            raise Failure("the view has no such value any more; nothing is written", WRONG)
        spot = of_view[place]
        self.writer.write(spot, old, text, shown.spots.digests[spot.file], shown.layout.script.ids)
