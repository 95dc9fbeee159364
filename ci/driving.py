"""Tries the session of tools/, over the built program and over programs that end early."""
import contextlib
import os
import tempfile
from typing import Any, Callable, Iterable, Iterator, List, Optional, Tuple

from running import TOP, Checks, named
from tools import place
from vindaesk.common.failures import Failure
from vindaesk.pictures import png
from vindaesk.session import Bounds, Frame, Inflated, LineRefused, Session

EXAMPLES = os.path.join(TOP, "examples")


def refusal(act: Callable[..., object], *words: Any) -> str:
    """The number, the name and what follows of the refusal that a call raises."""
    try:
        return "no refusal, but %s" % (act(*words),)
    except LineRefused as refused:
        return "%d %s%s" % (refused.number, refused.name, refused.detail)


def unlike(pairs: Iterable[Tuple[object, object]]) -> str:
    """The first of some pairs whose parts differ, or nothing."""
    return next(("%r in place of %r" % pair for pair in pairs if pair[0] != pair[1]), "")


def lays_out() -> str:
    with Session(EXAMPLES) as s:
        s.window(100, 50)
        root = s.add("root", "FrameLayout", "match", "match")
        text = s.add(root, "TextView", "wrap", "wrap")
        s.set(text, "text", "a\nb\\c")
        s.set(text, "id", "@7f050001")
        s.set(root, "flag", "clip", False)
        made = [s.frame(), s.bounds("@7f050001"), s.tree()[1].text, s.line("bounds"), s.line("# x")]
        s.hook(text, "size v1 90 50", "bg v1 #ff0000ff")
        s.set(text, "size", 20, 16)
        made += [s.frame(), s.tree()[0].background, s.bounds(root)]
    wanted = [Frame(True, 0), Bounds(0, 0, 18, 16), "a\nb\\c", ["v1 0 0 100 50", "v2 0 0 18 16"], [], Frame(True, 1),
              "#ff0000ff", Bounds(0, 0, 90, 50)]
    return unlike(zip(made, wanted))


def inflates() -> str:
    with Session(EXAMPLES) as s:
        s.window(100, 100)
        made: List[object] = [refusal(s.inflate, it) for it in ("dimens.xml", "cut_short.xml", "no.xml")]
        for number, values in ((6, (40, "px")), (2, (30, "dp")), (15, (1, "in")), (4, (3, "dp"))):
            s.res("@7f0600%02x" % number, "dimen", *values)
        made += [s.inflate("dimens.xml"), s.frame().is_settled, s.bounds("v2")]
    wanted = ["12 Unresolved element 1", "1 Truncated at 324", "39 Missing", Inflated("v1", "v2", 0), True,
              Bounds(0, 0, 160, 3)]
    return unlike(zip(made, wanted))


def refuses() -> str:
    with Session() as s:
        made: List[object] = [refusal(s.line, "ad x"), refusal(s.frame), refusal(s.add, "v1", "View", 1, 1)]
        made += [refusal(s.digest)]
        s.window(9, 9)
        root = s.add("root", "View", 1, 1)
        made += [refusal(s.bounds, root), refusal(s.bounds, "v7"), refusal(s.set, root, "text", "a"),
                 refusal(s.set, root, "size", -1, 1), refusal(s.script, "min v1 1 1\nx\nmin v1 2 2\n")]
        made += [s.frame(), s.bounds(root), s.frames(2500) == [Frame(True, 0)] * 2500]
        s.line("remove v1")
        made += [refusal(s.frames, 3), s.add("root", "View", 2, 2)]
    wanted = ["31 Syntax", "33 NoWindow", "34 NoRoot", "33 NoWindow", "37 NoFrame", "37 NoFrame", "29 WrongClass",
              "30 Range", "31 Syntax", Frame(True, 0), Bounds(0, 0, 1, 1), True, "34 NoRoot", "v2"]
    return unlike(zip(made, wanted))


def scroll_of(s: Session) -> Optional[int]:
    """How far the view @2 is scrolled."""
    bounds = s.bounds("@2")
    return bounds.scroll if bounds else None


def touches() -> str:
    with Session() as s:
        s.script("window 50 40\nadd root ScrollView match match\nadd v1 LinearLayout match wrap\norient v2 vertical")
        s.script("add v2 View match 30\nadd v2 View match 70\nanswer v3 click\nid v3 @1\nid v1 @2\nframe")
        made: List[object] = [s.tap("@1"), s.drag("@2", 0, -24, steps=3)[-4:], scroll_of(s), s.in_window("@1")]
        state = s.save()
        s.frame()
        made += [s.in_window("@1"), s.seen("@1"), s.tree()[2].window]
        s.set("@2", "scroll", 0)
        s.restore(state)
        s.frame()
        made += [scroll_of(s), s.remove("v3")]
    wanted = [["v1 ask DOWN 0:25,15 no", "v2 ask DOWN 0:25,15 no", "v3 touch DOWN 0:25,15 yes", "done yes",
               "v1 ask UP 0:25,15 no", "v2 ask UP 0:25,15 no", "v3 touch UP 0:25,15 yes", "v3 click", "done yes"],
              ["v1 scroll 8", "done yes", "v1 touch UP 0:25,-4 yes", "done yes"], 8, (0, -8, 50, 22), (0, -8, 50, 22),
              (0, 0, 50, 22), (0, -8, 50, 22), 8, []]
    return unlike(zip(made, wanted))


def takes_pictures() -> str:
    with tempfile.TemporaryDirectory() as folder, Session() as s:
        s.script("window 2 3\nadd root View match match\nbg v1 #ffff0000\nframe")
        path = os.path.join(folder, "a.png")
        s.screenshot(path, scale=2)
        with open(path, "rb") as file:
            scaled = png.parsed(file.read())
        return unlike([(s.picture(), png.Picture(2, 3, [b"\xff\0\0" * 2] * 3)), (scaled.rows, [b"\xff\0\0" * 4] * 6)])


def failure(act: Callable[..., object], *words: str) -> str:
    """The sentence and the status of the failure that a call raises."""
    try:
        return "no failure, but %s" % (act(*words),)
    except Failure as failed:
        return "%d %s" % (failed.status, failed)
    except ValueError as error:
        return str(error)


@contextlib.contextmanager
def stand_in(act: str) -> Iterator[None]:
    """Sessions in here have a program that does this."""
    kept = dict(os.environ)
    with place() as it:
        try:
            os.environ.update(it.stand_in(act))
            yield
        finally:
            os.environ.clear()
            os.environ.update(kept)


def ends_early() -> str:
    made = []
    for act in ("kill -9 $$", "exit 5", "exit 0", "read line; echo nonsense"):
        with stand_in(act), Session() as s:
            made.append(failure(s.line, "window 1 1"))
            made.append(failure(s.frame))
    with Session() as s:
        s.script("window 9 9\nadd root FrameLayout 0 1\nframe")
        made += [failure(s.line, "a\nb"), failure(s.tap, "v1")]
    closed = "the session is closed"
    wanted = ["137 the program was ended by the signal SIGKILL", closed,
              "5 the program ended with status 5: out of memory", closed,
              "1 the program ended before its input did", closed, "1 the program ended before its input did",
              closed, "a line has a line feed in it: 'a\\nb'", "nothing of v1 is seen in the window"]
    return unlike(zip(made, wanted))


def takes_any_text() -> str:
    """Characters that end lines elsewhere are a part of a text here; a carriage return right before a line feed is
    not."""
    text = "a\u2028b\u2029c\x85d\x0be\x0cf\x1cg"
    with Session() as s:
        replies = s.script("window 100 40\r\nadd root TextView match match\r\ntext v1 %s\nframe\n" % text)
        return unlike([(replies, ["v1", "settled 0"]), (s.tree()[0].text, text)])


def keeps_pointers() -> str:
    """A drag that leads too far is refused before a pointer goes down."""
    with Session() as s:
        s.script("window 100 40\nadd root View match match\nanswer v1 click\nframe")
        try:
            return "a drag: %s" % s.drag("v1", 5000000, 0)
        except ValueError:
            return "" if "v1 click" in s.tap("v1") else "the next tap is no click"


def knows_names() -> str:
    """Views by the names of their ids, in calls, in trees and in refusals; and a file that is included."""
    with place() as it:
        it.put("ids.txt", "app:id/send = 0x7f080002\n")
        it.put("a.lines", "window 100 40\nadd root View match match\nid v1 @id/send\nanswer @id/send click\nframe\n")
        with Session(it.folder) as s:
            s.script("include a.lines")
            node = s.tree()[0]
            made: List[object] = [s.bounds("@id/send"), "v1 click" in s.tap("@id/send"), (node.id, node.id_name)]
            try:
                s.set("@id/send", "text", "x")
            except LineRefused as refused:
                made.append(refused.line)
            try:
                s.tap("@id/sent")
            except Failure as failure:
                made.append(str(failure))
    said = "@id/sent is not in %s; did you mean 'send'?: bounds @id/sent" % os.path.join(it.folder, "ids.txt")
    wanted = [Bounds(0, 0, 100, 40), True, ("@7f080002", "@id/send"), "text @id/send x", said]
    return unlike(zip(made, wanted))


def checks() -> Checks:
    yield from named("a session", (lays_out, inflates, refuses, touches, takes_pictures, ends_early, takes_any_text,
                                   keeps_pointers, knows_names))
