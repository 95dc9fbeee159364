"""Sessions: what is found, gestures that fail midway, time limits, scripts of what was done, programs that take over,
stacks of windows and walks of the focus."""
import contextlib
import os
import random
import re
import tempfile
import time
from typing import Callable, Iterator, List, Optional, Tuple
from unittest import mock

from running import PROGRAM, TOP, Skipped, run
from tools import place
from vindaesk.program import in_process, native
from vindaesk.session import Failure, LineRefused, NoAnswer, NoRoom, NotFound, OtherView, Session, Stack, Way, app
from vindaesk.session.focus import walk

EXAMPLES = os.path.join(TOP, "examples")
CARD = os.path.join(EXAMPLES, "card.script")


@contextlib.contextmanager
def card() -> Iterator[Session]:
    """A session over the card: v5 Later, v6 Reply with the id @7f080002."""
    with open(CARD, encoding="utf-8") as file, Session(EXAMPLES) as s:
        s.script(file.read())
        yield s


@contextlib.contextmanager
def program(act: str) -> Iterator[None]:
    """Sessions in here have a program that does this."""
    kept = dict(os.environ)
    with place() as it:
        os.environ.update(it.stand_in(act))
        try:
            yield
        finally:
            os.environ.clear()
            os.environ.update(kept)


def names(found: List[object]) -> List[str]:
    return [getattr(it, "name") for it in found]


def test_find() -> None:
    with card() as s:
        assert s.find(text="Reply").name == "v6"
        assert s.find(id="@7f080002").name == s.find(text_contains="epl", clickable=True).name == "v6"
        assert names(list(s.find_all(cls="android.widget.TextView", clickable=True))) == ["v5", "v6"]
        assert names(list(s.find_all(below="v4"))) == ["v5", "v6"] and s.find_all(below="v5") == []
        s.set("v4", "visible", "gone")
        s.frame()
        assert s.find_all(text="Reply") == []
        for text, why in (
            ("Reply", "text 'Reply'; one that is not seen has"),
            ("Meeting moved to Frida", "; did you mean 'Meeting moved to Friday'?"),
        ):
            try:
                s.find(text=text)
            except NotFound as missing:
                assert why in str(missing), missing
            else:
                raise AssertionError("found")


def test_taps() -> None:
    with card() as s:
        way = s.tap(s.find(text="Reply"), check=True)
        assert (way.taken_by, way.taken_at, way.clicked, way.scrolled) == ("v6", (70, 24), ["v6"], {})


def test_overlay() -> None:
    with Session() as s:
        s.script(
            "window 50 50\nadd root FrameLayout match match\nadd v1 View 20 20\nanswer v2 click\nadd v1 View 50 50\n"
            "answer v3 yes\nframe"
        )
        try:
            s.tap("v2", check=True)
        except OtherView as other:
            assert (other.view, other.taken_by) == ("v2", "v3")
        else:
            raise AssertionError("taken by v2")
        # the pointer is up
        assert s.tap("v2").taken_by == "v3"


def test_held_and_several() -> None:
    with card() as s:
        with s.held("v6") as way:
            assert way.taken_by == "v6" and way.clicked == []
            s.frame()
        assert way.clicked == ["v6"]
        both = s.gesture([(60, 190), (61, 191)], [(200, 190)])
        assert both.clicked == ["v6", "v5"]


class Breaking(Session):
    """A session whose second move is refused, since no pointer has this number."""

    count = 0

    def move(self, pointer: int, x: int, y: int) -> Way:
        self.count += 1
        return super().move(pointer if self.count != 2 else 7, x, y)


def test_lifts_pointers() -> None:
    s = Breaking()
    with s:
        s.script("window 100 40\nadd root FrameLayout match match\nadd v1 View match match\nanswer v2 click\nframe")
        try:
            s.drag("v2", 10, 0)
        except LineRefused as refused:
            assert refused.name == "Pointer" and s.count == 2
        else:
            raise AssertionError("dragged")
        assert s.tap("v2").clicked == ["v2"]


def test_time_limit() -> None:
    for act in ("exec sleep 30", "read line; printf 'v1'; exec sleep 30"):
        with program(act):
            begun = time.monotonic()
            s = Session(seconds=0.3)
            try:
                s.add("root", "View", 1, 1)
            except NoAnswer as late:
                assert str(late) == "the program gave no answer within 0.3 seconds to: add root View 1 1"
            else:
                raise AssertionError("answered")
            assert time.monotonic() - begun < 5 and not s._channel.is_open


def test_record() -> None:
    with tempfile.TemporaryDirectory() as folder, Session(EXAMPLES) as s:
        replies = s.script("window 160 200\ninflate page.xml\nframe\nbounds v3\n# a remark\n")
        replies += s.drag("@7f080001", 0, -60)
        try:
            s.set("v2", "size", -1, 8)
        except LineRefused:
            pass
        path = os.path.join(folder, "done.script")
        s.record(path)
        with open(path, "rb") as file:
            written, status = run([PROGRAM, "run"], file.read(), folder)
        # besides the replies of the session's own questions
        assert (
            status == 0
            and [it for it in written.decode().splitlines() if it in replies]
            and "page.xml" in os.listdir(folder)
        )
        rest = iter(written.decode().splitlines())
        assert all(it in rest for it in replies)
        with open(path, encoding="utf-8") as text:
            assert "# refused 30 Range: size v2 -1 8\n" in text.read()
        with open(os.path.join(folder, "page.xml"), "ab") as layout:
            layout.write(b"x")
        try:
            s.record(path)
        except Exception as failure:
            assert str(failure).endswith("page.xml is another file than the session's")
        else:
            raise AssertionError("recorded")


def test_full() -> None:
    with Session() as s:
        s._channel.limit = 200
        s.script("window 9 9\nadd root View 1 1")
        try:
            for _ in range(9):
                s.line("# a remark that takes room")
        except NoRoom as full:
            assert "the program reads 200 bytes and has" in str(full) and s.left >= 0
        else:
            raise AssertionError("room")
        assert s.frame().is_settled


# programs that take over

KINDS = ("View", "TextView", "FrameLayout", "LinearLayout", "RelativeLayout", "ScrollView")
EDITS = (
    "size {v} {n} {n}",
    "min {v} {n} {n}",
    "margins {v} {n} {n} {n} {n}",
    "padding {v} {n} {n} {n} {n}",
    "text {v} {n} a",
    "gravity {v} self right|bottom",
    "gravity {v} kids center",
    "gravity {v} self left",
    "orient {v} vertical",
    "direction {v} rtl",
    "weight {v} {n}",
    "weightsum {v} {n}",
    "bg {v} #ff0000{h}",
    "ink {v} #ff00{h}00",
    "flag {v} clip no",
    "flag {v} split no",
    "flag {v} fill yes",
    "rule {v} below @{i}",
    "rule {v} right_of @{i}",
    "rule {v} parent_right yes",
    "scroll {v} {n}",
    "visible {v} gone",
    "visible {v} visible",
    "visible {v} invisible",
    "id {v} @{i}",
    "answer {v} click",
    "intercept {v} move",
    "disallow {v} yes",
    "res @7f00000{i} color #ff00ff{h}",
    "hook {v} size {w} {n} {n}",
    "hook {v} bg {w} #ffff00{h}",
    "save",
    "restore",
    "remove {v}",
)


# why no program takes over where the lines that it gets are right
KNOWN = re.compile(
    "|a pointer is down: [0-9, ]+|a hook is armed: that of v[0-9v, ]+|lines came after the last frame that settled|"
    "it is not known what the hooks that fired have set"
)


def random_line(draw: random.Random, most: int) -> str:
    """A line about some of the first views, which may be refused."""
    if draw.random() < 0.3:
        around = "root" if draw.random() < 0.1 else "v%d" % draw.randint(1, most)
        return "add %s %s %s %s" % (
            around,
            draw.choice(KINDS),
            draw.choice(("match", "wrap", "20")),
            draw.choice(("30", "wrap")),
        )
    if draw.random() < 0.15:
        return draw.choice(("down 0 {x} {y}", "move 0 {x} {y}", "up 0", "cancel")).format(
            x=draw.randint(0, 99), y=draw.randint(0, 99)
        )
    if draw.random() < 0.05:
        return "inflate page.xml into v%d" % draw.randint(1, most)
    form = draw.choice(EDITS)
    if form.startswith(("remove", "hook")) and draw.random() < 0.7:
        form = "bg {v} #ff0000{h}"
    return form.format(
        v="v%d" % draw.randint(1, most),
        w="v%d" % draw.randint(1, most),
        n=draw.randint(0, 40),
        h="%02x" % draw.randint(0, 255),
        i=draw.randint(1, 5),
    )


def answer(s: Session, line: str) -> object:
    """What a session answers to a line, also where it refuses it."""
    try:
        return s.line(line)
    except LineRefused as refused:
        return refused.number, refused.name, refused.detail


def test_takes_over() -> None:
    """Two sessions of the same random lines, in one of which a new program takes over wherever it can: each answer is
    the same, so are all bounds and the picture."""
    taken = 0
    for seed in range(20):
        draw = random.Random(seed)
        with Session(EXAMPLES) as plain, Session(EXAMPLES) as renewed:
            begun = ["window 100 100", "add root %s match match" % draw.choice(KINDS[2:])]
            lines = begun + [random_line(draw, 2 + number // 3) if number % 4 else "frame" for number in range(60)]
            for number, line in enumerate(lines):
                found = [answer(it, line) for it in (plain, renewed)]
                assert found[0] == found[1], (seed, number, line, found)
                if line == "frame":
                    found = [[answer(it, question) for question in ("bounds", "digest")] for it in (plain, renewed)]
                    assert found[0] == found[1], (seed, number, found)
                    why = renewed.renew()
                    assert KNOWN.fullmatch(why) or why.startswith("the saved state has"), (seed, number, why)
                    taken += why == ""
    assert taken > 80, taken


def test_takes_over_with_several_of_a_kind() -> None:
    with Session() as s:
        s.script(
            "window 100 100\nadd root RelativeLayout match match\nadd v1 View 20 20\nid v2 @1\nadd v1 View 10 10\n"
            "rule v3 below @1\nrule v3 right_of @1\nadd v1 LinearLayout 60 60\ngravity v4 kids center\n"
            "rule v4 parent_right yes\nrule v4 parent_bottom yes\nadd v4 View 80 5\nanswer v5 click\nbg v5 #ff0000ff\n"
            "gravity v4 self left\nflag v4 clip no\npadding v4 9 9 9 9\nflag v4 split no\nintercept v4 move\nframe"
        )
        ways = [s.down(0, 70, 70), s.move(0, 71, 70), s.cancel()]
        s.frame()
        assert s.renew() == ""
        assert ways == [s.down(0, 70, 70), s.move(0, 71, 70), s.cancel()] and "v4 ask MOVE 0:31,30 yes" in ways[1]


def test_takes_over_by_itself() -> None:
    with Session() as s:
        s._channel.limit = 20000
        s._due = 20000 // 16
        s.script(
            "window 50 40\nadd root ScrollView match match\nadd v1 LinearLayout match wrap\norient v2 vertical\n"
            "add v2 View match 100\nanswer v3 click\nid v1 @1\nframe"
        )
        s.save()
        for number in range(1500):
            s.drag("v3", 0, -3 if number % 2 else 3)
            s.frame()
            if s._channel.limit != 20000:
                s._channel.limit, s._due = 20000, 20000 // 16
        assert s.renewals > 5
        s.line("scroll v1 60")
        s.frame()
        s.restore()
        s.frame()
        assert s.bounds("v1")[4] == 0  # type: ignore[index]


def test_says_why_none_takes_over() -> None:
    with Session() as s:
        s.script("window 9 9\nadd root View 1 1\nframe\nbg v1 #ff0000ff")
        assert s.renew() == "lines came after the last frame that settled"
        s.script("hook v1 bg v1 #ff000000\ndown 0 0 0\ndown 2 0 0")
        assert s.renew() == "a pointer is down: 0, 2"
        s.cancel()
        assert s.renew() == "a hook is armed: that of v1"
        s.script("size v1 2 2\nframe\nframe")
        assert s.renew() == "" and s.renewals == 1


def test_a_message_has_the_beginning_of_a_long_line() -> None:
    with Session() as s:
        try:
            s.line("foo " + "x" * 60000)
        except LineRefused as refused:
            assert str(refused).endswith(": foo %s .. (59804 characters more)" % ("x" * 196))
            assert len(refused.line) == 60004
        else:
            raise AssertionError("it is taken")


# stacks and the focus


def dialog(stack: Stack) -> None:
    """Opens the app and the dialog of the example."""
    with open(os.path.join(EXAMPLES, "dialog.stack"), encoding="utf-8") as file:
        for line in file:
            words = line.split()
            if words[0] == "at":
                stack.open(*map(int, words[1:]))
            elif words[0] == "in":
                stack.windows[int(words[1])].line(line[5:].rstrip("\n"))


def test_wrong_values_of_a_stack() -> None:
    calls: List[Tuple[Callable[[Stack], object], type, str]] = [
        (lambda it: it.open(0, "a", 0), TypeError, "x is a whole number, and not 'a'"),  # type: ignore[arg-type]
        (lambda it: it.on_top(None), TypeError, "number is a whole number, and not None"),  # type: ignore[arg-type]
        (lambda it: it.close("0"), TypeError, "number is a whole number, and not '0'"),  # type: ignore[arg-type]
        (lambda it: it.down(0, 1.5, 0), TypeError, "x is a whole number, and not 1.5"),  # type: ignore[arg-type]
        (lambda it: it.move(0, 1, None), TypeError, "y is a whole number, and not None"),  # type: ignore[arg-type]
        (lambda it: it.up(True), TypeError, "pointer is a whole number, and not True"),
        (lambda it: it.picture(0, 5), ValueError, "width is 1 to 4096, and not 0"),
        (lambda it: it.screenshot("no.png", 5, 10**9), ValueError, "height is 1 to 4096"),
        (lambda it: it.record(3), TypeError, "path is a text, and not 3"),  # type: ignore[arg-type]
        (lambda it: Stack(3), TypeError, "folder is a text, and not 3"),  # type: ignore[arg-type]
    ]
    with Stack(EXAMPLES) as stack:
        dialog(stack)
        for call, kind, said in calls:
            try:
                call(stack)
            except (TypeError, ValueError) as error:
                assert type(error) is kind and said in str(error), error
            else:
                raise AssertionError(said)
        assert stack.windows[1].find(text="No").name == "v3"


def test_stack() -> None:
    with tempfile.TemporaryDirectory() as folder, Stack(EXAMPLES) as stack:
        dialog(stack)
        app, above = stack.windows[0], stack.windows[1]
        assert above.tap(above.find(text="No"), check=True).clicked == ["v3"]
        try:
            app.tap(app.find(text="Lunch on Friday"), check=True)
        except OtherView as other:
            assert other.view == "v4" and other.taken_by is None
        else:
            raise AssertionError("the app is below the dialog")
        stack.on_top(0)
        assert app.tap("v4", check=True).clicked == ["v4"]
        assert stack.down(0, 500, 500) == [] and app.tap("v3").taken_by == "v3"
        path = os.path.join(folder, "done.stack")
        stack.record(path)
        with open(path, "rb") as file:
            assert run([PROGRAM, "stack"], file.read(), folder)[1] == 0
        stack.close(1)
        assert list(stack.windows) == [0]
        picture = stack.picture(320, 180)
        assert (picture.width, picture.height, len(picture.rows)) == (320, 180, 180)


def test_same_place_in_two_windows() -> None:
    with Stack() as stack:
        for number in (0, 1):
            stack.open(number, 0, 0).script("window 20 20\nadd root View match match\nanswer v1 click\nframe")
        try:
            stack.windows[0].tap("v1", check=True)
        except ValueError as error:
            assert "v1 of two windows is at the same place" in str(error)
        else:
            raise AssertionError("not known which")
        assert stack.windows[1].tap("v1").clicked == ["v1"]


def focus(lines: str, *questions: Tuple[str, str]) -> List[Optional[str]]:
    """What the program says of questions, each of a view and a side."""
    found = []
    for view, side in questions:
        written, _ = run([PROGRAM, "focus", side, view], lines.encode(), TOP)
        word = written.decode().split()[-1]
        found.append(None if word == "none" else word)
    return found


def test_focus() -> None:
    with open(os.path.join(EXAMPLES, "focus.script"), encoding="utf-8") as file:
        lines = file.read()
    with Session(EXAMPLES) as s:
        s.script(lines)
        s.digest()
        walk = s.focus("v2", "right", "right", "right", "down", "up", "left")
        views = ["v2"]
        for it in walk:
            views.append(it or views[-1])
        assert walk == focus(lines, *zip(views, ("right", "right", "right", "down", "up", "left")))
        assert walk[2] is None and walk[0] == "v3"
        # the same after much has been done
        for _ in range(5000):
            s.bounds("v2")
            s.set("v2", "min", 0, 0)
        s.frame()
        assert s.focus("v2", "right", "right", "right", "down", "up", "left") == walk
        assert len(s._copy()) < 2000


def test_focus_needs_no_process() -> None:
    """Where the library is there, a walk starts no program, and asks no question twice; it is the same without it."""
    with open(os.path.join(EXAMPLES, "focus.script"), "rb") as file:
        copy = file.read()
    keys = ("right", "right", "left", "right", "left")
    with mock.patch.dict(os.environ, {"VINDAESK_LIBRARY": "no"}):
        wanted = walk(copy, EXAMPLES, keys, "v2", 60)
    assert wanted == ["v3", "v4", "v3", "v4", "v3"]
    if native.path() is None:
        raise Skipped("the library beside the program")
    with mock.patch("subprocess.run", side_effect=AssertionError("a program is started")):
        with mock.patch("vindaesk.program.in_process.answered", wraps=in_process.answered) as asked:
            assert walk(copy, EXAMPLES, keys, "v2", 60) == wanted
    assert asked.call_count == 3


def test_focus_has_a_time_limit() -> None:
    with program("exec sleep 30"):
        try:
            walk(b"", TOP, ["up"], "v1", 0.3)
        except NoAnswer as late:
            assert str(late).endswith("within 0.3 seconds to: focus up v1")
        else:
            raise AssertionError("answered")


def test_wrong_values() -> None:
    """What a call is given and does not take is one sentence, and the session goes on."""
    calls: List[Tuple[Callable[[Session], object], type, str]] = [
        (lambda s: s.find(text=3), TypeError, "text is a text, and not 3"),  # type: ignore[arg-type]
        (lambda s: s.find_all(id=5), TypeError, "id is a text, and not 5"),  # type: ignore[arg-type]
        (lambda s: s.find(clickable="yes"), TypeError, "clickable is True or False"),  # type: ignore[arg-type]
        (lambda s: s.window("a", 1), TypeError, "width is a whole number, and not 'a'"),  # type: ignore[arg-type]
        (lambda s: s.down(0, "a", 1), TypeError, "x is a whole number"),  # type: ignore[arg-type]
        (lambda s: s.screenshot("no.png", 0), ValueError, "scale is 1 to 8, and not 0"),
        (lambda s: s.screenshot("no.png", 99), ValueError, "scale is 1 to 8, and not 99"),
        (lambda s: Session("/nonexist"), Failure, "there is no folder /nonexist"),
        (lambda s: Session(seconds=-1), ValueError, "seconds is more than 0 and at most 1000000, and not -1"),
        (lambda s: Session(seconds=float("inf")), ValueError, "and not inf"),
        (lambda s: s.drag("v6", 0, "x"), TypeError, "down is a whole number, and not 'x'"),  # type: ignore[arg-type]
        (lambda s: s.drag("v6", True, 0), TypeError, "right is a whole number, and not True"),
        (lambda s: s.drag("v6", 0, 1, steps=1.5), TypeError, "steps is a whole number"),  # type: ignore[arg-type]
        (lambda s: s.drag("v6", 0, 1, steps=0), ValueError, "steps is 1 to 1000000, and not 0"),
        (lambda s: s.drag("v6", 0, 1, steps=10**30), ValueError, "steps is 1 to 1000000"),
        (lambda s: s.gesture([(1, 2), 3]), TypeError, "a place is two whole numbers, x and y, and not 3"),  # type: ignore[list-item]
        (lambda s: s.gesture([(1, 2.5)]), TypeError, "and not (1, 2.5)"),  # type: ignore[list-item]
        (lambda s: s.gesture([(True, 2)]), TypeError, "and not (True, 2)"),
        (lambda s: s.gesture([(1, 2)], first=None), TypeError, "first is a whole number"),  # type: ignore[arg-type]
        (lambda s: s.tap(6), TypeError, "a view is a name as 'v3' or '@id/send'"),  # type: ignore[arg-type]
        (lambda s: s.tap("v6", check="yes"), TypeError, "check is True or False"),  # type: ignore[arg-type]
        (lambda s: s.up("0"), TypeError, "pointer is a whole number, and not '0'"),  # type: ignore[arg-type]
        (lambda s: s.bounds(None), TypeError, "a view is a name"),  # type: ignore[arg-type]
        (lambda s: s.focus(None, "left"), TypeError, "a view is a name"),  # type: ignore[arg-type]
        (lambda s: s.frames(-1), ValueError, "count is 0 to 1000000, and not -1"),
        (lambda s: s.frames(10**30), ValueError, "count is 0 to 1000000"),
        (lambda s: s.add("v1", "View", 1.5, 2), TypeError, "a value is a text, a whole number, True or False"),  # type: ignore[arg-type]
        (lambda s: s.add("v1", None, 1, 2), TypeError, "kind is a text, and not None"),  # type: ignore[arg-type]
        (lambda s: s.set("v6", 3), TypeError, "what is a text, and not 3"),  # type: ignore[arg-type]
        (lambda s: s.set("v6", "text", None), TypeError, "and not None"),  # type: ignore[arg-type]
        (lambda s: s.hook("v6", 4), TypeError, "an edit is a text, and not 4"),  # type: ignore[arg-type]
        (lambda s: s.res(5, "dimen", 1), TypeError, "name is a text, and not 5"),  # type: ignore[arg-type]
        (lambda s: s.inflate(5), TypeError, "name is a text, and not 5"),  # type: ignore[arg-type]
        (lambda s: s.line(b"frame"), TypeError, "a line is a text, and not b'frame'"),  # type: ignore[arg-type]
        (lambda s: s.script(None), TypeError, "a script is a text, and not None"),  # type: ignore[arg-type]
        (lambda s: s.restore(5), TypeError, "state is a text, and not 5"),  # type: ignore[arg-type]
        (lambda s: s.record(5), TypeError, "path is a text, and not 5"),  # type: ignore[arg-type]
        (lambda s: s.screenshot(5), TypeError, "path is a text, and not 5"),  # type: ignore[arg-type]
        (lambda s: Session(5), TypeError, "folder is a text, and not 5"),  # type: ignore[arg-type]
        (lambda s: Session(ids=5), TypeError, "ids is a text, and not 5"),  # type: ignore[arg-type]
        (lambda s: Session(seconds=float("nan")), ValueError, "seconds is more than 0"),
    ]
    with card() as s:
        for call, kind, said in calls:
            try:
                call(s)
            except (TypeError, ValueError, Failure) as error:
                assert type(error) is kind and said in str(error), error
            else:
                raise AssertionError(said)
        assert s.find(text="Reply").name == "v6"


def test_unknown_id_of_an_app() -> None:
    with app(os.path.join(EXAMPLES, "trips", "trips.apk"), layout="home") as s:
        try:
            s.id("nope")
        except NotFound as missing:
            assert str(missing) == "no view of the layout has the id 'nope'"
        else:
            raise AssertionError("found")
