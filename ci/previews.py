"""Tries tools/preview: over HTTP as a page does, and in Chromium."""
import contextlib
import http.client
import json
import os
import re
import shutil
import signal
import socket
import struct
import subprocess
import time
from typing import Any, Callable, Dict, Iterator, List, NamedTuple, Optional, Tuple

import chromium
import contrast
from running import SECONDS, Checks, Skipped, named
from tools import EXAMPLES, Place, place
from vindaesk.pictures import png
from vindaesk.preview import watcher

# from a saved file to the picture of 200 views, in seconds, by the clock and of processor time; how often it is tried
MOST = 0.150
TRIES = 8
# numbers that are added up to see how slow the machine is, and how long that takes on one that does nothing else
COUNT, ALONE = 200000, 0.015
TOUCHED = """window 160 120
add root FrameLayout match match
bg v1 #ffeceff1
add v1 ScrollView match match
id v2 @7f080001
add v2 LinearLayout match wrap
orient v3 vertical
add v3 TextView match 60
text v4 Send
answer v4 click
add v3 View match 200
frame
"""
# what the page says of findings while a file is broken
OF_OLD = "none in the last good picture; lint has not looked at the files since"
SOURCE = """<?xml version="1.0" encoding="utf-8"?>
<!-- é -->
<LinearLayout xmlns:android="http://schemas.android.com/apk/res/android"
    android:layout_width = "match_parent" android:layout_height='match_parent'\tandroid:orientation="vertical">
    <TextView android:id="@+id/send" android:layout_width="wrap_content"
        android:layout_height="wrap_content" android:text="A &amp; &lt;b&gt;"\r
        android:padding="8dp"/>
</LinearLayout>
"""


def of_views(count: int, text: str = "item") -> str:
    """A script of a number of views."""
    lines = ["window 360 640", "add root LinearLayout match match", "orient v1 vertical"]
    for number in range(2, count + 1):
        lines += ["add v1 TextView match wrap", "text v%d %s %d" % (number, text, number), "bg v%d #ff%06x" % (number, number * 7919)]
    return "\n".join([*lines, "frame", ""])


class Page:
    """A preview that runs, and what a page asks it."""

    def __init__(self, started: "subprocess.Popen[bytes]"):
        self.started = started
        assert started.stdout is not None
        self.address = started.stdout.readline().decode().strip()
        found = re.fullmatch(r"http://127\.0\.0\.1:([0-9]+)/([\w-]{20,})/", self.address)
        if not found:
            raise AssertionError("it prints '%s'" % self.address)
        self.port, self.key = int(found[1]), found[2]
        self.events: Optional[http.client.HTTPResponse] = None
        # the name of the configuration that came first
        self.first = ""

    def ask(self, method: str, path: str, body: bytes = b"", **headers: str) -> Tuple[int, bytes]:
        """Status and body of an answer; in the names of headers `_` is a dash."""
        connection = http.client.HTTPConnection("127.0.0.1", self.port, timeout=SECONDS)
        try:
            sent = {name.replace("_", "-"): value for name, value in headers.items()}
            connection.request(method, path, body or None, sent)
            answer = connection.getresponse()
            return answer.status, answer.read()
        finally:
            connection.close()

    def read(self, path: str) -> bytes:
        """What is at an address after the key."""
        status, body = self.ask("GET", "/%s/%s" % (self.key, path))
        if status != 200:
            raise AssertionError("%s: status %d, %r" % (path, status, body))
        return body

    def post(self, path: str, value: object) -> Tuple[int, Any]:
        """Status and answer to JSON that is sent."""
        status, body = self.ask("POST", "/%s/%s" % (self.key, path), json.dumps(value).encode(), Content_Type="application/json")
        return status, json.loads(body.decode())

    def next(self) -> Any:
        """The next message of the preview."""
        if self.events is None:
            connection = http.client.HTTPConnection("127.0.0.1", self.port, timeout=SECONDS)
            connection.request("GET", "/%s/events" % self.key)
            self.events = connection.getresponse()
        while True:
            line = self.events.readline()
            if not line:
                raise AssertionError("the messages end")
            if line.startswith(b"data: "):
                return json.loads(line[len("data: ") :].decode())

    def until(self, right: Callable[[Any], Any]) -> Any:
        """The first message for which something is true."""
        until = time.monotonic() + SECONDS
        while time.monotonic() < until:
            found = self.next()
            if right(found):
                return found
        raise AssertionError("no such message comes")

    def row(self, right: Callable[[Any], Any], name: str = "") -> Any:
        """A configuration by its name, or the first one, once something is true of it."""
        def row_of(found: Any) -> Any:
            return next((it for it in found["configurations"] if it["name"] == name or not name), None)

        found = row_of(self.until(lambda it: bool(row_of(it)) and right(row_of(it))))
        self.first = self.first or found["name"]
        return found

    def state(self, name: str) -> Any:
        """All of a configuration."""
        return json.loads(self.read("state?configuration=" + name).decode())

    def picture(self, digest: str) -> png.Picture:
        """A picture by its digest."""
        return png.parsed(self.read("picture/%s.png" % digest))


@contextlib.contextmanager
def previewed(it: Place, *words: str) -> Iterator[Page]:
    """A preview, for as long as it is used."""
    with it.start("tools/preview", *words, stderr=subprocess.DEVNULL) as started:
        try:
            yield Page(started)
        finally:
            started.terminate()
            started.wait(SECONDS)


def pictures_are_those_of_other_tools() -> str:
    """The picture of a script is that of screenshot, and that of an app that of app."""
    with place() as it:
        it.copy(os.path.join(EXAMPLES, "screen.script"))
        it.copy(os.path.join(EXAMPLES, "trips", "trips.apk"))
        shutil.copytree(os.path.join(EXAMPLES, "trips", "res"), os.path.join(it.folder, "app", "res"))
        it.copy(os.path.join(EXAMPLES, "card.script"))
        with open(os.path.join(EXAMPLES, "screen.png"), "rb") as file:
            wanted = png.parsed(file.read())
        with previewed(it, "screen.script") as page:
            if page.picture(page.row(lambda row: row["picture"])["picture"]) != wanted:
                return "the picture of a script is another one than the stored"
        for words, name in ((("trips.apk", "home"), "phone"), (("app/res/layout/home.xml",), "phone"), (("app", "home"), "night")):
            device = {"phone": "w360dp-h640dp", "night": "w360dp-h640dp-night"}[name]
            app = words[0] if words[0] == "trips.apk" else "app"
            it.call("app", app, "home", "--config", device, "--picture", "a.png")
            with previewed(it, *words) as page:
                row = page.row(lambda row: row["picture"] or row["messages"], name)
                if row["messages"] or page.picture(row["picture"]) != png.parsed(it.read("a.png")):
                    return "%s: %s" % (words, row["messages"] or "another picture than that of app")
    return ""


def configurations() -> str:
    """The windows of each configuration, the direction, the density, and colours of the night."""
    with place() as it:
        it.put("a.xml", SOURCE.replace('android:padding="8dp"', 'android:background="@color/back"'))
        it.put("ids.txt", "app:color/back = 0x7f050001\n")
        it.put("resources.lines", "res @7f050001 color #ff0000ff\n")
        it.put("resources-night.lines", "res @7f050001 color #ff00ff00\n")
        with previewed(it, "a.xml") as page:
            rows = page.until(lambda found: len(found["configurations"]) == 6)["configurations"]
            states = {row["name"]: page.state(row["name"]) for row in rows}
    windows = {name: state["window"] for name, state in states.items()}
    wanted = {"phone": [360, 640], "tablet": [800, 1280], "landscape": [640, 360], "right-to-left": [360, 640],
              "night": [360, 640], "200-percent": [720, 1280]}
    if windows != wanted:
        return "windows: %s" % windows
    texts = {name: state["views"][1]["window"] for name, state in states.items()}
    backs = {name: state["views"][1]["background"] for name, state in states.items()}
    if (texts["phone"], texts["right-to-left"], backs["night"], backs["phone"]) != (
            [0, 0, 42, 8], [318, 0, 360, 8], "#ff00ff00", "#ff0000ff"):
        return "bounds %s, backgrounds %s" % (texts, backs)
    return ""


def findings_are_those_of_lint() -> str:
    """Of a layout of an app those that lint has, at views of the same names; what is included twice is at both views. An
    element that says so is passed over."""
    with place() as it:
        shutil.copytree(os.path.join(EXAMPLES, "trips", "res"), os.path.join(it.folder, "app", "res"))
        home = "app/res/layout/home.xml"
        lines = it.call("lint", home)[1].decode()
        names, places = (set(re.findall(form, lines, re.M)) for form in (
            r": warning ([\w-]+: v[0-9]+ \w+)", r"^(.*:[0-9]+:[0-9]+: warning [\w-]+:)"))
        with previewed(it, home) as page:
            page.row(lambda row: row["findings"] is not None, "phone")
            state = page.state("phone")
        views = {view["number"]: view for view in state["views"]}
        shown = {"%s: v%d %s" % (one["rule"], one["view"], views[one["view"]]["kind"]) for one in state["found"]}
        elements = [(views[one["view"]]["element"], one["rule"]) for one in state["found"]]
        at = {"%s:%d:%d: warning %s:" % (element["file"], element["line"], element["column"], rule) for element, rule in elements}
    is_same = names and names <= shown and at == places
    return "" if is_same else "lint has %s at %s, the preview %s at %s" % (names, places, shown, at)


def places_are_those_of_the_source() -> str:
    """Of a source with a list of ids a class that the program has not is at its element; a night without values has no
    empty place."""
    with place() as it:
        it.put("ids.txt", "")
        it.put("a.xml", SOURCE.replace("<TextView", "<Button"))
        it.put("a.script", TOUCHED)
        with previewed(it, "a.xml") as page:
            said = page.row(lambda row: row["messages"])["messages"][0]
        with previewed(it, "a.script") as page:
            night = page.row(lambda row: row["messages"], "night")["messages"][0]
    is_right = said.startswith("a.xml:5:5: 23 UnknownClass: Button: ") or "a.xml:5:5: 23 UnknownClass: Button: " in said
    return "" if is_right and night.startswith("night: ") else "it says %r and %r" % (said, night)


def source_of(count: int, text: str = "item") -> str:
    """The source of a layout of a number of views."""
    items = "".join(
        '    <TextView android:layout_width="match_parent" android:layout_height="wrap_content"\n'
        '        android:text="%s %d" android:background="#%06x" />\n' % (text, number, number * 7919 % (1 << 24))
        for number in range(2, count + 1))
    return ('<LinearLayout xmlns:android="http://schemas.android.com/apk/res/android" android:orientation="vertical"\n'
            '    android:layout_width="match_parent" android:layout_height="match_parent">\n%s'
            "</LinearLayout>\n" % items)


def single_sources_are_those_of_app() -> str:
    """A source in no project is made as the layout of an app: it has the picture of one in `res/layout`, the places of
    its own file, and the findings of lint."""
    text = SOURCE.replace("<TextView", "<Button").replace("8dp", "@dimen/none")
    with place() as it:
        os.makedirs(os.path.join(it.folder, "app", "res", "layout"))
        it.put("Single-one.xml", text)
        it.put("app/res/layout/one.xml", text)
        found: List[Tuple[object, ...]] = []
        for path in ("Single-one.xml", "app/res/layout/one.xml"):
            with previewed(it, path) as page:
                row = page.row(lambda row: row["picture"] or row["messages"], "phone")
                element = page.state("phone")["views"][2]["element"]
                found.append((row["messages"], row["picture"], element["file"], element["name"], element["line"]))
                if path == "Single-one.xml":
                    page.row(lambda row: row["findings"] is not None, "phone")
                    rules = {one["rule"] for one in page.state("phone")["found"]}
    picture = found[1][1]
    names = ("Single-one.xml", "app/res/layout/one.xml")
    wanted: List[Tuple[object, ...]] = [([], picture, name, "Button", 5) for name in names]
    return "" if found == wanted and picture and "hard-coded-text" in rules else "%s, %s" % (found, rules)


def changes_come_in_time() -> str:
    """From a saved file to the picture of 200 views, of a script, of a layout of an app, and of a source alone: by the
    processor time of the preview, whatever else runs, and by the clock; and files are looked at often enough."""
    if watcher.PAUSE > MOST / 5:
        return "between two looks at the files there are %g s" % watcher.PAUSE
    with place() as it:
        os.makedirs(os.path.join(it.folder, "res", "layout"))
        for name, made in (("a.script", of_views), ("res/layout/a.xml", source_of), ("a.xml", source_of)):
            it.put(name, made(200))
            with previewed(it, name) as page:
                why = late(it, page, name, made)
            if why:
                return "%s: %s" % (name, why)
    return ""


def late(it: Place, page: Page, name: str, made: Callable[[int, str], str]) -> str:
    """By how much the quickest of some changes of a file is late, in processor time or by the clock."""
    old = page.row(lambda row: row["picture"] and row["findings"] is not None)["picture"]
    worked, took = [], []
    for number in range(TRIES):
        time.sleep(0.2)
        slow, clock = slowness(), clock_of(page.started.pid)
        text = made(200, "changed %d" % number)
        begun, before = time.monotonic(), time.clock_gettime(clock)
        it.put(name, text)
        row = page.row(lambda row: row["picture"] not in (None, old) and not row["messages"], page.first)
        page.read("picture/%s.png" % row["picture"])
        worked.append((time.clock_gettime(clock) - before) / slow.work)
        took.append((time.monotonic() - begun) / slow.clock)
        old = row["picture"]
        if max(min(worked), min(took)) <= MOST:
            return ""
    return "the quickest of %d changes took %d ms of processor time, and %d ms by the clock, as on a machine alone" % (
        TRIES, 1000 * min(worked), 1000 * min(took))


class Slowness(NamedTuple):
    """How many times longer work takes now than on a machine alone: in processor time, and by the clock."""

    work: float
    clock: float


def slowness() -> Slowness:
    """How slow the machine is now, by work that takes ALONE seconds on one that does nothing else; never below 1."""
    begun, before = time.monotonic(), time.process_time()
    sum(number * number for number in range(COUNT))
    return Slowness(max(1, (time.process_time() - before) / ALONE), max(1, (time.monotonic() - begun) / ALONE))


def clock_of(process: int) -> int:
    """The clock of the processor time of a process, with all its threads, as Linux numbers it."""
    return ~process << 3 | 2


def broken_files_keep_the_picture() -> str:
    """While a file is broken the last good picture stays, with the place of the fault; then the new one comes."""
    with place() as it:
        it.put("a.script", TOUCHED)
        it.put("b.xml", SOURCE)
        for name, bad, good, said in (
            ("a.script", TOUCHED.replace("add v1 Scr", "ad v1 Scr"), TOUCHED.replace("ffeceff1", "ff00ff00"),
             "a.script:4:1: 31 Syntax: no line begins with 'ad'; did you mean 'add'?"),
            ("b.xml", SOURCE.replace("8dp", "8dq"), SOURCE.replace("8dp", "9dp"),
             "b.xml:5:5: android:padding: '8dq' does not fit: it is a number with a unit as 16dp or a resource as @7f050001"),
            ("b.xml", SOURCE[:-12], SOURCE, "b.xml:8:1: this is no XML: unclosed token"),
        ):
            with previewed(it, name) as page:
                old = page.row(lambda row: row["picture"] and not row["messages"])["picture"]
                it.put(name, bad)
                row = page.row(lambda row: row["messages"])
                if row["messages"][0] != said or not row["old"] or row["picture"] != old:
                    return "of a broken file: %s" % row
                if not page.state(row["name"])["views"]:
                    return "the views of the last good file are not there"
                os.unlink(os.path.join(it.folder, name))
                row = page.row(lambda row: "No such file" in "".join(row["messages"]))
                if row["picture"] != old:
                    return "of a missing file: %s" % row
                it.put(name, good)
                row = page.row(lambda row: not row["messages"])
                if row["old"] or row["picture"] == old:
                    return "after that: %s" % row
    return ""


def touches_are_answered() -> str:
    """Lines are carried out by the program after the script, and each has the reply that the program gives."""
    with place() as it:
        it.put("a.script", TOUCHED)
        lines = ["down 0 80 30", "up 0", "frame", "down 3 80 100", "move 3 80 40", "up 3", "frame", "up 3"]
        with previewed(it, "a.script") as page:
            page.row(lambda row: row["picture"])
            status, found = page.post("touch", {"configuration": "as-it-is", "lines": lines})
            events = found.get("events", [])
            again = page.post("touch", {"configuration": "as-it-is", "lines": ["frame"]})[1]
            page.post("reset", {})
            anew = page.post("touch", {"configuration": "as-it-is", "lines": ["frame"]})[1]
            moved = page.picture(found["picture"])
        whole = TOUCHED + "\n".join(lines[:-1]) + "\n"
        written = it.start("vindaesk", "run").communicate(whole.encode(), SECONDS)[0].decode()
        it.call("screenshot", "-", "a.png", given=whole)
        wanted = png.parsed(it.read("a.png"))
    replies = [reply for event in events[:-1] for reply in event["replies"]]
    if status != 200 or replies != written.splitlines()[-len(replies) :]:
        return "status %d: %s" % (status, replies)
    if [event["taken"] for event in events[:3]] != [4, 4, None] or not events[-1]["refused"]:
        return "views that took them: %s" % [(event["taken"], event["refused"]) for event in events]
    # a drag of 60 pixels, less the 8 that Android takes for a touch that stays in its place
    offsets = [it["views"][1]["scroll"] for it in (found, again, anew)]
    if offsets != [52, 52, 0]:
        return "offsets of what scrolls: %s" % offsets
    return "" if moved == wanted else "the picture after touches is another one than that of screenshot"


def writes_back() -> str:
    """A value is written into its place, and no other byte changes."""
    with place() as it:
        shutil.copytree(os.path.join(EXAMPLES, "trips", "res"), os.path.join(it.folder, "app", "res"))
        home = "app/res/layout/search.xml"
        app_text = it.read(home).decode()
        old_name = re.search(r'android:layout_height="([^"]*)"', app_text)
        assert old_name is not None
        for name, text, view, key, new, wanted in (
            ("a.script", TOUCHED, 4, "text", "Ö \\n b", TOUCHED.replace("text v4 Send", "text v4 Ö \\n b")),
            ("b.script", TOUCHED.replace("\n", "\r\n"), 4, "add", "TextView match 50",
             TOUCHED.replace("\n", "\r\n").replace("match 60", "match 50")),
            ("c.xml", SOURCE, 3, "android:text", "\"'<&>", SOURCE.replace("A &amp; &lt;b&gt;", "&quot;'&lt;&amp;>")),
            ("d.xml", SOURCE, 2, "android:layout_height", "wrap_content",
             SOURCE.replace("='match_parent'", "='wrap_content'")),
            ("e.xml", SOURCE.replace("\n", "\r\n"), 3, "android:padding", "9dp",
             SOURCE.replace("\n", "\r\n").replace("8dp", "9dp")),
            (home, app_text, 2, "android:layout_height", "300dp",
             app_text[: old_name.start(1)] + "300dp" + app_text[old_name.end(1) :]),
        ):
            it.put(name, text)
            os.chmod(os.path.join(it.folder, name), 0o640)
            with previewed(it, name, "--write") as page:
                page.row(lambda row: row["picture"])
                asked = value_of(page, view, key)
                status, found = page.post("edit", {**asked, "text": new})
                if status != 200 or it.read(name).decode() != wanted:
                    return "%s: status %d, %s, %r" % (name, status, found, it.read(name))
                page.row(lambda row: row["picture"] and not row["messages"])
                if os.stat(os.path.join(it.folder, name)).st_mode & 0o777 != 0o640:
                    return "the rights of the file are others"
    return ""


def writes_again() -> str:
    """Values that are written right after one another, before the page has seen the new file; and a file that becomes
    what it was."""
    texts = (("android:text", "A & <b>", "much longer"), ("android:padding", "8dp", "12dp"), ("android:padding", "12dp", "9dp"),
             ("android:text", "much longer", ""), ("android:layout_height", "wrap_content", "20dp"))
    wanted = SOURCE.replace("8dp", "9dp").replace("A &amp; &lt;b&gt;", "").replace('height="wrap_content"', 'height="20dp"')
    with place() as it:
        it.put("a.xml", SOURCE)
        with previewed(it, "a.xml", "--write") as page:
            page.row(lambda row: row["picture"])
            asked = {name: value_of(page, 3, name) for name, _, _ in texts}
            found = [page.post("edit", {**asked[name], "old": old, "text": new}) for name, old, new in texts]
            if found != [(200, {})] * len(texts) or it.read("a.xml").decode() != wanted:
                return "%s, %r" % (found, it.read("a.xml"))
            it.put("a.xml", SOURCE)
            status = 409
            # nothing is written while the values of a file that changed are not read
            for _ in range(50):
                if status == 409:
                    time.sleep(0.1)
                    status, _ = page.post("edit", {**asked["android:padding"], "text": "7dp"})
            return "" if status == 200 and it.read("a.xml").decode() == SOURCE.replace("8dp", "7dp") else "%d after that" % status


def value_of(page: Page, view: int, name: str) -> Dict[str, Any]:
    """The request that writes a value of a view of the first configuration, less the new text."""
    first = page.state(page.first)
    values = next(it for it in first["views"] if it["number"] == view)["values"]
    number = next(place for place, it in enumerate(values) if it["name"] == name)
    return {"configuration": first["name"], "view": view, "place": number, "old": values[number]["value"]}


def refuses_to_write() -> str:
    """Nothing is written without --write, into a file that changed meanwhile, or what does not fit."""
    with place() as it:
        it.put("a.xml", SOURCE)
        it.put("b.xml", SOURCE.replace("android:padding", 'android:theme="?a" android:padding'))
        it.put("a.script", TOUCHED)
        with previewed(it, "a.xml") as page:
            page.row(lambda row: row["picture"])
            found = page.post("edit", {**value_of(page, 3, "android:padding"), "text": "9dp"})
            if found != (409, {"error": "nothing is written without --write"}):
                return "without --write: %s" % (found,)
        for name, view, key, text, said in (
            ("a.xml", 3, "android:padding", "9dq", "android:padding: '9dq' does not fit"),
            ("a.script", 4, "text", "a\nb", "a line of a script has no line feed"),
            ("a.script", 3, "orient", "verticl", "'verticl' does not fit; did you mean 'vertical'?"),
            ("a.script", 1, "bg", "@color/x", "@color/x has no id"),
            ("a.xml", 3, "android:text", "\ud800", "half of a character"),
            ("a.xml", 3, "android:padding", "", "android:padding: '' does not fit"),
            ("b.xml", 3, "android:theme", "", "android:theme cannot be empty; take it out of b.xml in an editor"),
        ):
            before = it.read(name)
            with previewed(it, name, "--write") as page:
                page.row(lambda row: row["picture"])
                status, answer = page.post("edit", {**value_of(page, view, key), "text": text})
                if status != 409 or said not in answer["error"] or it.read(name) != before:
                    return "%r: status %d, %s" % (text, status, answer)
        with previewed(it, "a.xml", "--write") as page:
            page.row(lambda row: row["picture"])
            asked = value_of(page, 3, "android:padding")
            other = page.post("edit", {**asked, "old": "7dp", "text": "9dp"})
            it.put("a.xml", SOURCE + "\n")
            found = page.post("edit", {**asked, "text": "9dp"})
            if other[0] != 409 or found[0] != 409 or it.read("a.xml") != (SOURCE + "\n").encode():
                return "of a file that changed: %s, %s" % (other, found)
    return ""


def hostile_requests() -> str:
    """Requests by other names, without the key, of other pages, and broken ones are refused."""
    with place() as it:
        it.put("a.script", TOUCHED)
        with previewed(it, "a.script", "--write") as page:
            page.row(lambda row: row["picture"])
            good = "/%s/" % page.key
            touch, json_type = b'{"configuration": "as-it-is", "lines": ["frame"]}', {"Content_Type": "application/json"}
            requests: List[Tuple[int, str, str, bytes, Dict[str, str]]] = [
                (403, "GET", good, b"", {"Host": "evil.example:%d" % page.port}),
                (403, "GET", good, b"", {"Host": "127.0.0.1"}),
                (200, "GET", good, b"", {"Host": "localhost:%d" % page.port}),
                (403, "GET", "/", b"", {}),
                (403, "GET", "/" + page.key, b"", {}),
                (403, "GET", "/%s/" % ("x" * len(page.key)), b"", {}),
                (403, "GET", "//%s/" % page.address[:-2], b"", {}),
                (404, "GET", good + "../../etc/passwd", b"", {}),
                (404, "GET", good + "touch", b"", {}),
                (404, "GET", good + "picture/../a.png", b"", {}),
                (409, "GET", good + "state?configuration=no", b"", {}),
                (400, "GET", good + "state?configuration=as-it-is&frame=-1", b"", {}),
                (404, "POST", good + "state", b"{}", json_type),
                (501, "PUT", good + "edit", b"{}", json_type),
                (501, "OPTIONS", good + "edit", b"", {}),
                (403, "POST", good + "touch", touch, {**json_type, "Origin": "http://evil.example"}),
                (403, "POST", good + "touch", touch, {**json_type, "Origin": "null"}),
                (403, "POST", good + "touch", touch, {**json_type, "Sec_Fetch_Site": "cross-site"}),
                (415, "POST", good + "touch", touch, {"Content_Type": "text/plain"}),
                (400, "POST", good + "touch", b"[" * 20000, json_type),
                (400, "POST", good + "touch", b"\xff", json_type),
                (400, "POST", good + "touch", b'{"configuration": "as-it-is", "lines": ["restore 00"]}', json_type),
                (400, "POST", good + "touch", b'{"configuration": "as-it-is", "lines": ["frame\\nframe"]}', json_type),
                (400, "POST", good + "touch", b'{"configuration": 3, "lines": ["frame"]}', json_type),
                (413, "POST", good + "touch", b" " * 70000, json_type),
                (400, "POST", good + "edit", b'{"view": true}', json_type),
                (409, "POST", good + "edit", b'{"configuration": "as-it-is", "view": 99, "place": 0, "old": "", "text": ""}', json_type),
                (200, "POST", good + "touch", touch, {**json_type, "Origin": "http://127.0.0.1:%d" % page.port}),
            ]
            for wanted, method, path, body, headers in requests:
                status, answer = page.ask(method, path, body, **headers)
                if status != wanted:
                    return "%s %s %r %s: status %d in place of %d, %r" % (method, path, body[:60], headers, status, wanted, answer[:200])
            why = raw(page) or bound_elsewhere(page.port)
            return why or ("" if it.read("a.script") == TOUCHED.encode() else "the file changed")


def raw(page: Page) -> str:
    """How bytes that are no request end the preview, or a connection that stays open and says nothing."""
    opened = []
    for text in (b"", b"\0" * 100, b"GET " + b"x" * 70000, b"GET / HTTP/1.1\r\nHost: a\r\nHost: b\r\n\r\n", b"POST /%s/edit HTTP/1.1\r\n"
                 b"Host: 127.0.0.1:%d\r\nContent-Type: application/json\r\nContent-Length: 99\r\n\r\n{" % (page.key.encode(), page.port)):
        connection = socket.create_connection(("127.0.0.1", page.port), SECONDS)
        with contextlib.suppress(OSError):
            connection.sendall(text)
        opened.append(connection)
    status, _ = page.ask("GET", "/%s/" % page.key)
    for connection in opened:
        connection.setsockopt(socket.SOL_SOCKET, socket.SO_LINGER, struct.pack("ii", 1, 0))
        connection.close()
    return "" if status == 200 else "after broken requests: status %d" % status


def bound_elsewhere(port: int) -> str:
    """By which address of this machine, other than the one of loopback, the port can be reached."""
    with open("/proc/net/tcp", encoding="ascii") as file:
        rows = [line.split()[1] for line in file.readlines()[1:] if line.split()[3] == "0A"]
    found = [it for it in rows if int(it.split(":")[1], 16) == port]
    return "" if found == ["0100007F:%04X" % port] else "it listens at %s" % found


def ends_cleanly() -> str:
    """Ctrl-C ends it with the status 0 and without a word, and its live program; SIGTERM by that signal."""
    with place() as it:
        it.put("a.script", TOUCHED)
        for number, wanted, said in ((signal.SIGINT, 0, b""), (signal.SIGTERM, 143, b"preview: ended by the signal SIGTERM\n")):
            started = it.start("tools/preview", "a.script")
            page = Page(started)
            page.until(lambda found: len(found["configurations"]) == 7)
            page.row(lambda row: row["findings"] is not None, "200-percent")
            page.post("touch", {"configuration": "as-it-is", "lines": ["frame"]})
            children = children_of(started.pid)
            begun = time.monotonic()
            started.send_signal(number)
            _, errors = started.communicate(timeout=SECONDS)
            took = time.monotonic() - begun
            left = [child for child in children if os.path.exists("/proc/%d" % child)]
            # the list lacks a child whose thread has ended meanwhile
            if (started.returncode, errors, left) != (wanted, said, []) or took > 5:
                return "status %d, it says %r after %.1f s, and of %s there are %s" % (
                    started.returncode, errors, took, children, left)
    return ""


def children_of(process: int) -> List[int]:
    """The processes that a process has started."""
    found = []
    for task in os.listdir("/proc/%d/task" % process):
        # a thread may end meanwhile
        with contextlib.suppress(OSError), open("/proc/%d/task/%s/children" % (process, task), encoding="ascii") as file:
            found += [int(it) for it in file.read().split()]
    return found


def wrong_calls() -> str:
    with place() as it:
        it.put("a.script", TOUCHED)
        it.put("a.apk", "no")
        it.put("a.stack", "at 0 0 0\n")
        started = it.start("tools/preview", "--help")
        out, _ = started.communicate(timeout=SECONDS)
        if started.returncode or not out.startswith(b"usage: preview "):
            return "--help: status %d, %r" % (started.returncode, out)
        for words, status, said in (
            (("no.script",), 2, "preview: no.script cannot be read: No such file or directory\n"),
            (("a.stack",), 2, "a.stack is no script: it is a script of a stack of windows: "),
            ((".",), 2, "of an app one layout is shown: name it after ."),
            (("a.script", "home"), 2, "a.script is no app, so that no layout of it has the name 'home'"),
            ((os.path.join(EXAMPLES, "trips", "trips.apk"), "hom"), 2, "the app has no layout 'hom'; did you mean 'home'?"),
            (("a.apk", "home"), 2, "a.apk cannot be unpacked: it is no archive, or it is cut short"),
            (("a.script", "--port", "70000"), 2, "'70000' is no number from 0 to 65535"),
        ):
            found = it.call("preview", *words)
            if found[0] != status or said not in found[2] or found[1]:
                return "%s: %s" % (words, found)
        with socket.create_server(("127.0.0.1", 0)) as taken:
            port = "%d" % taken.getsockname()[1]
            found = it.call("preview", "a.script", "--port", port)
            if found[0] != 2 or "the port %s cannot be used: Address already in use" % port not in found[2]:
                return "of a port that is taken: %s" % (found,)
    return ""


def place_in(browser: chromium.Browser, x: int, y: int) -> Tuple[float, float]:
    """A point of the picture of TOUCHED in the browser's window."""
    browser.value("document.getElementById('stage').scrollIntoView({block: 'center'})")
    left, top, width = (browser.value("document.getElementById('stage').getBoundingClientRect().%s" % it) for it in ("left", "top", "width"))
    return left + (x + 0.5) * width / 160, top + (y + 0.5) * width / 160


def texts(browser: chromium.Browser, selector: str) -> List[str]:
    """The texts of some elements."""
    return list(browser.value("[...document.querySelectorAll('%s')].map(it => it.textContent)" % selector))


def follows_a_file(browser: chromium.Browser, it: Place) -> str:
    """A changed file, and a broken one."""
    old = browser.value("document.getElementById('picture').src")
    it.put("a.script", TOUCHED.replace("ffeceff1", "ff112233"))
    browser.until("document.getElementById('picture').src !== '%s' && document.getElementById('picture').complete" % old)
    new = browser.value("document.getElementById('picture').src")
    it.put("a.script", TOUCHED.replace("orient", "orien"))
    browser.until("document.querySelectorAll('#messages li').length > 0")
    said = texts(browser, "#messages li")
    if not said[0].startswith("a.script:7:1: 31 Syntax: no line begins with") or said[-1] != "The picture is the last good one.":
        return "of a broken file it shows %s" % said
    if browser.value("document.getElementById('picture').src") != new:
        return "the last good picture does not stay"
    it.put("a.script", TOUCHED)
    browser.until("document.querySelectorAll('#messages li').length === 0 && document.getElementById('picture').src === '%s'" % old)
    return ""


def stays(browser: chromium.Browser) -> None:
    """Waits until the picture stays where it is: messages that come move it."""
    before: List[float] = []
    for _ in range(100):
        now = list(place_in(browser, 0, 0))
        if now == before:
            return
        before = now
        time.sleep(0.3)


def is_touched(browser: chromium.Browser) -> str:
    """A click and a drag where the mouse touches."""
    browser.value("document.querySelector('#mode [value=touch]').click()")
    stays(browser)
    browser.click(*place_in(browser, 80, 30))
    browser.until("[...document.querySelectorAll('#log li')].some(it => it.textContent.startsWith('up 0')) && live")
    said = texts(browser, "#log li")
    wanted = ("up 0 \u2192 v4 TextView \u201cSend\u201d took it", "down 0 80 30 \u2192 v4 TextView \u201cSend\u201d took it")
    if not all(any(line.startswith(it) for line in said) for it in wanted):
        return "of a click it shows %s" % said
    stays(browser)
    browser.drag([place_in(browser, 80, y) for y in (100, 90, 70, 40)])
    browser.until("live.views[1].scroll === 52")
    browser.value("document.getElementById('reset').click()")
    browser.until("!live && document.querySelectorAll('#log li').length === 0")
    return ""


def is_used_by_keys(browser: chromium.Browser) -> str:
    """The tree, the tap of the chosen view, and the configurations."""
    browser.value("document.querySelector('#tree [aria-selected=true]').focus()")
    for key, number in (("Home", 1), ("ArrowDown", 2), ("ArrowRight", 3), ("End", 5), ("ArrowLeft", 3), ("ArrowDown", 4)):
        browser.press(key)
        if browser.value("chosen") != number:
            return "after the key %s the view %s is chosen" % (key, browser.value("chosen"))
    if browser.value("getComputedStyle(document.activeElement).outlineStyle") != "solid":
        return "the focus cannot be seen"
    browser.value("document.getElementById('tap').focus()")
    browser.press("Enter")
    browser.value("document.getElementById('tap').click()")
    browser.until("live && document.querySelectorAll('#log .taken').length >= 2")
    browser.until("document.querySelector('#configurations [value=landscape]') !== null")
    browser.value("document.querySelector('#configurations [value=landscape]').click()")
    browser.until("state.name === 'landscape' && state.window[0] === 640 && !live")
    browser.value("document.querySelector('#configurations [value=as-it-is]').click()")
    browser.until("state.name === 'as-it-is'")
    return ""


def is_edited(browser: chromium.Browser, it: Place) -> str:
    """A value is edited: one that is left without Enter, one that does not fit, and one that is written."""
    field = "[...document.querySelectorAll('#values li')].find(it => it.textContent.startsWith('text')).querySelector('input')"
    for leave in ("document.getElementById('tap').focus()", ""):
        browser.value("choose(4, false); %s.focus(); %s.select()" % (field, field))
        browser.write("Left")
        browser.value(leave) if leave else browser.press("Escape")
        if browser.value("%s.value" % field) != "Send" or it.read("a.script") != TOUCHED.encode():
            return "what is left without Enter stays, or is written"
    browser.value("%s.focus(); %s.select()" % (field, field))
    browser.write("a\\q")
    browser.press("Enter")
    browser.until("document.querySelector('#values .wrong:not(:empty)') !== null")
    if it.read("a.script") != TOUCHED.encode():
        return "what does not fit is written"
    browser.value("%s.select()" % field)
    browser.write("Archive")
    browser.press("Enter")
    browser.until("viewOf(4).text === 'Archive'")
    wanted = TOUCHED.replace("Send", "Archive")
    it.put("b.script", it.read("a.script"))
    it.put("a.script", TOUCHED)
    browser.until("viewOf(4).text === 'Send'")
    return "" if it.read("b.script") == wanted.encode() else "it writes %r" % it.read("b.script")


def shows() -> str:
    """The page, in a wide window and in a narrow and dark one."""
    if not chromium.COMMAND:
        raise Skipped("chromium")
    with place() as it:
        it.put("a.script", TOUCHED)
        with previewed(it, "a.script", "--write") as page:
            for width, is_dark in ((1280, False), (360, True)):
                with chromium.Browser(width, 800, is_dark) as browser:
                    browser.go(page.address)
                    browser.until("state !== null && document.getElementById('picture').complete")
                    why = follows_a_file(browser, it) or is_touched(browser) or is_used_by_keys(browser) or is_edited(browser, it)
                    why = why or looks(browser, is_dark)
                    if why:
                        return "%d pixels wide: %s" % (width, why)
    return ""


def says_why_there_is_no_picture() -> str:
    """A script without a frame: the page and the tiles say why, and no button is for what is not there; then it
    comes."""
    if not chromium.COMMAND:
        raise Skipped("chromium")
    why = "no frame came after the last window"
    with place() as it, chromium.Browser(360, 800) as browser:
        it.put("a.script", TOUCHED.replace("frame\n", ""))
        with previewed(it, "a.script") as page:
            browser.go(page.address)
            browser.until("state !== null && summary.configurations.length === 7")
            said = [*texts(browser, "#size"), *texts(browser, "#configurations .wrong")]
            night = "locale and night choose files of values, and there is no resources-night.lines"
            wanted = ["There is no picture: " + why, *[why] * 5, night, why]
            buttons = browser.value("[...document.querySelectorAll('main button')].every(it => it.disabled)")
            hidden = browser.value("getComputedStyle(document.getElementById('stage')).display")
            found = texts(browser, "#found li")
            if (said, buttons, hidden, found) != (wanted, True, "none", ["lint has not looked at it"]):
                return "%s, buttons %s, the picture %s, findings %s" % (said, buttons, hidden, found)
            it.put("a.script", TOUCHED)
            browser.until("picture() && !document.getElementById('step').disabled")
            it.put("a.script", TOUCHED.replace("frame\n", ""))
            browser.until("summary.configurations[0].old")
            old = texts(browser, "#configurations .wrong")[0]
            browser.value("state.found = []; summary.configurations[0].findings = 0; fillFound()")
            found = texts(browser, "#found li")
            if (old, found) != ("old: " + why, [OF_OLD]):
                return "of an old picture it says '%s', findings %s" % (old, found)
            return looks(browser, False)


SIZES = """[...document.querySelectorAll("#facts dt, #facts dd, .values label, .values .name, .values input, .values .value")]
    .map(it => getComputedStyle(it).fontSize)"""
CUT = "[...document.querySelectorAll('#configurations .wrong')].filter(it => it.scrollHeight > it.clientHeight).length"
EMPTY = "!document.querySelector('#log li') && getComputedStyle(document.getElementById('log'), '::before').content === 'none'"


def looks(browser: chromium.Browser, is_dark: bool) -> str:
    """What is wrong with how the page fits its window."""
    if browser.value("document.documentElement.scrollWidth > innerWidth"):
        return "it is wider than the window"
    faint = contrast.faint(browser)
    if faint:
        return "too little contrast: %s" % faint
    back = browser.value("getComputedStyle(document.body).backgroundColor")
    if (back == "rgb(15, 19, 24)") != is_dark:
        return "its background is %s" % back
    sizes, cut, is_empty = (browser.value(it) for it in (SIZES, CUT, EMPTY))
    if len(set(sizes)) > 1 or cut or is_empty:
        return "letters of %s, %d reasons that are cut, an empty box: %s" % (sorted(set(sizes)), cut, is_empty)
    unnamed = browser.value("[...document.querySelectorAll('button, input, [role=tree], [role=radiogroup]')].filter(it => "
                            "!it.ariaLabel && !it.getAttribute('aria-labelledby') && !(it.labels || []).length && !it.textContent).length")
    return "%d parts have no name" % unnamed if unnamed else ""


def checks() -> Checks:
    yield from named("the preview", (
        pictures_are_those_of_other_tools, configurations, findings_are_those_of_lint, places_are_those_of_the_source,
        single_sources_are_those_of_app, changes_come_in_time, broken_files_keep_the_picture,
        touches_are_answered, writes_back, writes_again, refuses_to_write, hostile_requests, ends_cleanly, wrong_calls,
    ))
    yield "browser: shows a preview", shows
    yield "browser: says why there is no picture", says_why_there_is_no_picture
