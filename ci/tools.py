"""Tries the tools of tools/, over the examples and over scripts of its own, wrong ones too."""
import contextlib
import io
import json
import os
import pty
import re
import runpy
import shutil
import signal
import struct
import subprocess
import sys
import tempfile
import time
import xml.etree.ElementTree
import zlib
from typing import Any, Dict, Iterable, Iterator, List, Optional, Sequence, Tuple, Union

from running import PROGRAM, SECONDS, TOP, Checks, named
from vindaesk.pictures import chunks, filters, png

# the status, what is written, and what is said
Ended = Tuple[int, bytes, str]

EXAMPLES = os.path.join(TOP, "examples")
TOOLS = ("screenshot", "picdiff", "tree", "runall", "check", "axml", "unpack", "lint", "page", "install", "app", "preview",
         "language", "serve")
RED = "window 2 2\nadd root View match match\nbg v1 #ffff0000\nframe\n"
UNSETTLED = """window 100 20
add root LinearLayout match match
add v1 View 10 match
add v1 View 20 match
frame
hook v2 size v3 30 match
hook v3 size v2 50 match
size v2 45 match
frame
"""
# scripts without a picture, and what is said of them
WITHOUT = {
    "": "the script opens no window",
    "# frame\n\n   \n": "the script opens no window",
    "window 0 5\nframe": "the script opens no window",
    "window 9 9\nadd root View 1 1\n": "no frame came after the last window",
    RED + "window 9 9\n": "no frame came after the last window",
    UNSETTLED: "the last frame has not settled",
}
FOLLOWED = """window 100 100
add root FrameLayout match match
id v1 @A0
add @a0 ScrollView 50 40
id v2 @b
add @b TextView match wrap
min v3 0 100
text v3 é\\n\\\\ z
visible v3 invisible
add v1 View 5 5
id v4 @b
add v1 View 6 6
hook v4 bg v5 #ff112233
add v1 FrameLayout 7 7
add v6 View 1 1
remove v6
frame
size v4 6 5
frame
scroll @b 30
frame
"""
# a frame in which the only hook fires, and one in which one of two does
MAYBE = """hook v1 bg v1 #ff00ff00
add v1 View 1 1
frame
hook v1 bg v2 #ff0000ff
hook v2 bg v1 #ff0000ff ; bg v1 #ff00ff00
size v1 9 9
frame
"""
VIEWS = """v1 FrameLayout @a0 0 0 100 100
  v2 ScrollView @b 0 0 50 40 scroll 30
    v3 TextView "é\\n\\\\ z" 0 0 50 100 at 0 -30 50 70 invisible
  v4 View @b 0 0 6 5
  v5 View 0 0 6 6 bg #ff112233
"""


class Place:
    """A folder in which tools are called."""

    def __init__(self, folder: str):
        self.folder = folder

    def put(self, name: str, text: Union[str, bytes]) -> None:
        """Writes a file."""
        with open(os.path.join(self.folder, name), "wb") as file:
            file.write(text if isinstance(text, bytes) else text.encode())

    def copy(self, path: str) -> None:
        """Copies a file."""
        shutil.copy(path, self.folder)

    def read(self, name: str) -> bytes:
        with open(os.path.join(self.folder, name), "rb") as file:
            return file.read()

    def stand_in(self, act: str) -> Dict[str, str]:
        """The variables under which tools run this in place of the program, whichever library others name."""
        self.put("program", "#!/usr/bin/env bash\n%s\n" % act)
        os.chmod(os.path.join(self.folder, "program"), 0o755)
        return {"VINDAESK_PROGRAM": os.path.join(self.folder, "program"), "VINDAESK_LIBRARY": ""}

    def start(self, *command: str, stderr: int = subprocess.PIPE, **variables: str) -> "subprocess.Popen[bytes]":
        """A tool, or another program of the repository, as a process of its own."""
        return subprocess.Popen(
            [os.path.join(TOP, command[0]), *command[1:]], cwd=self.folder, env={**os.environ, **variables},
            stdin=subprocess.PIPE, stdout=subprocess.PIPE, stderr=stderr
        )

    def call(self, tool: str, *words: str, given: str = "", **variables: str) -> Ended:
        """Status, standard output and standard error of a tool, which runs in this process, since that is quicker."""
        path = os.path.join(TOP, "tools", tool)
        buffers = [io.BytesIO(text) for text in (given.encode(), b"", b"")]
        streams = [io.TextIOWrapper(it, encoding="utf-8") for it in buffers]
        names, before = ("argv", "stdin", "stdout", "stderr"), (sys.argv, sys.stdin, sys.stdout, sys.stderr)
        kept, status = dict(os.environ), 0
        os.chdir(self.folder)
        os.environ.update(variables)
        try:
            for name, value in zip(names, ([path, *words], *streams)):
                setattr(sys, name, value)
            runpy.run_path(path, run_name="__main__")
        except SystemExit as ended:
            status = ended.code if isinstance(ended.code, int) else 1
        finally:
            for name, value in zip(names, before):
                setattr(sys, name, value)
            os.chdir(TOP)
            os.environ.clear()
            os.environ.update(kept)
        for stream in streams[1:]:
            stream.flush()
        return status, buffers[1].getvalue(), buffers[2].getvalue().decode()

    def names(self) -> List[str]:
        return sorted(os.listdir(self.folder))


@contextlib.contextmanager
def place() -> Iterator[Place]:
    with tempfile.TemporaryDirectory() as folder:
        yield Place(folder)


def unlike(found: Ended, status: int, out: Optional[bytes] = None, said: Optional[str] = None) -> str:
    """How the end of a call is not as it should be: the status, all of standard output, and a part of standard error,
    which has to be empty where the part is."""
    if found[0] != status:
        return "status %d in place of %d, '%s'" % (found[0], status, found[2])
    if out is not None and found[1] != out:
        return "it writes %r" % found[1]
    if said is not None and (said not in found[2] or bool(said) != bool(found[2])):
        return "it says '%s', and not '%s'" % (found[2], said)
    return ""


def first(results: Iterable[str]) -> str:
    """The first reason among some, or nothing."""
    return next(filter(None, results), "")


def helps() -> str:
    with place() as it:
        for tool in TOOLS:
            started = it.start("tools/" + tool, "--help")
            out, _ = started.communicate(timeout=SECONDS)
            if started.returncode or not out.startswith(b"usage: %s" % tool.encode()):
                return "%s: status %d, and it writes %r" % (tool, started.returncode, out)
            why = unlike(it.call(tool, "--unknown"), 2, b"")
            if why:
                return "%s --unknown: %s" % (tool, why)
        return ""


def lacks_program() -> str:
    with place() as it:
        it.put("a.script", RED)
        it.put("a.answer", "")
        said = "there is no program at /nowhere/it, which the variable VINDAESK_PROGRAM names"
        calls = (("screenshot", "a.script", "a.png"), ("tree", "a.script"), ("runall", "."), ("check", "a.script"))
        return first(unlike(it.call(*words, VINDAESK_PROGRAM="/nowhere/it"), 126, b"", said) for words in calls)


def takes_pictures() -> str:
    with place() as it:
        script, stored = (os.path.join(EXAMPLES, "screen" + ending) for ending in (".script", ".png"))
        found = it.call("screenshot", script, "-")
        if unlike(found, 0, None, ""):
            return unlike(found, 0, None, "")
        with open(stored, "rb") as file:
            if png.parsed(found[1]) != png.parsed(file.read()):
                return "the picture is another one than the stored"
        it.put("a.png", "old")
        why = unlike(it.call("screenshot", "-", "a.png", "--scale", "3", given=RED), 0, b"", "")
        red = png.Picture(6, 6, [b"\xff\0\0" * 6] * 6)
        return why or ("" if png.parsed(it.read("a.png")) == red else "a scaled picture is wrong")


def composes_windows() -> str:
    """A red window, and a blue one above its right half; a refused line is reported by its number in the script."""
    with place() as it:
        red = "".join("in 0 %s\n" % line for line in RED.splitlines())
        blue = red.replace("in 0", "in 1").replace("ff0000", "0000ff")
        text = "at 0 0 0\n%sat 1 1 0\nin 2 frame\n%s" % (red, blue)
        found = it.call("screenshot", "-", "a.png", "--stack", "3x2", given=text)
        why = unlike(found, 1, b"", "screenshot: standard input:7:4: 43 NoPane: no window of this number is open\n")
        wanted = png.Picture(3, 2, [b"\xff\0\0" + b"\0\0\xff" * 2] * 2)
        return why or ("" if png.parsed(it.read("a.png")) == wanted else "the picture of the windows is wrong")


def reports_refused_lines() -> str:
    with place() as it:
        text = "# one\nad root View 1 1\n" + RED + "frame" + " " * 1020 + "\n\nbounds\nré\x07t"
        found = it.call("screenshot", "-", "a.png", given=text)
        said = ["2:1: 31 Syntax: no line begins with 'ad'; did you mean 'add'?",
                "7:1025: 32 LongLine: the line has more than 1024 bytes", "10:1: 31 Syntax: no line begins with 'ré\\x07t'"]
        why = unlike(found, 1, b"", "".join("screenshot: standard input:%s\n" % line for line in said))
        if why or it.names() != ["a.png"]:
            return why or "files: %s" % it.names()
        found = it.call("tree", "-", given="\n" * 100 + "x\n" * 60 + RED)
        lines = found[2].splitlines()
        ends = ["tree: standard input:101:1: 31 Syntax: no line begins with 'x'", "tree: 10 more lines are refused"]
        if (len(lines), lines[::50]) != (51, ends):
            return "of 60 refused lines it says '%s'" % found[2]
        return unlike(found, 1, b"v1 View 0 0 2 2 bg #ffff0000\n")


def lacks_pictures() -> str:
    with place() as it:
        for text, why in WITHOUT.items():
            found = unlike(it.call("screenshot", "-", "a.png", given=text), 1, b"", "there is no picture: %s\n" % why)
            found = found or unlike(it.call("tree", "-", given=text), 1, b"", "there are no bounds: %s\n" % why)
            if found or it.names():
                return "%r: %s" % (text, found or "files: %s" % it.names())
        removed = it.call("tree", "-", given=RED + "remove v1")
        return unlike(removed, 1, b"", "there are no bounds: the tree has no root\n")


def lacks_files() -> str:
    with place() as it:
        os.mkdir(os.path.join(it.folder, "folder"))
        it.put("a.script", RED)
        calls = {
            ("screenshot", "no.script", "a.png"): "no.script cannot be read: No such file",
            ("screenshot", "folder", "a.png"): "many scripts need --out DIR",
            ("screenshot", "a.script", "folder"): "folder cannot be written: it is no file",
            ("screenshot", "a.script", "no/a.png"): "no/a.png cannot be written: No such file",
            ("screenshot", "a.script", "--frames", "a.script"): "a.script: File exists",
            ("screenshot", "a.script"): "OUT.png, --out DIR or --frames DIR is needed",
            ("screenshot", "a.script", "a.png", "--scale", "0"): "'0' is no number from 1 to 8",
            ("screenshot", "a.script", "a.png", "--stack", "9"): "'9' is no size, as 320x180",
            ("screenshot", "a.script", "--frames", "made", "--stack", "9x9"): "--stack takes OUT.png or --out DIR, and no --frames",
            ("tree", "no.script"): "no.script cannot be read: No such file",
            ("check", "no.script"): "no.script cannot be read: No such file",
            ("check", "folder"): "there is no *.script or *.stack in folder",
            ("tree", "folder"): "there is no *.script in folder",
            ("picdiff", "a.script", "a.script"): "a.script is no PNG file that can be read: it does not begin as one",
            ("picdiff", "no.png", "a.script"): "no.png cannot be read: No such file",
            ("picdiff", "folder", "folder"): "folder cannot be read: Is a directory",
            ("runall", "no"): "there is no folder no",
            ("runall", "folder"): "there is no script in folder",
            ("runall", ".", "--shard", "3/2"): "I is 1 to N",
            ("install", ""): "PREFIX is empty",
        }
        why = first(unlike(it.call(*words), 2, b"", said) for words, said in calls.items())
        return why or ("" if it.names() == ["a.script", "folder"] else "files: %s" % it.names())


def takes_frames() -> str:
    with place() as it:
        text = UNSETTLED.replace("frame\n", "bg v1 #ff00ff00\nframe\nbounds\n")
        text += "bg v1 #ff0000ff\nframe\nremove v1\nframe\n"
        found = it.call("screenshot", "-", "--frames", "made/in", "last.png", given=text)
        said = ("standard input:13:1: 36 Unsettled: the last frame has not settled\n"
                "screenshot: standard input:17:1: 34 NoRoot: the tree has no root\n")
        why = unlike(found, 1, b"", "screenshot: " + said)
        if why:
            return why
        made = sorted(os.listdir(os.path.join(it.folder, "made/in")))
        if made != ["0001.png", "0002.png"]:
            return "the pictures are %s" % made
        names = [os.path.join("made/in", name) for name in made] + ["last.png"]
        points = [png.parsed(it.read(name)).rows[0][:3] for name in names]
        return "" if points == [b"\0\xff\0", b"\0\0\xff", b"\0\0\xff"] else "the colours are %s" % points


def ends_with_the_program() -> str:
    with place() as it:
        os.mkdir(os.path.join(it.folder, "folder"))
        text = RED.replace("View", "FrameLayout") + "inflate folder into v1\n"
        for words in (("screenshot", "-", "a.png"), ("tree", "-"), ("check", "-")):
            why = unlike(it.call(*words, given=text), 6, b"", "status 6: a file could not be read")
            for act, status, said in (("kill -9 $$", 137, "ended by the signal SIGKILL"),
                                      ("exit 5", 5, "out of memory"), ("exit 0", 1, "wrote no answer to line")):
                why = why or unlike(it.call(*words, given=text, **it.stand_in(act)), status, b"", said)
            if why:
                return "%s: %s" % (words[0], why)
        return "" if it.names() == ["folder", "program"] else "files: %s" % it.names()


def ended_by(it: Place, words: Sequence[str], number: int) -> Ended:
    """The end of a tool to which a signal comes while the program runs, and whether the program ends too."""
    act = "cd '%s' && echo $$ > begun && mv begun started && exec sleep 60" % it.folder
    variables = it.stand_in(act)
    started = it.start("tools/" + words[0], *words[1:], stderr=subprocess.PIPE, **variables)
    until = time.monotonic() + SECONDS
    while "started" not in it.names() and time.monotonic() < until:
        time.sleep(0.01)
    program = it.read("started").decode().strip()
    os.unlink(os.path.join(it.folder, "started"))
    # by then the tool has taken note of it
    time.sleep(0.5)
    started.send_signal(number)
    out, said = started.communicate(timeout=SECONDS)
    # a process that has ended stays until it is waited for, and has no command then
    with contextlib.suppress(OSError), open("/proc/%s/cmdline" % program) as file:
        said += b"the program goes on" if file.read() else b""
    return started.returncode, out, said.decode()


# what runall writes of the one case that it was ended in
OF_CASES = (b"0 passed, 1 failed\n", "runall: 1 case was not run, and counts as failed\n")


def can_be_interrupted() -> str:
    ends = ((signal.SIGINT, 130, "interrupted"), (signal.SIGTERM, 143, "ended by the signal SIGTERM"))
    with place() as it:
        it.put("a.script", RED)
        it.put("a.answer", "")
        for words in (("screenshot", "a.script", "a.png"), ("check", "a.script"), ("page", "a.script", "a.html"),
                      ("runall", ".", "--accept"), ("unpack", os.path.join(EXAMPLES, "inbox/inbox.apk"), "made")):
            for number, status, said in ends:
                out, more = OF_CASES if words[0] == "runall" else (b"", "")
                found = ended_by(it, words, number)
                if found != (status, out, more + "%s: %s\n" % (words[0], said)):
                    return "%s: %s" % (words, found)
        is_right = it.names() == ["a.answer", "a.script", "program"] and it.read("a.answer") == b""
        return "" if is_right else "files: %s" % it.names()


def follows_views() -> str:
    with place() as it:
        why = unlike(it.call("tree", "-", given=FOLLOWED), 0, VIEWS.encode(), "")
        found = it.call("tree", "--json", "-", given=FOLLOWED)
        if why or unlike(found, 0):
            return why or unlike(found, 0)
        whole = json.loads(found[1].decode())
        wanted = {"number": 3, "parent": 2, "depth": 3, "class": "TextView", "id": None, "id_name": None, "text": "é\n\\ z",
                  "bounds": [0, 0, 50, 100], "window": [0, -30, 50, 70], "scroll": None, "visibility": "invisible",
                  "background": "#00000000", "answer": "off", "rules": {},
                  "given": {"width": "match", "height": "wrap", "min_width": "0 px", "min_height": "100 px"},
                  "source": {"element": "TextView", "places": [{"file": "standard input", "line": 6, "column": 1}],
                             "attributes": {}, "added": False, "exact_bounds": True, "exact_picture": True}}
        if (whole["window"], whole["views"][2]) != ([100, 100], wanted):
            return "JSON: %s" % whole
        with open(os.path.join(TOP, "docs", "tree.schema.json")) as file:
            schema = json.load(file)
        return unfit(whole, schema) or ("" if unfit({**whole, "window": [9]}, schema) else "the schema takes anything")


# how a schema names the types
TYPES = {"object": dict, "array": list, "string": str, "integer": int, "boolean": bool, "null": type(None)}


def unfit(value: Any, schema: Any) -> str:
    """Where a value is not of the form that a JSON Schema says, by the words that docs/tree.schema.json has."""
    of = schema.get("type", [])
    size = value if isinstance(value, int) else len(value) if isinstance(value, list) else 0
    fits = [
        not of or any(isinstance(value, TYPES[it]) for it in ([of] if isinstance(of, str) else of)),
        value in schema.get("enum", [value]), value is None or size >= schema.get("minimum", size),
        not isinstance(value, list) or schema.get("minItems", 0) <= size <= schema.get("maxItems", size),
        not isinstance(value, str) or re.search(schema.get("pattern", ""), value) is not None,
        not isinstance(value, dict) or "properties" not in schema
        or set(schema["required"]) == set(schema["properties"]) == set(value),
        not isinstance(value, dict) or set(value) <= set(schema.get("propertyNames", {"enum": value})["enum"]),
    ]
    if not all(fits):
        return "%r does not fit %r" % (value, schema)
    inner = [(it, schema["items"]) for it in value] if isinstance(value, list) else []
    inner += [(value[it], schema["properties"][it]) for it in schema.get("properties", {}) if value is not None]
    if isinstance(value, dict) and "properties" not in schema:
        inner += [(it, schema["additionalProperties"]) for it in value.values()]
    return first(unfit(*it) for it in inner)


def follows_files() -> str:
    """The views of a file, which names resources, into a tree; and a background that one of two hooks may have set."""
    with place() as it:
        it.put("page.xml", open(os.path.join(EXAMPLES, "page.xml"), "rb").read())
        before = "window 480 800\nadd root FrameLayout match match\n"
        found = it.call("tree", "-", "--json", given=before + "inflate page.xml into v1\nframe\n")
        if unlike(found, 0, None, ""):
            return unlike(found, 0, None, "")
        views = json.loads(found[1].decode())["views"]
        if [view["number"] for view in views] != list(range(1, len(views) + 1)) or views[1]["parent"] != 1:
            return "JSON: %s" % views
        lines = it.call("tree", "-", given=before + MAYBE)[1].decode().splitlines()
        wanted = ["v1 FrameLayout 0 0 9 9 bg #ff00ff00", "  v2 View 0 0 1 1 bg unknown"]
        return "" if lines == wanted else "%s" % lines


def coded(form: int, rows: List[bytes], kinds: Sequence[int], extra: bytes = b"") -> bytes:
    """A PNG file of some colour type, whose rows go by these filters."""
    step = png.BYTES[form]
    above, body = bytes(len(rows[0])), b""
    for kind, row in zip(kinds, rows):
        left = bytes(step) + row[:-step]
        corner = bytes(step) + above[:-step]
        guess = {0: bytes(len(row)), 1: left, 2: above, 3: bytes((a + b) // 2 for a, b in zip(left, above)),
                 4: bytes(map(filters.below, left, above, corner))}[kind]
        body += bytes([kind]) + bytes((a - b) & 255 for a, b in zip(row, guess))
        above = row
    head = struct.pack(">IIBBBBB", len(rows[0]) // step, len(rows), 8, form, 0, 0, 0)
    ends = chunks.chunk(b"IDAT", zlib.compress(body)) + chunks.chunk(b"IEND", b"")
    return chunks.SIGNATURE + chunks.chunk(b"IHDR", head) + extra + ends


def reads_png() -> str:
    rows = [bytes((k * 7 + line * 90 + k * k) % 256 for k in range(12)) for line in range(5)]
    colours = [b"".join(bytes([it] * 3) for it in row) for row in rows]
    palette = chunks.chunk(b"PLTE", bytes(it for k in range(256) for it in (k, k, k)))
    opaque = [b"".join(bytes((it, 255)) for it in row) for row in rows]
    seen = [b"".join(row[k : k + 3] + b"\x80" for k in range(0, 12, 3)) for row in rows]
    half = [bytes((it * 128 + 127) // 255 for it in row) for row in rows]
    wanted = {2: (rows, rows), 0: (rows, colours), 3: (rows, colours), 4: (opaque, colours), 6: (seen, half)}
    for form, (stored, shown) in wanted.items():
        for kinds in ((0, 1, 2, 3, 4), (4, 3, 2, 1, 0)):
            if png.parsed(coded(form, stored, kinds, palette if form == 3 else b"")).rows != shown:
                return "a file of the type %d with filters %s is read wrong" % (form, kinds)
    picture = png.Picture(4, 5, rows)
    return "" if png.parsed(png.written(picture)) == picture else "what is written is not read"


def broken_files() -> Iterator[bytes]:
    """Files that are no whole picture."""
    good = png.written(png.Picture(2, 2, [b"\1\2\3\4\5\6"] * 2))
    head = chunks.chunk(b"IHDR", struct.pack(">IIBBBBB", 60000, 60000, 8, 2, 0, 0, 0))
    yield from (good[:size] for size in (0, 7, 8, 20, 33, len(good) - 12, len(good) - 1))
    yield good.replace(b"IDAT", b"IDAU")
    yield chunks.SIGNATURE + head + chunks.chunk(b"IDAT", zlib.compress(bytes(1000))) + chunks.chunk(b"IEND", b"")
    yield chunks.SIGNATURE + good[33:]
    for form, rows, extra in ((3, [b"\1\2"], b""), (2, [b"\1\2\3"] * 2, b"")):
        yield coded(form, rows, (0,), extra)


def refuses_broken_pictures() -> str:
    for number, file in enumerate(broken_files(), 1):
        try:
            return "broken file %d is read as %s" % (number, png.parsed(file)[:2])
        except (ValueError, struct.error, zlib.error):
            pass
    with place() as it:
        it.put("a.png", list(broken_files())[3])
        found = it.call("picdiff", "a.png", "a.png")
        return unlike(found, 2, b"", "a.png is no PNG file that can be read: it is cut short\n")


def compares_pictures() -> str:
    with place() as it:
        rows = [b"\x10\x20\x30" * 4] * 3
        it.put("a.png", png.written(png.Picture(4, 3, rows)))
        other = [rows[0], b"\x10\x20\x30\x10\x20\x37" * 2, b"\x15\x20\x30" + rows[2][3:]]
        it.put("b.png", png.written(png.Picture(4, 3, other)))
        it.put("c.png", png.written(png.Picture(3, 4, [b"\x10\x20\x30" * 3] * 4)))
        calls = [
            (("a.png", "a.png"), 0, b"no pixel differs\n"),
            (("a.png", "b.png", "out.png"), 1, b"3 pixels differ, by at most 7, within 0 1 4 3\n"),
            (("a.png", "b.png", "--tolerance", "5"), 1, b"2 pixels differ, by at most 7, within 1 1 4 2\n"),
            (("a.png", "b.png", "--tolerance", "7"), 0, b"no pixel differs\n"),
        ]
        why = first(unlike(it.call("picdiff", *words), status, out, "") for words, status, out in calls)
        why = why or unlike(it.call("picdiff", "a.png", "c.png"), 2, b"", "the sizes differ: 4 by 3, and 3 by 4\n")
        why = why or unlike(it.call("picdiff", "-", "-"), 2, b"", "only one picture")
        same, red = b"\4\x08\x0c", b"\xff\0\0"
        wanted = [same * 4, same + red + same + red, red + same * 3]
        is_right = png.parsed(it.read("out.png")).rows == wanted
        return why or ("" if is_right else "the picture of the difference is wrong")


def runs_all() -> str:
    with place() as it:
        os.mkdir(os.path.join(it.folder, "in"))
        files = {"a.script": "window 1 1\n", "a.answer": "", "b.script": RED, "b.answer": "v7\nsettled 0\n",
                 "b.png": "x", "c.script": "x", "in/d.script": "x", "in/d.answer": "line 1: refused 31 Syntax\n",
                 "in/d.status": "1\n", "e.xml": "", "e.answer": "", "f.xml": ""}
        for name, text in files.items():
            it.put(name, text)
        found = it.call("runall", ".", "--junit", "out.xml", "--jobs", "1")
        out = ("failed: ./b.script\n--- ./b.answer\n+++ what is written\n@@ -1,2 +1,2 @@\n-v7\n+v1\n settled 0\n"
               "failed: ./c.script\nit has no c.answer; --accept writes one\n"
               "failed: ./e.xml\n--- ./e.answer\n+++ what is written\n@@ -0,0 +1 @@\n+file: refused 1 Truncated at 0\n"
               "2 passed, 3 failed\n")
        suite = xml.etree.ElementTree.fromstring(it.read("out.xml"))
        named = [case.get("name") for case in suite.iter("testcase") if case.find("failure") is not None]
        why = unlike(found, 1, out.encode(), "")
        why = why or ("" if named == ["b.script", "c.script", "e.xml"] else "JUnit: %s" % named)
        accepted = b"accepted: ./b.script\naccepted: ./c.script\naccepted: ./e.xml\n5 passed, 0 failed\n"
        why = why or unlike(it.call("runall", ".", "--accept", "--jobs", "1"), 0, accepted, "")
        why = why or unlike(it.call("runall", ".", "in/d.script"), 0, b"5 passed, 0 failed\n", "")
        return why or ("" if it.read("c.status") == b"1\n" else "no status is accepted")


def runs_all_that_break() -> str:
    with place() as it:
        for name, text in {"a.script": RED, "a.answer": "v1\nsettled 0\n", "a.png": "x"}.items():
            it.put(name, text)
        broken = b"./a.png is no PNG file that can be read: it does not begin as one\n"
        why = unlike(it.call("runall", "."), 1, b"failed: ./a.script\n" + broken + b"0 passed, 1 failed\n", "")
        slow = b"failed: ./a.script\nit takes more than 1 seconds\n0 passed, 1 failed\n"
        why = why or unlike(it.call("runall", ".", "--timeout", "1", **it.stand_in("exec sleep 9")), 1, slow, "")
        ended = b"failed: ./a.script\nthe program was ended by the signal SIGKILL\n0 passed, 1 failed\n"
        for words in ((), ("--accept",)):
            why = why or unlike(it.call("runall", ".", *words, **it.stand_in("echo v1; kill -9 $$")), 1, ended, "")
        return why


def shows_progress() -> str:
    """What a terminal shows that is the standard error of runall."""
    with place() as it:
        for name in ("a", "b"):
            it.put(name + ".script", RED)
            it.put(name + ".answer", "v1\nsettled 0\n" if name == "b" else "x")
        mine, theirs = pty.openpty()
        started = it.start("tools/runall", ".", "--jobs", "1", stderr=theirs)
        os.close(theirs)
        out, _ = started.communicate(timeout=SECONDS)
        shown = os.read(mine, 4096).decode()
        os.close(mine)
        for part in ("\r\x1b[K[%s] 0 of 2" % ("." * 30), "\r\x1b[K[%s] 2 of 2, 1 failed\r\x1b[K" % ("#" * 30)):
            if part not in shown:
                return "%r is not in %r" % (part, shown)
        return "" if out.endswith(b"1 passed, 1 failed\n") and b"of 2" not in out else "it writes %r" % out


def shows_long_work() -> str:
    """What a terminal shows of a tool that waits for a slow program; nothing of it stays."""
    with place() as it:
        real = os.environ.get("VINDAESK_PROGRAM") or PROGRAM
        slow = it.stand_in("'%s' \"$@\" | while IFS= read -r it; do printf '%%s\\n' \"$it\"; sleep 0.4; done" % real)
        it.put("a.script", RED + "frame\n" * 8)
        begun = []
        for words in (("tree", "a.script"), ("screenshot", "a.script", "--frames", "made"), ("page", "a.script", "-")):
            mine, theirs = pty.openpty()
            begun.append((words, mine, it.start("tools/" + words[0], *words[1:], stderr=theirs, **slow)))
            os.close(theirs)
        for words, mine, started in begun:
            started.communicate(timeout=SECONDS)
            shown = os.read(mine, 4096).decode()
            os.close(mine)
            if started.returncode or not re.search(r"\] \d+ of \d+ parts of the script", shown) or shown[-4:] != "\r\x1b[K":
                return "%s: status %d, it shows %r" % (words, started.returncode, shown)
        return ""


def closed_streams() -> str:
    """Each tool whose standard input, output or error is closed: it ends with a sentence, or as it should."""
    with place() as it:
        it.put("a.script", RED)
        it.put("a.png", png.written(png.Picture(2, 2, [b"\xff\0\0" * 2] * 2)))
        it.copy(os.path.join(EXAMPLES, "page.xml"))
        calls = {"screenshot": "a.script b.png", "picdiff": "a.png a.png", "tree": "a.script", "runall": "a.script",
                 "check": "a.script", "axml": "--text page.xml -", "lint": "a.script", "page": "a.script -",
                 "unpack": os.path.join(EXAMPLES, "inbox/inbox.apk") + " made", "install": "prefix",
                 "app": os.path.join(EXAMPLES, "inbox/inbox.apk") + " inbox",
                 # those that go on until they are ended are given what they do not take
                 "preview": "missing.script", "serve": "--port no", "language": "--no"}
        for tool in TOOLS:
            for closed in ("<&-", ">&-", "2>&-", "<&- >&- 2>&-"):
                line = "exec '%s' %s %s" % (os.path.join(TOP, "tools", tool), calls[tool], closed)
                ended = subprocess.run(["bash", "-c", line], cwd=it.folder, stdout=subprocess.PIPE, stderr=subprocess.PIPE)
                said = ended.stderr.decode()
                if "Traceback" in said or ended.returncode not in (0, 1, 2, 4):
                    return "%s %s: status %d, '%s'" % (tool, closed, ended.returncode, said)
        line = "exec '%s' a.script >&-" % os.path.join(TOP, "tools", "tree")
        ended = subprocess.run(["bash", "-c", line], cwd=it.folder, stderr=subprocess.PIPE)
        return unlike((ended.returncode, b"", ended.stderr.decode()), 4, b"", "tree: standard output: ")


def unknown_words() -> str:
    """The checks and the benchmark, by a word that names nothing."""
    with place() as it:
        commands: Tuple[Tuple[str, List[str], str], ...] = (
            ("ci/checks", [], "stored cases: examples"), ("bench/run", [], "bounds, 4096 views"),
            ("bench/run", ["engines"], "scrolled by a pixel"))
        for command, first, name in commands:
            tries = ((first + ["no such"], 2, name), (first + ["bounds", "no such"], 2, name), (["--help"], 0, command))
            for words, status, shown in tries:
                started = it.start(command, *words)
                out, said = started.communicate(timeout=SECONDS)
                if started.returncode != status or shown not in (said if status else out).decode():
                    return "%s %s: status %d, '%s'" % (command, words, started.returncode, said.decode())
        return ""


def checks() -> Checks:
    yield from named("the tools", (
        helps, lacks_program, takes_pictures, composes_windows, reports_refused_lines, lacks_pictures, lacks_files,
        takes_frames, ends_with_the_program, can_be_interrupted, follows_views, follows_files, reads_png,
        refuses_broken_pictures, compares_pictures, runs_all, runs_all_that_break, shows_progress, shows_long_work,
        closed_streams, unknown_words
    ))
