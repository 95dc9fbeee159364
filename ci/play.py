"""The page of docs/play in headless Chromium: each worked script, of one window and of a stack, has the bytes, the status,
the messages, the views and the picture that the program and the tools have; broken files, values made at random, names of
ids and lines `include` too.
"""
import contextlib
import json
import os
import random
import re
import subprocess
import tempfile
import unittest.mock
from functools import partial
from typing import Any, Callable, Dict, Iterator, List, Optional, Sequence, Tuple

import broken
import chromium
import grammar
import native
from playing import Case, encoded, first_difference, given, opened, text, texts
from running import PROGRAM, SECONDS, TOP, Checks, difference, named, need, run
from vindaesk.building import play
from vindaesk.common import files
from vindaesk.common.failures import Failure
from vindaesk.common.messages import tool
from vindaesk.layouts import attributes, compiler, faults
from vindaesk.layouts.documents import ANDROID, Attribute, End, Start, Value
from vindaesk.lint import refused_lines
from vindaesk.pictures import frames, png
from vindaesk.program import in_process
from vindaesk.scripts import script
from vindaesk.scripts.replies import Refused
from vindaesk.scripts.resource_names import Names
from vindaesk.scripts.script import Script
from vindaesk.views import placement, view_tree

EXAMPLES = os.path.join(TOP, "examples")
# the most pixels of a picture that is compared
PIXELS = 1 << 20
# how many files with a value made at random a script has, as many as tools look into; and how many scripts
VALUES, TIMES = 100, 6
# how many values are written in each form
MANY = 3000
INCLUDED = re.compile(rb"^include (\S+)$", re.M)
OF_WINDOW = re.compile(rb" *in +([0-7]) +")
# names of ids in a script and in what it includes, and those that are wrong
NAMED: Dict[str, bytes] = {
    "ids.txt": b"app:id/send = 0x7f080002\n# more\nid/Sent=7f080003\n android:id/x = 0x01020fff \napp:color/ink = 0x7f050001\n",
    "start.lines": b"window 100 40\nadd root FrameLayout match match\nbg v9 #ff0000ff\ninclude more.lines\n",
    "more.lines": "res @color/ink color #ff112233\ntext v1 é @id/none\nadd v1 TextView wrap wrap\n".encode(),
}
WITH_NAMES = "".join(it + "\n" for it in (
    "include start.lines", " include  more.lines ", "id v2 @id/send", "text @app:id/send é @id/send", "ink @id/send @color/ink",
    "bounds @id/sent", "size @id/send x @id/Sent 9", "id v3 @android:id/text1", "id v3 @android:id/txt1", "id v3 @+id/new",
    "id v3 @colr/ink", "bg @id/Sent #11223344 x", "frame", "res @color/ink text é @id/none", "id v1 @7f080003")).encode()
INCLUDES: Dict[str, Dict[str, bytes]] = {
    "include a.lines\n": {"a.lines": b"include b.lines\n", "b.lines": b"\n include a.lines"}, "\ninclude\n": {},
    "include no.lines\n": {}, "include a.lines\n" * 1001: {"a.lines": b""}, "add root View 1 1\nid v1 @id/a\n": {"ids.txt": b"a"},
    "id v1 @id/b\n": {"ids.txt": b"id/a=00000001\nid/a=00000002"},
}


def cases(form: str) -> Iterator[Case]:
    """Each worked script of a form."""
    for words, given_text, folder in native.worked():
        if words == [form]:
            named_files = [*in_process.NAMED.findall(given_text), *INCLUDED.findall(given_text)]
            held = in_process.contents_of(named_files, folder)
            assert held is not None
            yield Case(given_text, {name.decode(): it for name, it in held.items()}, form)


def broken_cases() -> Iterator[Case]:
    """The scripts of broken.py, and those of grammar.py with many wrong lines."""
    whole = files.read(os.path.join(EXAMPLES, "a.xml"))
    for at, _, _ in broken.fields():
        for number in (0, broken.GREATEST):
            yield Case(broken.INFLATING, {"a.xml": whole[:at] + number.to_bytes(4, "little") + whole[at + 4 :]})
    yield Case(broken.INFLATING, {"a.xml": broken.nested(broken.MAX_DEPTH + 1)})
    yield Case(broken.INFLATING, {"a.xml": b"\xef\xbb\xbf <View />", "b.xml": b""})
    yield Case(b"inflate dimen.xml\n\xef\xbb\xbfwindow 1 1\nwindow 1\xc3(\n" + b"x" * 1030, {"dimens.xml": b""})
    yield Case(grammar.places_of(grammar.LINES)[0].encode(), {"cut_short.xml": b"", "a.xml": whole})
    yield Case("\n".join(grammar.lines(random.Random(20261201))).encode(), {})
    lines = list(grammar.lines(random.Random(20261202)))
    stack = ["in %d %s" % (place % 3, it) if place % 5 else it for place, it in enumerate(lines)]
    yield Case(("at 0 1 1\nat 1 -3 9\n" + "\n".join(stack)).encode(), {}, "stack")


def value_of(made: random.Random) -> Value:
    """A value that no attribute has to fit: words of each type, and of each unit; many of them have few digits."""
    kind = made.choice((0, 1, 2, 3, 4, 4, 5, 5, 5, 6, 6, 0x10, 0x11, 0x12, 0x1C, 0x1D, 0x1E, 0x1F, 0x20))
    if kind == 3:
        return Value(3, 0, made.choice(("12", "@x", "\\", "a\tb\nc", "é" * 70, "#fff", "1dp", "true", " x ", "\u2028", "\U0001f600")))
    if kind in (5, 6):
        number = made.choice((1 << made.randrange(24), made.randrange(1 << 24), 3 * made.randrange(1 << 9), 1 << 15))
        return Value(kind, number << 8 | made.randrange(4) << 4 | made.randrange(8))
    few = made.choice((made.randrange(200), 1 << made.randrange(32), 0x3F800000 + (made.randrange(1 << 9) << 12)))
    return Value(kind, made.choice((few, made.randrange(1 << 32), 0x7F080002, 0xFFFFFFFF, 0xFFFFFFFE, 0x7F800000)))


def file_of(made: random.Random) -> bytes:
    """A file with one element, an attribute of which has such a value."""
    names = ("layout_width", "gravity", "orientation", "layout_weight", "text", "background", "clickable", "id", "visibility")
    sizes = [Attribute(ANDROID, it, Value(5, 0x101)) for it in ("layout_width", "layout_height")]
    name, value = made.choice(names), value_of(made)
    found = [Attribute(ANDROID, name, value, value.text), *(it for it in sizes if it.name != name)]
    whole = sorted(found, key=lambda it: attributes.id_of(ANDROID, it.name))
    return compiler.compiled([Start(7, "", "TextView", whole), End(7, "", "TextView")])


def value_cases() -> Iterator[Case]:
    """Files with an element each that is refused for a value."""
    made = random.Random(20261203)
    for _ in range(TIMES):
        held = {"f%d.xml" % number: file_of(made) for number in range(VALUES)}
        lines = ["inflate %s into v1\n" % it for it in held]
        yield Case(("add root FrameLayout 0 0\n" + "".join(lines)).encode(), {**held, "ids.txt": NAMED["ids.txt"]})


def named_cases() -> Iterator[Case]:
    """Scripts with names of ids, and with lines of other files."""
    yield Case(WITH_NAMES, NAMED)
    yield Case(WITH_NAMES, {name: it for name, it in NAMED.items() if name != "ids.txt"})
    yield Case(b"at 0 0 0\nin 0 add root View 1 1\nin 0 id v1 @id/send\nin 0 text v1 @id/no\nin 0 size @id/no 1 x", NAMED, "stack")


@contextlib.contextmanager
def made_of(case: Case) -> Iterator[Tuple[Script, str]]:
    """A case as the tools read it, and a folder with its files."""
    with tempfile.TemporaryDirectory() as folder:
        for name, it in case.held.items():
            files.replace(os.path.join(folder, name), it)
        yield script.named(script.written_in(os.path.join(folder, "-own"), case.script), os.path.join(folder, "-own"), None, False), folder


def messages(made: Script, form: str, folder: str) -> List[List[Any]]:
    """What `vindaesk check` says of a script, line by line."""
    place = folder + os.sep
    return [["" if it.file.endswith("-own") else it.file[len(place) :], it.line, it.column, it.title,
             it.why.replace(place, "").replace(tool("axml"), "tools/axml")] for it in refused_lines.findings(made, form)]


def rows(made: Script) -> List[str]:
    """The tree of a script as `vindaesk tree` has it, without backgrounds; nothing where there is none."""
    try:
        views = placement.views_of(made, Refused(made, is_silent=True))
    except Failure:
        return []
    for it in views:
        it.view.background = view_tree.CLEAR
    return [it.strip() for it in placement.as_text(views).splitlines()]


def own_lines(made: Script, form: str) -> Dict[Optional[bytes], Script]:
    """The lines of a script, by the window; those of a stack in the order in which windows were opened first."""
    if form == "run":
        return {None: made}
    found: Dict[Optional[bytes], List[bytes]] = {}
    for line in made.lines:
        words, inner = script.words_of(line), OF_WINDOW.match(line)
        if words[:1] == [b"at"] and len(words) == 4:
            found.setdefault(words[1], [])
        elif words[:1] == [b"close"] and len(words) == 2:
            found.pop(words[1], None)
        elif inner and inner[1] in found:
            found[inner[1]].append(line[inner.end() :])
    return {pane: Script(lines, made.folder, ids=made.ids) for pane, lines in found.items()}


def rows_of_windows(made: Script, form: str) -> List[str]:
    """The views of each window, in the order of their numbers."""
    return [row for _, it in sorted(own_lines(made, form).items(), key=lambda it: it[0] or b"") for row in rows(it)]


FOUND = {
    "messages": "play.refused.map(it => [it.file, it.line, it.column, it.title, it.why])",
    "views": "[...document.querySelectorAll('#tree li')].map(it => it.textContent)",
}


def shown_rows(found: List[str]) -> List[str]:
    """The rows of the page, of a stack window by window in the order of their numbers."""
    if not found or not found[0].startswith("window "):
        return found
    parts: Dict[str, List[str]] = {}
    for it in found:
        if it.startswith("window "):
            pane = it.split(" ")[1]
            parts[pane] = []
        else:
            parts[pane].append(it)
    return [row for _, part in sorted(parts.items()) for row in part]


def unlike(browser: chromium.Browser, case: Case) -> str:
    """How what the page has of a script is not what program and tools have, or nothing."""
    given(browser, case)
    with made_of(case) as (made, folder):
        is_same = made.lines == script.lines_in(case.script)
        plain = case.script if is_same else b"".join(it + b"\n" for it in made.lines)
        ended = run([PROGRAM, case.form], plain, folder)
        why = difference(*ended, encoded(browser, "play.answer"), browser.value("play.status"))
        pairs: Sequence[Tuple[str, List[Any]]] = (
            ("messages", messages(made, case.form, folder)), ("views", rows_of_windows(made, case.form)))
        for what, wanted in () if why else pairs:
            found = browser.value(FOUND[what])
            found = shown_rows(found) if what == "views" else found
            if found != wanted:
                at = next((k for k, pair in enumerate(zip(found, wanted)) if pair[0] != pair[1]), min(len(found), len(wanted)))
                return "%s: %s in place of %s" % (what, found[at : at + 1], wanted[at : at + 1])
    return why


def all_alike(made: Callable[[], Iterator[Case]], least: int) -> str:
    """Why the page has something else of a case than program and tools, or nothing."""
    count = 0
    with opened() as browser:
        for case in made():
            why = unlike(browser, case)
            if why:
                return "%r: %s" % (case.script[:80], why)
            count += 1
    return "" if count >= least else "there are only %d cases" % count


def picture_of(case: Case, origin: Sequence[int], size: Sequence[int]) -> Optional[png.Picture]:
    """The picture of a script by the tools; of a stack the part of it with this corner and this size."""
    with made_of(case) as (made, folder):
        if case.form == "run":
            *_, frame = frames.frames(made, Refused(made, is_silent=True))
            return frame.picture
        asked = b"".join(b"compose %d %d %d 1\n" % (origin[0], origin[1] + row, size[0]) for row in range(size[1]))
        found = run([PROGRAM, "stack"], case.script + b"\n" + asked, folder)[0].splitlines()[-size[1] :]
        return png.Picture(size[0], size[1], [bytes.fromhex(it.decode()) for it in found])


def shows_pictures() -> str:
    """The canvas has the picture of the tools."""
    with opened() as browser:
        for case in (*cases("run"), *cases("stack")):
            given(browser, case)
            size = browser.value("play.picture && [play.picture.width, play.picture.height]")
            if size and size[0] * size[1] > PIXELS:
                continue
            origin = browser.value("play.picture && play.picture.origin")
            picture = picture_of(case, origin, size or (0, 0)) if size or case.form == "run" else None
            if bool(size) != (picture is not None):
                return "%r: there is a picture, or none" % case.script[:80]
            if picture is None:
                continue
            context = "document.getElementById('picture').getContext('2d').getImageData(0, 0, %d, %d).data" % tuple(size)
            found = encoded(browser, context)
            plain = bytearray(len(found) // 4 * 3)
            plain[0::3], plain[1::3], plain[2::3] = found[0::4], found[1::4], found[2::4]
            if bytes(plain) != b"".join(picture.rows):
                return "%r: the canvas has another picture" % case.script[:80]
    return ""


def writes_values() -> str:
    """In each form of attributes values have the texts that the tools write."""
    made, names = random.Random(20261204), Names(NAMED["ids.txt"], "ids.txt")
    forms = [*{it.form.forms: it.form for it in attributes.KNOWN.values()}.values(), attributes.ANY, attributes.FLAGS]
    pairs = [(value_of(made), at) for _ in range(MANY) for at in range(len(forms))]
    asked = {"values": [[value._asdict(), at] for value, at in pairs], "forms": [play.form_record(it) for it in forms],
             "ids": NAMED["ids.txt"].decode()}
    folder = os.path.join(TOP, "docs", "play")
    source = """
        import { readFileSync } from "node:fs";
        import { shown } from "%s/values.mjs";
        import { Names } from "%s/names.mjs";
        const { values, forms, ids } = JSON.parse(readFileSync(0, "utf8")), names = new Names(ids, {});
        const texts = values.map(([value, at]) => shown({ namespace: "", name: "a", value }, forms[at], names));
        console.log(JSON.stringify(texts));
    """ % (folder, folder)
    ended = subprocess.run([need("node"), "--input-type=module", "-e", source], input=json.dumps(asked).encode(),
                           stdout=subprocess.PIPE, check=True, timeout=SECONDS)
    for (value, at), found in zip(pairs, json.loads(ended.stdout.decode())):
        with unittest.mock.patch.object(attributes, "form_of", lambda *_: forms[at]):
            wanted = faults.shown(Attribute("", "a", value), names)
        if found != wanted:
            return "%s as %s: %s in place of %s" % (value, forms[at].forms, found, wanted)
    return ""


def wrong_includes() -> str:
    """Where a file cannot be included, or a list of ids be read, the page says what the tools say."""
    with opened() as browser:
        for own, held in INCLUDES.items():
            case = Case(own.encode(), held)
            given(browser, case)
            try:
                with made_of(case):
                    said = "nothing"
            except Failure as failure:
                said = re.sub(r"/tmp/[^/]*/(-own:)?", lambda it: "line " if it[1] else "", str(failure))
            said = said.replace("-own includes", "the script includes").replace("no.lines", "no.lines; add it to the page")
            if text(browser, "state") != "No answer: %s." % said:
                return "%r in place of %r" % (text(browser, "state"), said)
        return first_difference([(texts(browser, "#messages li"), [])])


def checks() -> Checks:
    yield "play: each worked script has bytes, messages and views of the program", partial(all_alike, partial(cases, "run"), 60)
    yield "play: each worked stack has bytes, messages and views of the program", partial(all_alike, partial(cases, "stack"), 6)
    yield "play: broken files and lines have the messages of check", partial(all_alike, broken_cases, 40)
    yield "play: values of refused elements are those of check", partial(all_alike, value_cases, TIMES)
    yield "play: names of ids and included files are those of check", partial(all_alike, named_cases, 3)
    yield from named("play", (shows_pictures, writes_values, wrong_includes))
