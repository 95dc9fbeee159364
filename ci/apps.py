"""Tries the tools that compile layouts and that unpack apps, over the app of examples/inbox/, which Android's build
tools have made of the sources there, and over the layouts of examples/."""
import glob
import io
import os
import re
import struct
import zipfile
from typing import Dict, Iterable, Iterator, Tuple

from running import PROGRAM, TOP, Checks, named
from tools import first, place, unlike
from vindaesk.common import files
from vindaesk.layouts import attributes, compiler, documents, source_reader, source_writer, values
from vindaesk.scripts import resource_names

INBOX = os.path.join(TOP, "examples", "inbox")
APP = os.path.join(INBOX, "inbox.apk")
TRIPS = os.path.join(TOP, "examples", "trips", "trips.apk")
IDS = os.path.join(INBOX, "ids.txt")
HEAD = '<View xmlns:android="http://schemas.android.com/apk/res/android" android:layout_width="1px"\n    '
# of a source that does not fit: the attribute, and what is said of it
WRONG = {
    'android:layout_height="12"':
        "'12' does not fit: it is match_parent, wrap_content, fill_parent, a number with a unit as 16dp or a resource",
    'android:layout_height="12 dp"': "'12 dp' does not fit: it is",
    'android:layout_height="match_parnt"': "'match_parnt' does not fit; did you mean 'match_parent'?",
    'android:layout_height="99999999999dp"': "is too large",
    'android:gravity="top|rigth"': "'top|rigth' does not fit; did you mean 'right'?",
    'android:orientation="vertcal"': "'vertcal' does not fit; did you mean 'vertical'?",
    'android:background="red"': "'red' does not fit: it is a colour as #ff0080ff or a resource as @7f050001",
    'android:background="#12345"': "'#12345' does not fit",
    'android:clickable="yes"': "'yes' does not fit: it is true or false or a resource",
    'android:id="title"': "'title' does not fit: it is a resource as @7f050001",
    'android:id="@id/title"': "the list of ids has no id/title",
    'android:id="@+dimen/gap"': "'@+dimen/gap' cannot be made here: only ids of views are",
    'android:text="@string/title"': "the list of ids has no string/title",
    'android:text="?attr/title"': "the list of ids has no attr/title",
    'android:text="\\u12"': "'\\u' is not followed by four hexadecimal digits",
    'android:text="\\ud800"': "it has half of a character",
}
# sources that are no XML, or no layout
BROKEN = {
    "": "this is no XML: no element found",
    "<View>": "this is no XML: no element found",
    "<View></view>": "this is no XML: mismatched tag",
    '<android:View a="1"/>': "this is no XML: unbound prefix",
    "\3\0\x08\0": "this is no XML: it is compiled; --text makes a source of it",
    '<!DOCTYPE a [<!ENTITY b "c">]><View a="&b;"/>': "a layout has no document type",
}


def page_attributes() -> Iterator[Tuple[str, str]]:
    """The names of the table of docs/FORMATS.md, and of each whether it takes a reference that is an id."""
    with open(os.path.join(TOP, "docs", "FORMATS.md"), encoding="utf-8") as file:
        text = file.read()
    table = text[text.index("|name|takes|sets|") :].split("\n\n")[0]
    for row in table.split("\n")[2:]:
        cells = [cell.strip() for cell in row.strip("|").split("|")]
        stem = ""
        for name in re.findall(r"`([^`]+)`", cells[0]):
            if name.startswith(".."):
                name = re.sub(r"[A-Z][a-z]+$", name[2:], stem)
            stem = name
            yield name, cells[1]


def has_page_attributes() -> str:
    """The table of attributes has the names of the page, and of each what it takes."""
    said = {"dimension": "length", "float": "float", "colour": "colour", "boolean": "boolean", "string": "string"}
    wanted = dict(page_attributes())
    if wanted.keys() != attributes.KNOWN.keys():
        return "they differ by %s" % sorted(wanted.keys() ^ attributes.KNOWN.keys())
    for name, it in attributes.KNOWN.items():
        words = [said[form] for form in it.form.forms]
        words += ["whole number"] if it.form.words or it.form.flags else []
        words = words or ["reference (id)"]
        missing = [word for word in words if word not in wanted[name]]
        if missing:
            return "%s takes no %s" % (name, missing)
    return ""


def app_layouts() -> Iterator[Tuple[str, bytes]]:
    """The layouts of the app: the path and the bytes of each."""
    with zipfile.ZipFile(APP) as app:
        for name in sorted(app.namelist()):
            if name.startswith("res/layout"):
                yield name, app.read(name)


def compiles_as_the_build_tools() -> str:
    """The same bytes, and so the same lines of `dump`."""
    with place() as it:
        for name, wanted in app_layouts():
            why = unlike(it.call("axml", os.path.join(INBOX, name), "a.xml", "--ids", IDS), 0, b"", "")
            if why or it.read("a.xml") != wanted:
                return "%s: %s" % (name, why or "other bytes")
        return "" if it.names() == ["a.xml"] else "files: %s" % it.names()


def makes_sources() -> str:
    """A source of each layout of the app, of which the same file is made again."""
    with place() as it:
        for name, wanted in app_layouts():
            it.put("a.xml", wanted)
            why = unlike(it.call("axml", "--text", "a.xml", "b.xml", "--ids", IDS), 0, b"", "")
            why = why or unlike(it.call("axml", "b.xml", "c.xml", "--ids", IDS), 0, b"", "")
            if why or it.read("c.xml") != wanted:
                return "%s: %s" % (name, why or "other bytes")
        return ""


def elements(nodes: Iterable[documents.Node]) -> Iterator[Tuple[object, ...]]:
    """The nodes of a document but namespaces, without lines, and attributes in order of their names."""
    for node in nodes:
        if isinstance(node, documents.Start):
            found = sorted((it.namespace, it.name, it.value) for it in node.attributes)
            yield "start", node.namespace, node.name, found
        elif not isinstance(node, documents.Namespace):
            yield type(node).__name__, node[1:]


def makes_sources_of_examples() -> str:
    """The same elements, whose attributes other tools have put in another order."""
    for path in sorted(glob.glob(os.path.join(TOP, "examples", "*.xml"))):
        if os.path.exists(path[: -len("xml")] + "status"):
            continue
        nodes = documents.of_file(files.read(path), path)
        source = source_writer.text(nodes, resource_names.Names())
        found, wrong = source_reader.read(source.encode(), path, resource_names.Names())
        made = documents.of_file(compiler.compiled(found), path)
        if wrong or list(elements(made)) != list(elements(nodes)):
            return "%s: %s" % (os.path.basename(path), wrong or "other elements")
    return ""


def keeps_ids() -> str:
    with place() as it:
        source = '<View xmlns:android="http://schemas.android.com/apk/res/android" android:id="@+id/%s" />'
        it.put("made", "")
        os.mkdir(os.path.join(it.folder, "out"))
        calls = [("one", "out/a.xml", "out/ids.txt", "app:id/one = 0x7f080000\n"),
                 ("two", "out/a.xml", "out/ids.txt", "app:id/one = 0x7f080000\napp:id/two = 0x7f080001\n"),
                 ("one", "out/b.xml", "out/ids.txt", "app:id/one = 0x7f080000\napp:id/two = 0x7f080001\n")]
        for name, out, ids, wanted in calls:
            why = unlike(it.call("axml", "-", out, given=source % name), 0, b"", "")
            if why or it.read(ids).decode() != wanted:
                return why or "the list is '%s'" % it.read(ids).decode()
        it.put("list.txt", "# of another tool\n\nx.y:id/last = 0x7f0a0007\nx.y:dimen/gap = 7f0b0000\n")
        why = unlike(it.call("axml", "-", "-", "--ids", "list.txt", given=source % "new"), 0)
        wanted = "x.y:id/last = 0x7f0a0007\nx.y:id/new = 0x7f0a0008\nx.y:dimen/gap = 0x7f0b0000\n"
        if why or it.read("list.txt").decode() != wanted:
            return why or "the list is '%s'" % it.read("list.txt").decode()
        for line in ("x", "id/a = 0x0", "id/a = 0x00000000", "id/a = 0x7f080000\nid/b = 0x7f080000"):
            it.put("list.txt", line)
            found = it.call("axml", "-", "-", "--ids", "list.txt", given=source % "new")
            why = why or unlike(found, 2, b"", "axml: list.txt:%d: " % len(line.split("\n")))
        return why


def reports_wrong_sources() -> str:
    with place() as it:
        for text, said in WRONG.items():
            found = it.call("axml", "-", "a.xml", given=HEAD + text + "/>")
            why = unlike(found, 1, b"", "axml: standard input:1:1: %s: " % text.split("=")[0])
            if why or said not in found[2] or it.names():
                return "%s: %s" % (text, why or found[2])
        source = HEAD + 'android:id="a" android:text="@b/c"><View id="1" b="@id/d"/></View>'
        found = it.call("axml", "-", "a.xml", given=source)
        if found[0] != 1 or found[2].count("\n") != 3:
            return "of three that do not fit it says '%s'" % found[2]
        for text, said in BROKEN.items():
            it.put("a.xml", text)
            why = unlike(it.call("axml", "a.xml", "b.xml"), 1, b"", ": %s\n" % said)
            if why or it.names() != ["a.xml"]:
                return "%r: %s" % (text, why or it.names())
        return ""


def lacks_layouts() -> str:
    with place() as it:
        os.mkdir(os.path.join(it.folder, "folder"))
        it.put("a.xml", HEAD + "/>")
        it.put("long.xml", b"<" + b" " * (1 << 24))
        it.copy(os.path.join(TOP, "examples", "cut_short.xml"))
        calls = {
            ("axml", "no.xml", "b.xml"): "no.xml cannot be read: No such file",
            ("axml", "folder", "b.xml"): "folder cannot be read: Is a directory",
            ("axml", "long.xml", "b.xml"): "long.xml has more than 16777216 bytes",
            ("axml", "a.xml", "folder"): "folder cannot be written: it is no file",
            ("axml", "a.xml"): "the following arguments are required: OUT.xml",
            ("axml", "a.xml", "b.xml", "--text", "--ids", "no.txt"): "no.txt cannot be read: No such file",
            ("axml", "a.xml", "b.xml", "--text"): "a.xml is no compiled layout that can be read: refused 5 NotXml at 0",
            ("axml", "cut_short.xml", "b.xml", "--text"):
                "cut_short.xml is no compiled layout that can be read: refused 1 Truncated at 324",
            ("axml", "long.xml", "b.xml", "--text"): "long.xml has more than 16777216 bytes",
        }
        why = first(unlike(it.call(*words), 2, b"", said) for words, said in calls.items())
        killed = it.stand_in("kill -9 $$")
        for words in (("axml", "cut_short.xml", "b.xml", "--text"), ("unpack", APP, "made")):
            why = why or unlike(it.call(*words, **killed), 137, b"", "the program was ended by the signal SIGKILL\n")
        return why or ("" if not {"b.xml", "made"} & set(it.names()) else "files: %s" % it.names())


def has_page_values() -> str:
    """Texts of values that are kept in more than one way, with their types and words, as Android keeps them."""
    names = resource_names.Names()
    wanted = {
        "1.5dp": (5, 0x00C00021), "-3.25dp": (5, 0xFE600021), "0.0001in": (5, 0x00034734), "70000.7px": (5, 0x01117000),
        "100.3dp": (5, 0x32266621), "1e1dp": (5, 0x00000A01), "+.5dip": (5, 0x40000031), "#8f00": (0x1E, 0x88FF0000),
        "#123": (0x1F, 0xFF112233), "#3949ab": (0x1D, 0xFF3949AB), "TRUE": (0x12, 0xFFFFFFFF), "0x1f": (0x11, 0x1F),
        "-0.1": (4, 0xBDCCCCCD), "12": (0x10, 12), "@null": (1, 0), "@empty": (0, 1), "@7f050001": (1, 0x7F050001),
        "?01010036": (2, 0x01010036), "50%p": (6, 0x40000031),
    }
    for text, value in wanted.items():
        found = values.read(text, attributes.ANY, names)
        if (found.kind, found.word) != value:
            return "'%s' is %02x %08x" % (text, found.kind, found.word)
        shown = values.shown(found, attributes.ANY, names)
        if shown is None or found != values.read(shown, attributes.ANY, names):
            return "'%s' is written as '%s'" % (text, shown)
    return ""


# what the app holds
LISTED = """every.xml is res/layout/every.xml
inbox.xml is res/layout/inbox.xml
inbox-land.xml is res/layout-land/inbox.xml
"""
LINES = """res @7f050002 text Inbox
res @7f010002 color #ffeceff1
res @7f010000 color #ff3949ab
res @7f020001 dimen 8 dp
res @7f020000 dimen 24 dp
res @7f010003 color #ffffffff
res @7f050000 text Lunch on Friday?\\nThe place by the river.
res @7f050001 text The "minutes" are in C:\\\\notes.
res @7f020002 dimen 1 px
# @7f020003 is no whole number of a unit
"""


def unpacks() -> str:
    with place() as it:
        why = unlike(it.call("unpack", APP, "made/in"), 0, None, "")
        found = it.call("unpack", APP, "made/in")
        wanted = LISTED + "resources.lines has 9 values, and 1 that no line can say\n"
        why = why or unlike(found, 0, wanted.encode(), "")
        if why or it.read("made/in/resources.lines").decode() != LINES:
            return why or "resources.lines is '%s'" % it.read("made/in/resources.lines").decode()
        for name, body in app_layouts():
            stem = re.sub(r"res/layout(-\w+)?/(\w+)", r"\2\1", name)
            if it.read(os.path.join("made/in", stem)) != body:
                return "%s is another file" % stem
        lines = ["window 320 160", *LINES.splitlines(), "inflate inbox.xml", "frame", ""]
        it.put("made/in/show.script", "\n".join(lines))
        return unlike(it.call("check", "made/in/show.script"), 0, b"", "")


def unpacks_without_values() -> str:
    """By a program without `lookup`, and of an app without a table."""
    with place() as it:
        variables = it.stand_in('[ "$1" = lookup ] && exit 2; exec %s "$@"' % PROGRAM)
        said = "unpack: no values are written: this program has no lookup\n"
        why = unlike(it.call("unpack", APP, "made", **variables), 1, LISTED.encode(), said)
        layouts = dict(app_layouts())
        it.put("a.apk", app({name: layouts[name] for name in layouts}))
        said = "unpack: no values are written: the app has no resources.arsc\n"
        why = why or unlike(it.call("unpack", "a.apk", "made"), 1, LISTED.encode(), said)
        it.put("b.apk", app({**layouts, "resources.arsc": b"\2\0\x0c\0\x0c\0\0\0\0\0\0"}))
        said = "unpack: no values are written: resources.arsc is refused 1 Truncated at 0\n"
        why = why or unlike(it.call("unpack", "b.apk", "made"), 1, LISTED.encode(), said)
        # aapt2 wrote the emoji of its string 16 of 44 as two surrogates; the list of offsets begins at 40
        said = "resources.arsc is refused 4 BadString at %d; aapt2 writes an emoji in a form that is no UTF-8" % (40 + 4 * 16)
        why = why or unlike(it.call("unpack", TRIPS, "trips"), 1, None, said)
        made = sorted(os.listdir(os.path.join(it.folder, "made")))
        return why or ("" if made == ["every.xml", "inbox-land.xml", "inbox.xml"] else "files: %s" % made)


def app(entries: Dict[str, bytes], packing: int = zipfile.ZIP_DEFLATED) -> bytes:
    """An archive with these files."""
    made = io.BytesIO()
    with zipfile.ZipFile(made, "w", packing) as archive:
        for name, body in entries.items():
            archive.writestr(zipfile.ZipInfo(name), body, packing)
    return made.getvalue()


def names_layouts() -> str:
    """Names that no line can say, or that come twice; a layout that is broken."""
    with place() as it:
        whole = dict(app_layouts())["res/layout-land/inbox.xml"]
        broken = {"res/layout/%s.xml" % name: b"" for name in ("a b", "a_b", ".x", "n" * 80, "é")}
        other = {"res/layout-v1/a_b.xml": whole, "res/layout-v1/a b.xml": whole, "x/layout/b.xml": b""}
        it.put("a.apk", app({**broken, **other}))
        found = it.call("unpack", "a.apk", "made", **it.stand_in('[ "$1" = lookup ] && exit 2; exec %s "$@"' % PROGRAM))
        made = sorted(os.listdir(os.path.join(it.folder, "made")))
        wanted = sorted(["a_b.xml", "a_b-2.xml", "x.xml", "n" * 60 + ".xml", "_.xml", "a_b-v1.xml", "a_b-v1-2.xml"])
        if made != wanted:
            return "files: %s" % made
        return unlike(found, 1, None, "unpack: res/layout/a b.xml is refused 1 Truncated at 0\n")


def broken_apps() -> Iterator[Tuple[bytes, str]]:
    """Archives that cannot be unpacked, and what is said of each."""
    with open(APP, "rb") as file:
        whole = file.read()
    end = whole.rindex(b"PK\5\6")
    layout = "res/layout/a.xml"
    yield b"", "it is no archive, or it is cut short"
    yield whole[:end], "it is no archive, or it is cut short"
    yield whole[:-1], "it is no archive, or it is cut short"
    yield b"PK" + whole[len(whole) // 2 :], "cannot be unpacked: "
    yield whole[:end] + b"PK\6\7" + bytes(16) + whole[end:], "it has more files than an app has"
    yield whole[: end + 12] + b"\xff\xff\xff\1" + whole[end + 16 :], "it has more files than an app has"
    for name in ("../a.xml", "res/layout/../../b.xml", "/res/layout/a.xml", "res\\layout\\a.xml"):
        yield app({layout: b"", name: b""}), "is a name that leads out of it"
    yield app({"a.xml": b""}), "it has no layout, as res/layout/NAME.xml"
    yield app({layout: bytes((1 << 20) + 1)}), "'%s' has more than 1048576 bytes" % layout
    yield app({layout: b"ab"}, zipfile.ZIP_BZIP2), "'%s' is encrypted, or packed as no app is" % layout
    bomb = app({layout: bytes(1 << 21)})
    size = struct.pack("<I", 1 << 21)
    yield bomb.replace(size, struct.pack("<I", 100)), "'%s' " % layout
    damaged = bytearray(app({layout: bytes(range(256))}, zipfile.ZIP_STORED))
    damaged[damaged.index(bytes(range(200)))] = 7
    yield bytes(damaged), "'%s' is broken: Bad CRC-32" % layout


def refuses_broken_apps() -> str:
    with place() as it:
        for number, (file, said) in enumerate(broken_apps(), 1):
            it.put("a.apk", file)
            found = it.call("unpack", "a.apk", "made")
            why = unlike(found, 2, b"", said)
            if why or it.names() != ["a.apk"] or found[2].count("\n") != 1:
                return "broken app %d: %s" % (number, why or it.names())
        os.mkdir(os.path.join(it.folder, "folder"))
        calls = {
            ("no.apk", "made"): "no.apk cannot be read: No such file",
            ("folder", "made"): "folder cannot be read: Is a directory",
            (APP, "a.apk"): "a.apk: File exists",
            ("a.apk",): "the following arguments are required: DIR",
        }
        return first(unlike(it.call("unpack", *words), 2, b"", said) for words, said in calls.items())


def checks() -> Checks:
    yield from named("layouts and apps", (
        has_page_attributes, has_page_values, compiles_as_the_build_tools, makes_sources, makes_sources_of_examples,
        keeps_ids, reports_wrong_sources, lacks_layouts, unpacks, unpacks_without_values, names_layouts,
        refuses_broken_apps
    ))
