"""Tries the readers of the tools over odd input: what is small and would take long, what is broken, and what was made
at random, for some seconds each. Whatever they are given, they end with a sentence."""
import io
import os
import random
import struct
import time
import zipfile
import zlib
from functools import partial
from typing import Callable, Dict, List, Tuple, Type

from running import TOP, Checks, named
from tools import RED, coded, place, unlike
from vindaesk.apps import unpacker
from vindaesk.common import toml
from vindaesk.common.failures import Failure
from vindaesk.layouts import compiler, documents, source_reader, source_writer
from vindaesk.layouts.documents import ANDROID, End, Namespace, Node, Start
from vindaesk.pictures import chunks, png
from vindaesk.scripts import names, resource_names, script
from vindaesk.testing import configurations

EXAMPLES = os.path.join(TOP, "examples")
# how many texts made at random each reader is given, and how many apps `unpack`; the same ones each time
TEXTS, ARCHIVES = 40000, 40
# how many seconds of a processor anything small may take
QUICK = 10
HEAD = '<View xmlns:android="%s" android:layout_width="1px" android:layout_height="1px" ' % ANDROID


def quickly(act: Callable[[], str]) -> str:
    """How a call takes too long, or what it returns."""
    begun = time.process_time()
    why = act()
    seconds = time.process_time() - begun
    return why or ("it takes %.1f s" % seconds if seconds > QUICK else "")


def compile_source(text: str, ids: bytes = b"") -> str:
    nodes, wrong = source_reader.read(text.encode(), "a.xml", resource_names.Names(ids, "ids.txt"))
    return wrong[0] if wrong else "%d bytes" % len(compiler.compiled(nodes))


def takes_large_sources() -> str:
    """Sources of which each would take minutes in a time that grows as the square of its size."""
    spaces = " ".join('xmlns:a%d="urn:%d"' % (number, number) for number in range(20000))
    ids = "".join('<View android:id="@+id/a%d" android:layout_width="1px" android:layout_height="1px"/>' % number
                  for number in range(30000))
    texts = {
        "a text of 2 MB": HEAD + ">" + "x&amp;\n" * 300000 + "</View>",
        "20000 namespaces": HEAD + spaces + "/>",
        "30000 new ids": '<LinearLayout xmlns:android="%s">%s</LinearLayout>' % (ANDROID, ids),
        "a value of 500000 digits": HEAD + 'android:padding="%s"/>' % ("1" * 500000),
        "a value of 500000 digits and a unit": HEAD + 'android:padding="%sdp"/>' % ("1" * 500000),
    }
    for name, text in texts.items():
        try:
            why = quickly(lambda: "" if compile_source(text) else "nothing")
        except Failure:
            why = ""
        if why:
            return "%s: %s" % (name, why)
    return ""


def refuses_odd_sources() -> str:
    said = {
        '<?xml version="1.0" encoding="%s"?><View/>' % name: "a.xml:1:1: this is no XML in an encoding that can be read: "
        for name in ("foo", "utf-32", "shift_jis", "gbk", "idna", "punycode", "undefined")
    }
    said[HEAD + " ".join('a%d=""' % number for number in range(300)) + "/>"] = "a.xml:1:0: the element has more than 256"
    said[HEAD + 'android:padding="%sdp"/>' % ("9" * 310)] = "a.xml:1:1: android:padding: the number is too large"
    with place() as it:
        for text, why in said.items():
            it.put("a.xml", text)
            found = it.call("axml", "a.xml", "b.xml")
            wanted = why.split(": ")[-1]
            if found[0] != 1 or wanted not in found[2] or "Traceback" in found[2] or found[2].count("\n") != 1:
                return "%r: status %d, %r" % (text[:60], found[0], found[2])
        return "" if it.names() == ["a.xml"] else "files: %s" % it.names()


def notes_slips() -> str:
    with place() as it:
        it.put("a.xml", HEAD + 'android:layout_widht="1dp" android:txet="a" android:maxHeight="1dp"/>')
        said = ("axml: a.xml:1:1: android:layout_widht is passed over; did you mean 'layout_width'?\n"
                "axml: a.xml:1:1: android:txet is passed over; did you mean 'text'?\n")
        return unlike(it.call("axml", "a.xml", "b.xml"), 0, b"", said)


def writes_no_other_attributes() -> str:
    """A file whose namespace would break out of its quotation marks, and others that no source can have."""
    evil = 'x="urn:v" android:text="evil" xmlns:q'
    spaces = [(evil, "urn:u"), ("a b", "urn:u"), ("a", "urn:\x01"), ("xml", "urn:u"), ("xmlns", "urn:u"), ("a", ""),
              ("b", "http://www.w3.org/2000/xmlns/")]
    for prefix, address in spaces:
        nodes: List[Node] = [Namespace(prefix, address, True), Start(1, "", "View", []), End(1, "", "View"),
                             Namespace(prefix, address, False)]
        try:
            return "%r is written: %s" % (prefix, source_writer.text(nodes, resource_names.Names()))
        except Failure as failure:
            if "can be in no source" not in str(failure) and "is no name" not in str(failure):
                return str(failure)
    with place() as it:
        nodes = [Namespace(evil, "urn:u", True), Start(1, "", "View", []), End(1, "", "View"),
                 Namespace(evil, "urn:u", False)]
        it.put("a.xml", compiler.compiled(nodes))
        return unlike(it.call("axml", "--text", "a.xml", "b.xml"), 2, b"", "is no name") or (
            "" if it.names() == ["a.xml"] else "files: %s" % it.names())


def reads_large_pictures() -> str:
    """A picture of a million pixels, by each filter; and one that is larger than any screen."""
    side = 1000
    row = bytes(range(250)) * 12
    for kind in range(1, 5):
        text = coded(2, [row] * side, [kind] * side)
        why = quickly(lambda: "" if png.parsed(text).rows[-1] == row else "another picture")
        if why:
            return "filter %d: %s" % (kind, why)
    head = chunks.chunk(b"IHDR", struct.pack(">IIBBBBB", 5000, 5000, 8, 2, 0, 0, 0))
    body = chunks.chunk(b"IDAT", zlib.compress(bytes(5000 * 15001)))
    try:
        png.parsed(chunks.SIGNATURE + head + body + chunks.chunk(b"IEND", b""))
    except ValueError as error:
        return "" if "more than 16777216" in str(error) else str(error)
    return "a picture of 25 million pixels is read"


def archive(files: Dict[str, bytes]) -> bytes:
    """An archive of some files."""
    body = io.BytesIO()
    with zipfile.ZipFile(body, "w", zipfile.ZIP_DEFLATED) as file:
        for name, text in files.items():
            file.writestr(name, text)
    return body.getvalue()


def unpacks_odd_apps() -> str:
    source = HEAD + 'android:background="@7f040000"/>'
    nodes, _ = source_reader.read(source.encode(), "a.xml", resource_names.Names())
    page = compiler.compiled(nodes)
    with place() as it:
        it.put("a.apk", archive({"res/layout/a%d.xml" % number: b"" for number in range(10001)}))
        said = "a.apk cannot be unpacked: it has more than 10000 layouts\n"
        why = unlike(it.call("unpack", "a.apk", "made"), 2, b"", said)
        table = bytes(1 << 24) + b"x"
        it.put("b.apk", archive({"res/layout/a b.xml": page, "res/layout/a_b.xml": page, "resources.arsc": table}))
        listed = b"a_b.xml is res/layout/a_b.xml\na_b-2.xml is res/layout/a b.xml\n"
        said = "unpack: no values are written: resources.arsc has more than 16777216 bytes\n"
        return why or unlike(it.call("unpack", "b.apk", "made"), 1, listed, said)


def names_files_of_apps() -> str:
    """A drawable that a layout names is no text, and `check` says which kind is wanted."""
    answer, path = '7f040000 text "res/drawable/pill.xml"', "res/drawable/pill.xml"
    found = [unpacker.line_of(answer, {path}), unpacker.line_of(answer, {"other"})]
    wanted = [(b"# @7f040000 is the file " + path.encode(), False), (b"res @7f040000 text " + path.encode(), True)]
    if found != wanted:
        return "%s" % found
    with place() as it:
        source = HEAD + 'android:background="@7f040000"/>'
        nodes, _ = source_reader.read(source.encode(), "a.xml", resource_names.Names())
        it.put("a.xml", compiler.compiled(nodes))
        ended = it.call("check", "-", given="window 9 9\nres @7F040000 text x\ninflate a.xml\n")
        said = b"this resource is a text; here has to be a colour"
        it.put("ids.txt", "app:drawable/pill = 0x7f040000\n")
        named_now = it.call("check", "-", given="window 9 9\nres @drawable/pill text x\ninflate a.xml\n")[1]
        if b'android:background="@drawable/pill": ' not in named_now:
            return "%r" % named_now
        return unlike(ended, 1, None, "") or ("" if said in ended[1] else "%r" % ended[1])


def says_byte_order_mark() -> str:
    with place() as it:
        it.put("a.script", b"\xef\xbb\xbf" + RED.encode())
        wanted = b"a.script:1:1: 31 Syntax: the file begins with a byte order mark; save it as UTF-8 without one\n"
        found = it.call("check", "a.script")
        return "" if found[1].startswith(wanted) else "%r" % found[1]


# texts made at random

Reader = Callable[[bytes], object]


def readers() -> List[str]:
    """The names of the readers."""
    return ["sources of layouts", "pictures", "configurations", "lists of ids", "scripts", "names of ids", "documents"]


def changed(draw: random.Random, text: bytes) -> bytes:
    """A text with some bytes changed, taken away, doubled, or put elsewhere."""
    made = bytearray(text)
    for _ in range(draw.choice((1, 1, 2, 5, 20))):
        at, size = draw.randrange(len(made) + 1), draw.choice((0, 1, 2, 4, 30))
        act = draw.randrange(5)
        if act == 0 and made:
            made[at % len(made)] = draw.choice((0, 1, 0x20, 0x22, 0x3C, 0x7F, 0x80, 0xFF, draw.randrange(256)))
        elif act == 1:
            del made[at : at + size]
        elif act == 2:
            made[at:at] = made[at : at + size]
        elif act == 3:
            made[at:at] = draw.choice((b"\xff\xff\xff\xff", b"\0\0\0\0", b"<", b">", b"&#0;", b"\"", b"@", b"\n", b"=", b"[",
                                        b"\xc3"))
        else:
            made[at : at + 4] = struct.pack("<I", draw.choice((0, 1, 0x7FFFFFFF, 0x80000000, 0xFFFFFFFF)))
    return bytes(made)


def compiled_again(text: bytes) -> None:
    """A document as bytes, to its source, and that to bytes again."""
    nodes = documents.nodes_in(text.decode("utf-8", "replace").split("\n"))
    made = source_writer.text(list(nodes), resource_names.Names())
    source_reader.read(made.encode(), "a.xml", resource_names.Names())


def source(text: bytes) -> None:
    nodes, wrong = source_reader.read(text, "a.xml", resource_names.Names())
    if not wrong:
        compiler.compiled(nodes)


def included(text: bytes) -> None:
    lines = script.Includer().lines("a.script", text, [])
    script.named(lines, "a.script", is_strict=False)


def configured(text: bytes) -> None:
    configurations.of_tables(toml.read(text, "a.toml"), "a.toml")


def picture(text: bytes) -> None:
    # of sizes that are read quickly
    if len(text) < 24 or struct.unpack(">II", text[16:24]) <= (64, 64):
        png.parsed(text)


def seeds() -> Dict[str, Tuple[Reader, List[bytes], Tuple[Type[Exception], ...]]]:
    """Each reader with texts that it takes, and the failures that it may end with."""
    layouts = ("a.xml", "page.xml")
    sources = [(HEAD + 'android:text="a\\u00e9" android:gravity="left|top"><a b="c">t</a></View>').encode()]
    pictures = [coded(kind, [bytes(12)] * 4, (1, 2, 3, 4)) for kind in (0, 2, 4, 6)]
    tables = [b"picture = true\nmatrix = [['a'], ['b', 'c']]\n[a]\nwindow = [1, 2]\n[b]\n[c]\ndpi = 160\nvalues = ['x']\n"]
    lists = [b"app:id/title = 0x7f080000\nid/a=7f080001\n# x\nandroid:id/b = 0x01020000\n"]
    scripts = [RED.encode(), b"include a b\nid v1 @id/x\ntext v1 @id/y\nhook v1 bg @android:id/text1 #ff000000\n"]
    dumps = [documents.printed(name, EXAMPLES)[0] for name in layouts]
    texts = ["\n".join(lines).encode() for lines in dumps if lines]
    return {
        "sources of layouts": (source, sources, (Failure,)),
        "pictures": (picture, pictures, (ValueError, struct.error, zlib.error)),
        "configurations": (configured, tables, (Failure,)),
        "lists of ids": (lambda text: resource_names.Names(text, "ids.txt"), lists, (Failure,)),
        "scripts": (included, scripts, (Failure,)),
        "names of ids": (names.NONE.expanded, scripts, (Failure,)),
        "documents": (compiled_again, texts, (Failure, ValueError, KeyError, IndexError)),
    }


def fuzzed(name: str) -> str:
    """The first text made at random over which a reader ends otherwise than with a sentence."""
    act, texts, ends = seeds()[name]
    draw = random.Random(name)
    for _ in range(TEXTS):
        text = changed(draw, draw.choice(texts))
        begun = time.process_time()
        try:
            act(text)
        except ends:
            pass
        except Exception as error:
            return "%s: %s over %r" % (type(error).__name__, error, text[:2000])
        if time.process_time() - begun > QUICK:
            return "%r takes %.1f s" % (text[:2000], time.process_time() - begun)
    return ""


def archives_at_random() -> str:
    """The same of apps, by the tool, which unpacks nothing outside of its folder."""
    with open(os.path.join(EXAMPLES, "inbox", "inbox.apk"), "rb") as file:
        app = file.read()
    draw = random.Random(7)
    with place() as it:
        for _ in range(ARCHIVES):
            it.put("a.apk", changed(draw, app))
            found = it.call("unpack", "a.apk", "made")
            if found[0] not in (0, 1, 2) or "Traceback" in found[2]:
                return "status %d, %r" % (found[0], found[2])
            if not set(it.names()) <= {"a.apk", "made"}:
                return "files: %s" % it.names()
    return ""


def checks() -> Checks:
    yield from named("hostile", (
        takes_large_sources, refuses_odd_sources, notes_slips, writes_no_other_attributes, reads_large_pictures,
        unpacks_odd_apps, names_files_of_apps, says_byte_order_mark, archives_at_random
    ))
    for name in readers():
        yield "fuzz: " + name, partial(fuzzed, name)
