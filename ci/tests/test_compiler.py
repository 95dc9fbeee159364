"""Sources of layouts to compiled files. The bytes are put together by the structures of Android's ResourceTypes.h:
ResChunk_header, ResStringPool_header, ResXMLTree_node, ResXMLTree_namespaceExt, ResXMLTree_attrExt and
ResXMLTree_attribute; and the layouts of examples/inbox are what `aapt2 link` made of the sources beside them."""
import os
import struct
import zipfile
from typing import List

from running import TOP
from vindaesk.common.failures import Failure
from vindaesk.layouts import compiler, documents, source_reader
from vindaesk.layouts.documents import End, Namespace, Start, Text
from vindaesk.scripts import resource_names

INBOX = os.path.join(TOP, "examples", "inbox")
NONE = 0xFFFFFFFF
ANDROID = "http://schemas.android.com/apk/res/android"


def header(kind: int, head: int, size: int) -> bytes:
    """ResChunk_header: the type, the size of the header, and that of the chunk."""
    return struct.pack("<HHI", kind, head, size)


def text_of(text: str) -> bytes:
    """A string of a pool in UTF-8, shorter than 128: how many UTF-16 units and bytes it has, then these and a zero."""
    return bytes([len(text.encode("utf-16-le")) // 2, len(text.encode())]) + text.encode() + b"\0"


def nodes_of(source: str) -> List[documents.Node]:
    """The nodes of a source in which all fits."""
    nodes, wrong = source_reader.read(source.encode(), "a.xml", resource_names.Names())
    assert wrong == []
    return nodes


def test_smallest_file() -> None:
    """One element without attributes: a pool with its name, a map without ids, its start and its end."""
    text = text_of("View") + b"\0"
    pool = header(1, 28, 28 + 4 + 8) + struct.pack("<IIIII", 1, 0, 0x100, 32, 0) + struct.pack("<I", 0) + text
    node = struct.pack("<II", 1, NONE)
    start = header(0x102, 16, 36) + node + struct.pack("<IIHHHHHH", NONE, 0, 20, 20, 0, 0, 0, 0)
    end = header(0x103, 16, 24) + node + struct.pack("<II", NONE, 0)
    body = pool + header(0x180, 8, 8) + start + end
    assert compiler.compiled(nodes_of("<View/>")) == header(3, 8, 8 + len(body)) + body


def test_attribute() -> None:
    """A known attribute is first in the pool, and has its number in the map: android:layout_width is 010100f4."""
    source = '<View xmlns:android="%s" android:layout_width="16dp"/>' % ANDROID
    made = compiler.compiled(nodes_of(source))
    attribute = struct.pack("<IIIHBBI", 3, 0, NONE, 8, 0, 5, 0x1001)
    assert header(0x180, 8, 12) + struct.pack("<I", 0x010100F4) in made
    assert struct.pack("<IIHHHHHH", NONE, 1, 20, 20, 1, 0, 0, 0) + attribute in made
    assert [it in made for it in map(text_of, ("layout_width", "View", "android", ANDROID))] == [True] * 4
    # the namespace begins and ends at the line of the element
    assert header(0x100, 16, 24) + struct.pack("<IIII", 1, NONE, 2, 3) in made
    assert made.endswith(header(0x101, 16, 24) + struct.pack("<IIII", 1, NONE, 2, 3))


def test_layouts_of_the_build_tools() -> None:
    with open(os.path.join(INBOX, "ids.txt"), "rb") as file:
        names = resource_names.Names(file.read(), "ids.txt")
    with zipfile.ZipFile(os.path.join(INBOX, "inbox.apk")) as app:
        layouts = [name for name in app.namelist() if name.startswith("res/layout")]
        assert len(layouts) == 3
        for name in layouts:
            with open(os.path.join(INBOX, name), "rb") as file:
                nodes, wrong = source_reader.read(file.read(), name, names)
            assert (name, wrong, compiler.compiled(nodes) == app.read(name)) == (name, [], True)


def test_nodes_of_a_source() -> None:
    source = '<a xmlns:p="q">\n  one \n two  <b xmlns:tools="http://schemas.android.com/tools" tools:c="d"/>\n</a>'
    assert nodes_of(source) == [
        Namespace("p", "q", True), Start(1, "", "a", []), Text(1, " one \n two "), Start(3, "", "b", []), End(3, "", "b"),
        End(1, "", "a"), Namespace("p", "q", False),
    ]


def test_order_of_attributes() -> None:
    """By the numbers that Android's attributes have: id 010100d0, text 0101014f, layout_width 010100f4; then the
    others."""
    source = '<a xmlns:android="%s" z="1" android:text="t" b="2" android:layout_width="1px" android:id="@+id/i"/>' % ANDROID
    element = documents.starts(nodes_of(source))[0]
    assert [it.name for it in element.attributes] == ["id", "layout_width", "text", "b", "z"]


def test_what_does_not_fit() -> None:
    source = '<a xmlns:android="%s">\n <b android:layout_width="12" />\n</a>' % ANDROID
    _, wrong = source_reader.read(source.encode(), "a.xml", resource_names.Names())
    assert len(wrong) == 1 and wrong[0].startswith("a.xml:2:2: android:layout_width: '12' does not fit")
    for text, place in (("<a>\n<b></a>", "a.xml:2:6: "), ("", "a.xml:1:1: "), ("<a/>x", "a.xml:1:5: ")):
        try:
            source_reader.read(text.encode(), "a.xml", resource_names.Names())
        except Failure as failure:
            assert str(failure).startswith(place + "this is no XML: ")
        else:
            raise AssertionError("%r is read" % text)


def test_lengths_of_strings() -> None:
    """ResStringPool: a length above 127 is in two bytes, the highest bit of the first set."""
    assert compiler.length(0x7F) == b"\x7f"
    assert compiler.length(0x80) == b"\x80\x80"
    assert compiler.length(0x7FFF) == b"\xff\xff"
    # the first length counts UTF-16 units: two for one character above U+FFFF
    assert compiler.string("😀") == b"\2\4\xf0\x9f\x98\x80\0"
