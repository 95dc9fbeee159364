"""Documents from the lines of a dump, whose forms docs/FORMATS.md has."""
from typing import List

from vindaesk.layouts import documents
from vindaesk.layouts.documents import ANDROID, Attribute, End, Namespace, Start, Text, Value

LINES = [
    's0 "id"', 's1 "android"', 's2 "%s"' % ANDROID, 's3 "View"', 's4 "a\\"\\n\\\\ \\x07b"', 's5 "text"', 's6 "class"',
    "map 010100d0", "ns s1 s2", "start 7 - s3 3", "attr s2 s0 - 01 7f080001", "attr s2 s5 s4 03 00000004",
    "attr - s6 - 11 0000001f", "text 8 s4", "end 9 - s3", "endns s1 s2",
]


def test_nodes() -> None:
    text = 'a"\n\\ \x07b'
    found = [
        Attribute(ANDROID, "id", Value(documents.REFERENCE, 0x7F080001)),
        Attribute(ANDROID, "text", Value(documents.STRING, 0, text), text),
        Attribute("", "class", Value(documents.HEXADECIMAL, 0x1F)),
    ]
    assert list(documents.nodes_in(LINES)) == [
        Namespace("android", ANDROID, True), Start(7, "", "View", found), Text(8, text), End(9, "", "View"),
        Namespace("android", ANDROID, False),
    ]


def test_elements_in_order() -> None:
    nodes: List[documents.Node] = [Start(1, "", "a", []), Start(2, "", "b", []), End(2, "", "b"), Text(3, "c"), End(1, "", "a")]
    assert [it.name for it in documents.starts(nodes)] == ["a", "b"]


def test_escapes() -> None:
    assert documents.unescaped('\\n\\\\n\\"\\x1f\\x00é') == '\n\\n"\x1f\x00é'
