"""The XML of `uiautomator dump`: the attributes and their order as AccessibilityNodeInfoDumper of Android writes them,
and of each view what a session says of it."""
import os
import re
import subprocess
import sys
import xml.etree.ElementTree as ElementTree
from typing import Iterator, List, Tuple

from running import TOP
from vindaesk.session import Node, Session

# frameworks/uiautomator and frameworks/base/cmds/uiautomator: AccessibilityNodeInfoDumper.dumpNodeRec
ORDER = [
    "index",
    "text",
    "resource-id",
    "class",
    "package",
    "content-desc",
    "checkable",
    "checked",
    "clickable",
    "enabled",
    "focusable",
    "focused",
    "scrollable",
    "long-clickable",
    "password",
    "selected",
    "bounds",
]
EXAMPLES = os.path.join(TOP, "examples")
BOUNDS = re.compile(r"\[(-?\d+),(-?\d+)\]\[(-?\d+),(-?\d+)\]")


def dumped(script: str) -> ElementTree.Element:
    """The document that `tools/tree --uiautomator` writes of a script in examples/."""
    tool = [sys.executable, os.path.join(TOP, "tools", "tree"), "-", "--uiautomator"]
    written = subprocess.run(tool, input=script.encode(), stdout=subprocess.PIPE, cwd=EXAMPLES, check=True).stdout
    assert written.startswith(
        b"<?xml version='1.0' encoding='UTF-8' standalone='yes' ?><hierarchy rotation=\"0\"><node "
    )
    return ElementTree.fromstring(written)


def nodes(element: ElementTree.Element, depth: int = 1) -> Iterator[Tuple[int, ElementTree.Element]]:
    """All nodes in order, each with its depth."""
    for child in element:
        yield depth, child
        yield from nodes(child, depth + 1)


def wanted(script: str) -> List[Tuple[Node, object]]:
    """The views of which something is seen, each with what `Session.seen` asks of them one by one."""
    with Session(EXAMPLES) as s:
        s.script(script)
        every = {it.name: it for it in s.tree()}
        found: List[Tuple[Node, object]] = []
        for it in every.values():
            around, is_visible = it, True
            while around:
                is_visible &= around.visibility == "visible"
                around = every.get(around.parent or "")  # type: ignore[assignment]
            box = s.seen(it) if is_visible and it.bounds else None
            if box:
                found.append((it, box))
        return found


def compare(script: str) -> None:
    found = list(nodes(dumped(script)))
    views = wanted(script)
    assert len(found) == len(views), (len(found), len(views))
    for (depth, node), (view, box) in zip(found, views):
        assert list(node.attrib) == ORDER
        assert (node.get("text"), depth) == (view.text or "", view.depth)
        assert node.get("class") == ("android.view.View" if view.kind == "View" else "android.widget." + view.kind)
        assert node.get("resource-id") == (view.id or "") and node.get("clickable") == str(view.clickable).lower()
        sides = BOUNDS.fullmatch(node.get("bounds", ""))
        assert sides and tuple(map(int, sides.groups())) == box, (view.name, node.get("bounds"), box)


def test_examples() -> None:
    for name in ("reader", "screen", "card", "focus", "edits", "wrapping"):
        with open(os.path.join(EXAMPLES, name + ".script"), encoding="utf-8") as file:
            compare("".join(it for it in file if not it.startswith("restore")))


def test_what_is_not_seen() -> None:
    lines = (
        "window 100 100\nadd root FrameLayout match match\nadd v1 View 20 20\nvisible v2 invisible\n"
        "add v1 LinearLayout 50 50\nadd v3 View 80 10\nadd v3 View 5 5\nmargins v3 90 0 0 0\nadd v1 FrameLayout 30 30\n"
        "visible v6 gone\nadd v6 View 9 9\n"
        "add v1 View 0 0\nadd v1 TextView 20 20\nmargins v9 -10 0 0 0\ntext v9 a\\n\"<&>\u2028\nid v9 @7f08000A\n"
        "answer v9 click\n"
        "add v1 View 9 9\nmargins v10 200 0 0 0\nframe\n"
    )
    compare(lines)
    rows = [(it.get("class"), it.get("index"), it.get("bounds")) for _, it in nodes(dumped(lines))]
    # indices count the visible children, those of which nothing is seen too
    assert rows == [
        ("android.widget.FrameLayout", "0", "[0,0][100,100]"),
        ("android.widget.LinearLayout", "0", "[90,0][100,50]"),
        ("android.view.View", "0", "[90,0][100,10]"),
        ("android.widget.TextView", "2", "[0,0][10,20]"),
    ], rows


def test_texts() -> None:
    text = "a\x01b\ufffe \U0001f600 \t"
    found = dumped("window 50 50\nadd root TextView match match\ntext v1 %s\nframe" % text)
    assert found[0].get("text") == "a.b. \U0001f600 \t"


def test_names() -> None:
    """Names with the package of the list of ids, and Android's own."""
    with open(os.path.join(EXAMPLES, "inbox", "ids.txt"), encoding="utf-8") as file:
        assert "vindaesk.inbox:id/reply" in file.read()
    tool = [sys.executable, os.path.join(TOP, "tools", "tree"), "-", "--uiautomator"]
    lines = "window 9 9\nadd root View match match\nid v1 %s\nframe\n"
    for name, wanted_name in (("@id/reply", "vindaesk.inbox:id/reply"), ("@android:id/text1", "android:id/text1")):
        written = subprocess.run(
            tool, input=(lines % name).encode(), stdout=subprocess.PIPE, check=True, cwd=os.path.join(EXAMPLES, "inbox")
        ).stdout
        node = ElementTree.fromstring(written)[0]
        assert (node.get("resource-id"), node.get("package")) == (wanted_name, "vindaesk.inbox")
