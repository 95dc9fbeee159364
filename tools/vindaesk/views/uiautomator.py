"""A tree in the XML of `uiautomator dump`, which UI Automator's viewers, Appium's inspectors and crawlers read.

As there, only views of which something is seen have an element, with the part that is seen in `bounds`, and `index`
counts the visible children of a parent, those off the screen too. Children come in the order in which they are drawn.
"""
import enum
import re
import xml.etree.ElementTree as ElementTree
from dataclasses import dataclass, field
from typing import Dict, List, Mapping, Optional

from ..scripts import names
from ..scripts.names import Ids
from ..scripts.script import Window
from . import placement
from .facts import Source
from .placement import Box, Placed
from .view_tree import View

HEADER = "<?xml version='1.0' encoding='UTF-8' standalone='yes' ?>"
# of an app whose list of ids names no package, or several
PACKAGE = "vindaesk"
# what no document of XML 1.0 can have, which `uiautomator` writes as a dot
NO_XML = re.compile("[^\t\n\r\x20-\ud7ff\ue000-\ufffd\U00010000-\U0010ffff]")
DESCRIPTION = "android:contentDescription"
# facts that the rules of views do not have
ABSENT = ("checkable", "checked", "focused", "long-clickable", "password", "selected")


class Form(enum.Enum):
    """How elements are named: `node`, as `uiautomator dump` does, or by their classes, as Appium's page source."""

    DUMP = "dump"
    APPIUM = "appium"


@dataclass(frozen=True)
class Origin:
    """Of what a tree is: the names of its ids, the size of its window, and of an app's layout the content descriptions,
    by the numbers of their views."""

    ids: Ids = names.NONE
    window: Optional[Window] = None
    descriptions: Mapping[int, str] = field(default_factory=dict)

    @property
    def package(self) -> str:
        """The package of the app."""
        found = list(self.ids.listed.packages)
        return found[0] if len(found) == 1 else PACKAGE


def class_of(kind: str) -> str:
    """The class of a view with its package."""
    return "android.%s.%s" % ("view" if kind == "View" else "widget", kind)


def resource_id(view: View, origin: Origin) -> str:
    """The id of a view as PACKAGE:id/NAME, or as @HEX where it has no name."""
    if view.id_name is None:
        return placement.name_of(view.id) or ""
    package, kind, name = origin.ids.listed.names.get(view.id, ("", "", ""))
    if not name:
        return view.id_name.lstrip("@")
    return "%s:%s/%s" % (package or origin.package, kind, name)


def description_in(source: Optional[Source]) -> str:
    """The content description of an element; empty where it has none."""
    found = source.attributes.get(DESCRIPTION) if source and not source.is_added else None
    return found.resolved if found and found.resolved != "@null" else ""


def shown_box(box: Box) -> str:
    """A box as Android's `Rect` is printed."""
    return "[%d,%d][%d,%d]" % box


def truth(value: bool) -> str:
    """`true` or `false`."""
    return "true" if value else "false"


def facts_of(view: View, index: int, box: Box, origin: Origin) -> Dict[str, str]:
    """The attributes of a view, in the order of `uiautomator dump`."""
    is_clicked = view.answer == "click"
    found = {
        "index": str(index),
        "text": NO_XML.sub(".", view.text or ""),
        "resource-id": resource_id(view, origin),
        "class": class_of(view.kind),
        "package": origin.package,
        "content-desc": NO_XML.sub(".", origin.descriptions.get(view.number) or description_in(view.source)),
        "checkable": "",
        "checked": "",
        "clickable": truth(is_clicked),
        "enabled": "true",
        "focusable": truth(is_clicked),
        "focused": "",
        "scrollable": truth(view.kind == "ScrollView"),
        "long-clickable": "",
        "password": "",
        "selected": "",
        "bounds": shown_box(box),
    }
    found.update(dict.fromkeys(ABSENT, "false"))
    return found


def index_of(view: View) -> int:
    """How many visible children its parent has before a view."""
    before = 0
    for it in view.parent.children.values() if view.parent else ():
        if it is view:
            break
        before += it.visibility == "visible"
    return before


class Hierarchy:
    """A tree as elements: `root` is the document's, and `views` has the number of the view of each other one."""

    def __init__(self, views: List[Placed], origin: Origin, form: Form = Form.DUMP):
        self.root = ElementTree.Element("hierarchy", {"rotation": "0"})
        self.views: Dict[ElementTree.Element, int] = {}
        self.boxes = placement.shown(views, origin.window)
        if form is Form.APPIUM and origin.window:
            self.root.attrib.update(width=str(origin.window[0]), height=str(origin.window[1]))
        made: Dict[int, ElementTree.Element] = {}
        for it in views:
            view, box = it.view, self.boxes.get(it.view.number)
            around = made.get(view.parent.number) if view.parent else self.root
            if box is None or around is None:
                continue
            tag = "node" if form is Form.DUMP else class_of(view.kind)
            facts = facts_of(view, index_of(view), box, origin)
            element = made[view.number] = ElementTree.SubElement(around, tag, facts)
            self.views[element] = view.number

    def text(self) -> str:
        """The document."""
        return HEADER + ElementTree.tostring(self.root, encoding="unicode") + "\n"
