"""A screen that a client drives: a session, its tree as Appium's page source has it, and its elements.

An element's reference is the name of its view, as v6, which no other view of the session gets."""
import base64
import re
import threading
import time
from typing import Any, Dict, List, Optional

from ..pictures import png
from ..scripts.replies import REASONS
from ..session import LineRefused, Node, Session, Way
from ..views.placement import Box, Placed
from ..views.uiautomator import Form, Hierarchy, Origin
from .actions import Dispatcher, Point, Pointers
from .errors import Problem
from .locators import Element, Locators, Tree

KEY = "element-6066-11e4-a52e-4f735466cecf"
REFERENCE = re.compile(r"v[1-9][0-9]{0,9}")
# the numbers of two refusals: there is no frame yet to look at, and the tree has no root
NO_FRAME, NO_ROOT = 37, 34


class Screen:
    """One session of WebDriver. `lock` is held while a request is carried out."""

    def __init__(self, session: Session, capabilities: Dict[str, object], locators: Locators):
        self.session = session
        self.capabilities = capabilities
        self.timeouts: Dict[str, Any] = {"script": 30000, "pageLoad": 300000, "implicit": 0}
        self.lock = threading.Lock()
        self.pointers = Pointers()
        self.way: List[str] = []
        self.used = time.monotonic()
        self._locators = locators
        # of a layout of an app
        descriptions = getattr(session, "descriptions", None)
        self._descriptions: Dict[int, str] = descriptions() if descriptions else {}
        self._changes = -1
        self._tree: Optional[Tree] = None
        self._nodes: Dict[str, Node] = {}

    def tree(self) -> Tree:
        """The tree as it is now. It is made once between changes."""
        if self._tree is None or self._changes != self.session.changes:
            placed = self._placed()
            origin = Origin(self.session.ids, self.session.window_size, self._descriptions)
            hierarchy = Hierarchy(placed, origin, Form.APPIUM)
            self._nodes = {it.name: it for it in self.session.nodes_of(placed)}
            self._tree = Tree(hierarchy, list(hierarchy.root.iter())[1:], hierarchy.text())
            self._changes = self.session.changes
        return self._tree

    def _placed(self) -> List[Placed]:
        """The views; none where there is no root."""
        try:
            return self.session.placed()
        except LineRefused as refused:
            if refused.number == NO_ROOT:
                return []
            raise Problem("unknown error", "there are no elements: " + REASONS.get(refused.number, str(refused)))

    def found(self, using: str, value: str, inside: Optional[str] = None) -> List[Dict[str, str]]:
        """References to the elements that are found, below another one where that is named."""
        tree = self.tree()
        around = None if inside is None else self.element(inside)
        return [{KEY: "v%d" % tree.hierarchy.views[it]} for it in self._locators.found(tree, using, value, around)]

    def node(self, reference: str) -> Node:
        """The view of an element, which may be seen or not."""
        if not REFERENCE.fullmatch(reference):
            raise Problem("no such element", "'%s' is no reference of this session" % reference)
        self.tree()
        if reference in self._nodes:
            return self._nodes[reference]
        if int(reference[1:]) > self.session.last_number:
            raise Problem("no such element", "%s is no reference of this session" % reference)
        raise Problem("stale element reference", "the view %s was removed" % reference)

    def element(self, reference: str) -> Element:
        """The element of a view that is seen."""
        self.node(reference)
        number = int(reference[1:])
        found = next((it for it, own in self.tree().hierarchy.views.items() if own == number), None)
        if found is None:
            raise Problem("stale element reference", "nothing of the view %s is seen any more" % reference)
        return found

    def box(self, reference: str) -> Box:
        """What is seen of an element."""
        found = self.node(reference).seen
        if found is None:
            raise Problem("element not interactable", "nothing of the view %s is seen" % reference)
        return found

    def middle(self, origin: Any) -> Point:
        """Where the origin of a move is that is an element."""
        reference = origin.get(KEY) if isinstance(origin, dict) else None
        if not isinstance(reference, str):
            raise Problem("invalid argument", "the origin of a move is 'viewport', 'pointer' or an element")
        left, top, right, bottom = self.box(reference)
        return (left + right) // 2, (top + bottom) // 2

    def click(self, reference: str) -> None:
        """Taps an element. The view that takes the tap has to be that one, one around it or one below it, or none."""
        left, top, right, bottom = self.box(reference)
        way = self.session.tap(reference)
        self.end(way)
        taken_by = way.taken_by
        if taken_by and not self._are_one_in_other(taken_by, reference):
            raise Problem(
                "element click intercepted",
                "the tap on %s, at %d %d, was taken by %s"
                % (reference, (left + right) // 2, (top + bottom) // 2, taken_by),
            )

    def _are_one_in_other(self, one: str, other: str) -> bool:
        return other in self._path(one) or one in self._path(other)

    def _path(self, name: str) -> List[str]:
        """A view and all around it."""
        found: List[str] = []
        at: Optional[str] = name
        while at is not None and at in self._nodes:
            found.append(at)
            at = self._nodes[at].parent
        return found

    def perform(self, body: Any) -> None:
        """Carries out actions. One that fails midway leaves the pointers as they are, until they are released."""
        dispatcher = Dispatcher(self.session, self.pointers, self.middle)
        try:
            dispatcher.perform(body)
        finally:
            self.end(Way(dispatcher.way))

    def release(self) -> None:
        """Lifts all pointers."""
        self.end(Way(Dispatcher(self.session, self.pointers, self.middle).release()))

    def end(self, way: Way) -> None:
        """A gesture has ended: a frame shows what it made."""
        self.way = list(way)
        self.session.frame()

    def show(self) -> None:
        """Has a frame come, where there is none to look at yet."""
        try:
            self.session.line("bounds")
        except LineRefused as refused:
            if refused.number == NO_FRAME:
                self.session.frame()

    def picture(self, box: Optional[Box] = None) -> str:
        """The picture of the last frame, or of a part of it, as a PNG file in base64."""
        try:
            found = self.session.picture()
        except LineRefused as refused:
            raise Problem("unable to capture screen", "there is no picture: %s" % refused)
        if box:
            left, top, right, bottom = box
            rows = [row[3 * left : 3 * right] for row in found.rows[top:bottom]]
            found = png.Picture(right - left, bottom - top, rows)
        return base64.b64encode(png.written(found)).decode()
