"""Where the views of a script lie, in their parents and in the window, and how a tree is written."""
from typing import Container, Dict, List, NamedTuple, Optional, Tuple

from ..common.failures import Failure, WRONG
from ..scripts import replies
from ..scripts.replies import REASONS, Part, Refused
from ..scripts.script import Script, Window
from . import view_tree
from .facts import Place, Source
from .view_tree import View

# the version of the form of docs/tree.schema.json
JSON_VERSION = 2

# the longest text of a line or a message
MAX_TEXT = 1 << 30

# the characters that JSON has no other way, and their escapes
ESCAPES: Dict[int, str] = {number: "\\u%04x" % number for number in range(32)}
ESCAPES.update({ord(it): escape for it, escape in zip('"\\\n\r\t\b\f', ('\\"', "\\\\", "\\n", "\\r", "\\t", "\\b", "\\f"))})

Box = Tuple[int, int, int, int]


class Placed(NamedTuple):
    """A view where it lies: its bounds in its parent and in the window, which it may leave, and how far its child is
    moved up, where it scrolls."""

    view: View
    bounds: Optional[Box]
    window: Optional[Box]
    scroll: Optional[int]


def moved(box: Box, right: int, down: int) -> Box:
    """A box at another place."""
    return (box[0] + right, box[1] + down, box[2] + right, box[3] + down)


def placed(view: View, words: List[bytes], around: Dict[int, Placed]) -> Placed:
    """A view by the words that `bounds` writes of it, and the views around it."""
    if words[1] == b"none":
        return Placed(view, None, None, None)
    left, top, right, bottom = (int(word) for word in words[1:5])
    bounds = (left, top, right, bottom)
    scroll = int(words[6]) if len(words) == 7 else None
    parent = around[view.parent.number] if view.parent else None
    if parent is None:
        return Placed(view, bounds, bounds, scroll)
    if parent.window is None:
        return Placed(view, bounds, None, scroll)
    return Placed(view, bounds, moved(bounds, parent.window[0], parent.window[1] - (parent.scroll or 0)), scroll)


def all_placed(root: Optional[View], lines: List[bytes]) -> List[Placed]:
    """All views in preorder, by what `bounds` writes of them."""
    views = list(root.and_below()) if root else []
    found: Dict[int, Placed] = {}
    for view, line in zip(views, lines):
        words = line.split(b" ")
        if words[0] == b"v%d" % view.number:
            found[view.number] = placed(view, words, found)
    if not len(views) == len(lines) == len(found):
        raise Failure("the views of the script could not be followed; this is a mistake of the tool")
    return list(found.values())


def views_of(made: Script, refused: Refused) -> List[Placed]:
    """All views that a script leaves, in preorder. Refused lines are reported on the way."""
    return views_after(view_tree.parts_of(made.lines), made, refused)


def views_after(parts: List[Part], made: Script, refused: Refused) -> List[Placed]:
    """The same of a script in these parts."""
    tree = view_tree.Tree(made.folder, made.ids, made.written)
    for part, answer in replies.answers([*parts, Part([b"bounds"])], made.folder):
        if part.first:
            refused.add_all(part, answer)
        tree.follow(part, answer)
    for refusal in answer.refusals.values():
        refused.end()
        raise Failure("there are no bounds: " + REASONS.get(refusal.number, "refusal %d" % refusal.number), WRONG)
    return all_placed(tree.root, answer.replies)


def name_of(number: int) -> Optional[str]:
    """An id as lines write it."""
    return "@%x" % number if number else None


def id_of(view: View) -> Optional[str]:
    """The id of a view as messages show it: by its name, where it has one."""
    return view.id_name or name_of(view.id)


def quoted(text: str) -> str:
    """A text as JSON has it, with all characters that it can have as they are. `json` does the same, but takes a tenth
    of a start to be loaded."""
    return '"%s"' % text.translate(ESCAPES)


def title(view: View, most: int = MAX_TEXT, kind: str = "") -> str:
    """Number, class, or what is given for it, id and text of a view, as messages have them; a text of more characters
    than some is cut."""
    whole = view.text or ""
    text = quoted(whole if len(whole) <= most else whole[:most] + " ..") if whole else None
    return " ".join(filter(None, ["v%d" % view.number, kind or view.kind, id_of(view), text]))


def seen(views: List[Placed]) -> List[Placed]:
    """The views that are laid out and visible, as all around them, in preorder."""
    found: Dict[int, Placed] = {}
    for it in views:
        parent = it.view.parent
        if it.bounds and it.window and it.view.visibility == "visible" and (not parent or parent.number in found):
            found[it.view.number] = it
    return list(found.values())


def shown(views: List[Placed], window: Optional[Window]) -> Dict[int, Box]:
    """The part of each view that lies within the window and all views around it, by its number; none of a view that is
    not visible, as one around it, or of which nothing is seen."""
    found: Dict[int, Box] = {}
    for it in seen(views):
        around = found.get(it.view.parent.number) if it.view.parent else (0, 0, *(window or (0, 0)))
        box = common(it.window, around) if it.window and around else None
        if box:
            found[it.view.number] = box
    return found


def common(box: Box, other: Box) -> Optional[Box]:
    """What two boxes have in common, if that is not empty."""
    left, top, right, bottom = max(box[0], other[0]), max(box[1], other[1]), min(box[2], other[2]), min(box[3], other[3])
    return (left, top, right, bottom) if left < right and top < bottom else None


def view_at(views: List[Placed], box: Box) -> Optional[View]:
    """The last view in preorder that is seen and has the whole of a box of the window in it."""
    found = None
    for it in seen(views):
        if it.window and it.window[0] <= box[0] and it.window[1] <= box[1]:
            found = it.view if box[2] <= it.window[2] and box[3] <= it.window[3] else found
    return found


def record(it: Placed) -> Dict[str, object]:
    """A view as JSON has it."""
    return {**state_record(it), "source": source_record(it.view.source)}


def state_record(it: Placed) -> Dict[str, object]:
    """The same without what made the view, which stays as it is."""
    view = it.view
    return {
        "number": view.number,
        "parent": view.parent.number if view.parent else None,
        "depth": view.depth,
        "class": view.kind,
        "id": name_of(view.id),
        "id_name": view.id_name,
        "text": view.text,
        "bounds": it.bounds,
        "window": it.window,
        "scroll": it.scroll,
        "visibility": view.visibility,
        "background": view.background,
        "answer": view.answer,
        "given": view.given,
        "rules": view.rules,
    }


def place_record(it: Place) -> Dict[str, object]:
    """A place as JSON has it."""
    return {"file": it.file, "line": it.line, "column": it.column or None}


def source_record(it: Optional[Source], made: Container[str] = ()) -> Optional[Dict[str, object]]:
    """What made a view as JSON has it, without the places in files that a tool made for itself."""
    if it is None:
        return None
    found = {
        name: {"written": at.written, "resolved": at.resolved, "resources": at.resources, "origin": at.origin}
        for name, at in it.attributes.items()
    }
    places = [place_record(at) for at in it.places if at.file not in made]
    return {"element": it.element, "places": places, "attributes": found,
            "added": it.is_added, "exact_bounds": it.has_exact_bounds, "exact_picture": it.has_exact_picture}


def as_json(window: Window, views: List[Placed]) -> str:
    """The whole tree as JSON, a view a line. docs/tree.schema.json has its form; a form that programs which read this
    one might not understand has another version."""
    import json

    rows = ",\n".join("  " + json.dumps(record(it), ensure_ascii=False) for it in views)
    return '{"version": %d, "window": %s, "views": [\n%s\n]}\n' % (JSON_VERSION, json.dumps(window), rows)


def text_line(it: Placed) -> str:
    """A view as a line: what is as in a new view is left out, and the place in the window where it is the bounds."""
    view = it.view
    words: List[Optional[str]] = [title(view)]
    words.append("%d %d %d %d" % it.bounds if it.bounds else "none")
    words.append("at %d %d %d %d" % it.window if it.window and it.window != it.bounds else None)
    words.append("scroll %d" % it.scroll if it.scroll is not None else None)
    words.append(view.visibility if view.visibility != "visible" else None)
    words.append("bg %s" % (view.background or "unknown") if view.background != view_tree.CLEAR else None)
    return "  " * (view.depth - 1) + " ".join(filter(None, words)) + mark(view)


def mark(view: View) -> str:
    """Of a view of an app's layout its element; after `~` where its bounds are not exact, with the reasons."""
    of_app = view.of_app
    return "" if of_app is None else "  %s%s" % ("" if of_app.has_exact_bounds else "~ ", of_app)


def as_text(views: List[Placed]) -> str:
    """The whole tree, a view a line, indented by its depth."""
    return "".join(text_line(it) + "\n" for it in views)
