"""Views with a text. A text that is not at the left and at the top, that has pictures beside it, or that is cut to some
lines, is a TextView in a FrameLayout: that has the same size."""
from typing import List, Mapping, NamedTuple, Optional, Tuple

from ..layouts.attributes import GRAVITIES
from ..resources.themes import Item
from . import boxes
from .boxes import Box
from .draft import MAX_TEXT, Draft, Node, boolean_of, colour_of, keys_of, length_of, text_of, whole
from .drawables import Drawable
from .mapper import Mapper
from .report import Effect

# a character, in pixels
CELL_WIDTH, CELL_HEIGHT = 6, 8
ACROSS, DOWN = 0x07, 0x70
LEFT, TOP, CENTRE_ACROSS, CENTRE_DOWN, RIGHT, BOTTOM = 0x03, 0x30, 0x01, 0x10, 0x05, 0x50
INPUT_CLASS, INPUT_TEXT, INPUT_NUMBER, INPUT_MULTILINE = 0xF, 0x1, 0x2, 0x20000
DARK, LIGHT = 0xDE000000, 0x8A000000
SIDES = ("Left", "Top", "Right", "Bottom")
# the keys of the picture at each side of a text, the first of which counts
PICTURES = tuple(
    tuple(key for side in sides for key in ("android:drawable" + side, "app:drawable%sCompat" % side))
    for sides in (("Start", "Left"), ("Top",), ("End", "Right"), ("Bottom",)))
ALL_PICTURES = frozenset(key for keys in PICTURES for key in keys)
LINES = keys_of("minLines maxLines lines singleLine inputType")
SIZES = keys_of("width ems minEms")
LIMITS = keys_of("maxWidth maxEms width ems")
GONE = Drawable()
Items = Mapping[int, Item]


class Beside(NamedTuple):
    """The pictures beside a text: at its left, above it, at its right and below it; and the room between."""

    drawables: Tuple[Drawable, Drawable, Drawable, Drawable]
    room: int

    def taken(self, side: int) -> int:
        """How many pixels a picture takes at a side with the room beside it."""
        found = self.drawables[side]
        size = found.width if side % 2 == 0 else found.height
        return size + self.room if found is not GONE and size >= 0 else 0


class Lines(NamedTuple):
    """How many lines a text has at least and at most; 0 where there is no such limit. One line that does not break has
    `single`."""

    least: int
    most: int
    single: bool


def appearance(draft: Draft) -> Items:
    """The items of the text appearance."""
    given = draft.attributes.given("android:textAppearance")
    draft.use("android:textAppearance")
    if given is None or given[0].is_null:
        return {}
    if "android:textAppearance" in draft.own:
        draft.check_parents("android:textAppearance", given[0], Effect.TEXT)
    return draft.attributes.items_of(given[0])


def ink_of(draft: Draft, name: str, items: Items) -> Optional[int]:
    """A colour of the text: that of the view, or that of its text appearance."""
    if draft.attributes.given("android:" + name) is not None:
        return draft.colour(name)
    item = items.get(draft.app.lookup.number("android:" + name) or 0)
    if item is None:
        return None
    return draft.app.drawables.of(item.value, draft.theme).colour


def is_in_capitals(draft: Draft, items: Items) -> bool:
    """Whether the text is shown in capitals."""
    for key in ("android:textAllCaps", "app:textAllCaps"):
        if draft.attributes.given(key) is not None:
            return draft.boolean(key)
        item = items.get(draft.app.lookup.number(key) or 0)
        if item is not None:
            return bool(item.value.boolean())
    return False


def input_type(draft: Draft) -> Optional[int]:
    """What is typed, which says whether there is one line."""
    value = draft.value("inputType", Effect.NONE)
    if value is None or value.is_int:
        return value.number() if value else None
    words = (value.text or "none").split("|")
    is_text = any(it.startswith("text") for it in words)
    if words == ["none"]:
        return 0
    return INPUT_TEXT | (INPUT_MULTILINE if "textMultiLine" in words else 0) if is_text else INPUT_NUMBER


def lines_of(draft: Draft, is_field: bool) -> Lines:
    """How many lines the text may have."""
    if draft.lacks(LINES):
        return Lines(0, 0, False)
    least = draft.number("minLines", {}) or 0
    most = draft.number("maxLines", {}) or 0
    exact = draft.number("lines", {}) or 0
    single = draft.boolean("singleLine")
    kind = input_type(draft)
    if draft.attributes.given("android:singleLine") is None and kind is not None:
        is_text = kind & INPUT_CLASS == INPUT_TEXT
        single = kind != 0 and not (is_text and kind & INPUT_MULTILINE)
    if single:
        least, most, exact = 1, 1, 0
    if is_field and most == 1:
        single = True
    return Lines(exact or least, exact or most, single)


def said_of(draft: Draft, given: str, items: Items, single: bool) -> Tuple[str, bool]:
    """The text that is shown, and whether it is the hint."""
    text = draft.text("text")
    hint = draft.text("hint")
    is_hint = not text and not given and bool(hint)
    if text and hint and len(hint) > len(text):
        draft.record.approximate("android:hint", "a hint that is longer than the text does not count", Effect.CONTENT)
    found = text or given or hint or ""
    most = draft.number("maxLength", {})
    if most is not None and most >= 0 and not is_hint:
        found = found[:most]
    if not is_hint and is_in_capitals(draft, items):
        found = found.upper()
    if single:
        found = found.replace("\n", " ")
    found = found.replace("\r", "")
    if len(found.encode()) > MAX_TEXT:
        found = found.encode()[:MAX_TEXT].decode("utf-8", "ignore")
        draft.record.approximate("android:text", "the text is cut after %d bytes" % MAX_TEXT, Effect.CONTENT)
    return found, is_hint


def put_text(draft: Draft, node: Node, text: str, is_hint: bool, items: Items) -> None:
    """Writes the text and its colour into a TextView."""
    if text:
        node.attributes["text"] = text_of(text)
    colour = ink_of(draft, "textColor", items)
    hint = ink_of(draft, "textColorHint", items)
    if is_hint:
        colour = hint
    colour = colour if colour is not None else (LIGHT if is_hint else DARK)
    node.attributes["textColor"] = colour_of(colour)


def beside_of(draft: Draft) -> Beside:
    """The pictures beside the text."""
    found: List[Drawable] = []
    for keys in PICTURES if not draft.lacks(ALL_PICTURES) else ((),) * 4:
        drawable = GONE
        for key in keys:
            draft.use(key)
            if draft.attributes.given(key) is not None and drawable is GONE:
                drawable = draft.drawable(key)
        found.append(drawable if drawable.width >= 0 and drawable.height >= 0 else GONE)
    room = draft.length("drawablePadding") or 0
    return Beside((found[0], found[1], found[2], found[3]), room)


def least_size(draft: Draft, box: Box, lines: Lines) -> Tuple[int, int]:
    """The least width and height, with those that a text is given in lines and characters."""
    width, height = box.width, box.height
    for name in () if draft.lacks(SIZES) else ("width", "ems", "minEms"):
        found = draft.length(name) if name == "width" else draft.number(name, {})
        if found is not None and found > 0:
            width = max(width, found if name == "width" else found * CELL_HEIGHT)
    found = draft.length("height")
    height = max(height, found or 0)
    if lines.least > 1:
        height = max(height, lines.least * CELL_HEIGHT + box.down)
    return width, height


def check_most(draft: Draft, box: Box, text: str, lines: Lines) -> None:
    """Says where a limit that the program does not have may change the size."""
    longest = max(map(len, text.split("\n"))) * CELL_WIDTH + box.across
    for name in () if draft.lacks(LIMITS) else ("maxWidth", "maxEms", "width", "ems"):
        most = draft.number(name, {}) if name.endswith("ms") else draft.length(name)
        if most is None or most < 0:
            continue
        most = most * CELL_HEIGHT if name.endswith("ms") else most
        if longest > most:
            draft.record.approximate("android:" + name, "the text is wider than this, and not cut", Effect.CONTENT)
    high = draft.length("maxHeight")
    if high is not None and high < (text.count("\n") + 1) * CELL_HEIGHT + box.down:
        draft.record.approximate("android:maxHeight", "the text is higher than this, and not cut", Effect.CONTENT)
    if lines.most > 1 and lines.most != lines.least and len(text) > lines.most:
        draft.record.approximate("android:maxLines", "a text of more lines is not cut", Effect.CONTENT)


def is_moved(draft: Draft, gravity: int, text: str) -> bool:
    """Whether a gravity places the text elsewhere than at the left and at the top."""
    across = gravity & ACROSS not in (0, LEFT) and not boxes.is_wrapped(draft, "layout_width")
    down = gravity & DOWN not in (0, TOP) and not boxes.is_wrapped(draft, "layout_height")
    has_least = bool({"minWidth", "minHeight", "layout_weight"} & set(draft.node.attributes))
    away = gravity & ACROSS not in (0, LEFT) or gravity & DOWN not in (0, TOP)
    return bool(text) and (across or down or (has_least and away))


def around(draft: Draft, box: Box, beside: Beside) -> Box:
    """The box of a text with the pictures beside it as padding."""
    edges = [it + beside.taken(side) for side, it in enumerate(box.padding)]
    return box._replace(padding=(edges[0], edges[1], edges[2], edges[3]))


def put_padding(draft: Draft, before: Box, after: Box) -> None:
    """Writes a padding that pictures have made larger."""
    if before.padding == after.padding:
        return
    for name in ("padding", "paddingStart", "paddingEnd"):
        draft.node.attributes.pop(name, None)
    for side, it in zip(SIDES, after.padding):
        draft.put("padding" + side, length_of(it))


def picture_views(draft: Draft, beside: Beside) -> List[Node]:
    """The pictures beside a text as views: their margins lead into the padding that is made for them."""
    places = (LEFT | CENTRE_DOWN, TOP | CENTRE_ACROSS, RIGHT | CENTRE_DOWN, BOTTOM | CENTRE_ACROSS)
    found = []
    for side, drawable in enumerate(beside.drawables):
        if drawable is GONE:
            continue
        node = Node("View", record=draft.record, is_added=True)
        node.attributes = {
            "layout_width": length_of(drawable.width), "layout_height": length_of(drawable.height),
            "layout_gravity": whole(places[side]), "layout_margin" + SIDES[side]: length_of(-beside.taken(side)),
        }
        if drawable.colour:
            node.attributes["background"] = colour_of(drawable.colour)
        found.append(node)
    return found


def finish(draft: Draft, box: Box, given: str, beside: Beside, is_field: bool = False) -> None:
    """Writes the text, in a FrameLayout where it has to be."""
    items = appearance(draft)
    lines = lines_of(draft, is_field)
    text, is_hint = said_of(draft, given, items, lines.single)
    for key in ("android:textSize", "android:textStyle", "android:typeface", "android:fontFamily"):
        if draft.attributes.given(key) is not None and key not in draft.own:
            draft.record.approximate("", "a text has the cells of 6 by 8 pixels", Effect.TEXT)
            break
    inner = around(draft, box, beside)
    put_padding(draft, box, inner)
    width, height = least_size(draft, inner, lines)
    for name, size in (("minWidth", width), ("minHeight", height)):
        if size > (box.width if name == "minWidth" else box.height):
            draft.put(name, length_of(size))
    check_most(draft, inner, text, lines)
    gravity = draft.flags("gravity", GRAVITIES) or 0
    is_cut = bool(text) and lines.most and (lines.single or lines.most == lines.least or lines.most == 1)
    has_pictures = any(it is not GONE for it in beside.drawables)
    if not (is_cut or has_pictures or is_moved(draft, gravity, text)):
        draft.node.kind = "TextView"
        put_text(draft, draft.node, text, is_hint, items)
        return
    label = Node("TextView", record=draft.record, is_added=True)
    put_text(draft, label, text, is_hint, items)
    label.attributes["layout_width"] = whole(-2)
    label.attributes["layout_height"] = length_of(lines.most * CELL_HEIGHT) if is_cut else whole(-2)
    if gravity:
        label.attributes["layout_gravity"] = whole(gravity)
    draft.node.kind = "FrameLayout"
    draft.node.children = [*picture_views(draft, beside), label]
    if has_pictures:
        draft.put("clipToPadding", boolean_of(False))


def map_text(draft: Draft, mapper: Mapper, arguments: str) -> None:
    """A text; with `says TEXT` that one where it has none, with `field` one that is typed."""
    box = boxes.put_box(draft)
    word, _, given = arguments.partition(" ")
    finish(draft, box, given if word == "says" else "", beside_of(draft), word == "field")


def with_side(beside: Beside, side: int, drawable: Drawable) -> Beside:
    """Pictures beside a text with one more at a side, without room between."""
    if drawable.width < 0 or drawable.height < 0:
        return beside
    found = list(beside.drawables)
    if found[side] is not GONE:
        height = max(drawable.height, found[side].height)
        drawable = Drawable(drawable.colour, drawable.width + beside.taken(side), height)
    found[side] = drawable
    return Beside((found[0], found[1], found[2], found[3]), beside.room)


def map_compound(draft: Draft, mapper: Mapper, arguments: str) -> None:
    """A text with a button at its left: a box or a circle."""
    box = boxes.put_box(draft)
    draft.use("android:checked")
    key = "app:buttonCompat" if draft.attributes.given("app:buttonCompat") is not None else "android:button"
    button = draft.drawable(key)
    beside = beside_of(draft)
    if button.height > 0:
        box = box._replace(height=max(box.height, button.height))
        draft.put("minHeight", length_of(box.height))
    finish(draft, box, "", with_button(beside, button))


def with_button(beside: Beside, button: Drawable) -> Beside:
    """A button at the left of a text has no room between."""
    if button.width < 0:
        return beside
    room = beside.room if beside.drawables[0] is GONE else 0
    without_room = Drawable(button.colour, button.width - room, button.height)
    return with_side(beside, 0, without_room if without_room.width >= 0 else button)


def map_checked(draft: Draft, mapper: Mapper, arguments: str) -> None:
    """A text with a mark at its right."""
    box = boxes.put_box(draft)
    draft.use("android:checked")
    mark = draft.drawable("checkMark")
    beside = beside_of(draft)
    if mark.height > 0:
        box = box._replace(height=max(box.height, mark.height))
        draft.put("minHeight", length_of(box.height))
    finish(draft, box, "", with_side(beside, 2, Drawable(mark.colour, mark.width - beside.room, mark.height))
           if mark.width >= beside.room else beside)


def map_toggle(draft: Draft, mapper: Mapper, arguments: str) -> None:
    """A button whose text says whether it is on."""
    box = boxes.put_box(draft)
    is_on = draft.boolean("checked", Effect.PICTURE)
    texts = {True: draft.text("textOn"), False: draft.text("textOff")}
    if "android:text" in draft.own:
        draft.record.no_effect("android:text", "the texts for on and off replace it")
        del draft.own["android:text"]
    finish(draft, box, texts[is_on] or ("ON" if is_on else "OFF"), beside_of(draft))


def map_switch(draft: Draft, mapper: Mapper, arguments: str) -> None:
    """A text with a switch at its right, whose room is made of its thumb and its track."""
    box = boxes.put_box(draft)
    draft.use("android:checked")
    library = "app:" if draft.attributes.given("app:thumb") or draft.attributes.given("app:track") else "android:"
    thumb = draft.drawable("android:thumb")
    track = draft.drawable(library + "track")
    least = draft.length(library + "switchMinWidth") or 0
    padding = draft.length(library + "switchPadding") or 0
    for name in ("textOn", "textOff", "thumbTextPadding", "showText", "splitTrack"):
        draft.use("android:" + name)
        draft.use("app:" + name)
    edges = track.padding or (0, 0, 0, 0)
    width = max(least, 2 * max(thumb.width, 0) + edges[0] + edges[2])
    height = max(thumb.height, track.height, 0)
    colour = track.colour if track.colour is not None else thumb.colour
    if thumb.width < 0 or thumb.colour is None:
        draft.record.approximate("", "the size of its thumb is not known", Effect.CONTENT)
    beside = beside_of(draft)
    has_text = bool(draft.text("text"))
    room = (padding if has_text else 0) - beside.room
    switch = Drawable(colour, max(width + room, 0), height)
    finish(draft, box, "", with_side(beside, 2, switch))
