"""Views that are as large as a drawable, or as a size of their own: an empty FrameLayout has the size of its
padding, at least its least size, which is how these are measured too."""
from typing import Tuple

from ..layouts.attributes import VISIBILITIES
from . import boxes
from .boxes import Box
from .draft import MAX_SIZE, Draft, colour_of, length_of, whole
from .drawables import Drawable, over
from .mapper import Mapper
from .report import Effect

BASE_DENSITY = 160
STARS = 5
FLOATING = {"normal": 56, "mini": 40, "auto": 56}
FLOATING_NUMBERS = {"normal": 0, "mini": 1, "auto": -1}
GONE = VISIBILITIES["gone"]


def put_content(draft: Draft, box: Box, width: int, height: int) -> None:
    """Writes the size of a content with the padding around it as the least size, where that is larger."""
    draft.node.kind = "FrameLayout"
    sides = (("minWidth", width + box.across, box.width), ("minHeight", height + box.down, box.height))
    for name, size, least in sides:
        if size > least:
            draft.put(name, length_of(min(size, MAX_SIZE)))


def put_colour(draft: Draft, box: Box, shown: Drawable) -> None:
    """Writes the colour of what is shown over that of the background."""
    if shown.colour:
        draft.put("background", colour_of(over(shown.colour, box.background.colour or 0)))


def tinted(draft: Draft, shown: Drawable) -> Drawable:
    """A drawable with the tint of its view."""
    for key in ("android:tint", "app:tint"):
        if draft.attributes.given(key) is not None and shown.colour:
            tint = draft.colour(key)
            if tint is not None:
                alpha = (shown.colour >> 24) * (tint >> 24) // 255
                return Drawable(alpha << 24 | tint & 0xFFFFFF, shown.width, shown.height)
    return shown


def adjusted(draft: Draft, box: Box, width: int, height: int) -> Tuple[int, int]:
    """The size of an image that keeps its form, where one side is given and the other one is that of the content."""
    if not draft.boolean("adjustViewBounds"):
        for name in ("maxWidth", "maxHeight"):
            if draft.attributes.given("android:" + name) is not None:
                draft.record.no_effect("android:" + name, "it counts with adjustViewBounds alone")
        return width, height
    across, down = boxes.fixed(draft, "layout_width"), boxes.fixed(draft, "layout_height")
    most = draft.length("maxWidth"), draft.length("maxHeight")
    if width > 0 and height > 0:
        if down is not None and boxes.is_wrapped(draft, "layout_width"):
            return (down - box.down) * width // height, height
        if across is not None and boxes.is_wrapped(draft, "layout_height"):
            return width, (across - box.across) * height // width
        if across is not None and down is not None:
            return width, height
        if any(most):
            factor = min([1.0, *[it / size for it, size in zip(most, (width, height)) if it]])
            width, height = int(width * factor), int(height * factor)
    draft.record.approximate("android:adjustViewBounds", "an image keeps its size, not its form", Effect.CONTENT)
    return width, height


def map_image(draft: Draft, mapper: Mapper, arguments: str) -> None:
    """An image by the size of its drawable."""
    box = boxes.put_box(draft)
    key = "app:srcCompat" if draft.attributes.given("app:srcCompat") is not None else "android:src"
    found = draft.attributes.given(key)
    image = draft.drawable(key)
    width, height = image.width, image.height
    if found is None or found[0].is_null:
        width = height = 0
    else:
        width, height = (width if width > 0 else 1), (height if height > 0 else 1)
    width, height = adjusted(draft, box, width, height)
    put_content(draft, box, width, height)
    put_colour(draft, box, tinted(draft, image))


def map_floating(draft: Draft, mapper: Mapper, arguments: str) -> None:
    """A round button of 56 or 40 dp, whatever its image is."""
    box = boxes.put_box(draft)
    custom = draft.length("app:fabCustomSize")
    kind = draft.number("app:fabSize", FLOATING_NUMBERS)
    name = next((it for it, number in FLOATING_NUMBERS.items() if number == kind), "normal")
    size = custom if custom else FLOATING[name] * draft.app.density // BASE_DENSITY
    draft.drawable("app:srcCompat" if draft.attributes.given("app:srcCompat") else "android:src", Effect.PICTURE)
    put_content(draft, box._replace(padding=(0, 0, 0, 0)), size, size)
    draft.record.approximate("", "a round button is square", Effect.PICTURE)


def between(draft: Draft, name: str, size: int, least: int, most: int) -> int:
    """A size between a least and a greatest one of the view."""
    low, high = draft.length("min" + name), draft.length("max" + name)
    return max(low if low is not None else least, min(high if high is not None else most, max(size, 0)))


def bar_of(draft: Draft) -> Drawable:
    """The drawable of a bar: that of a progress, or the one that shows that something is done."""
    is_indeterminate = any(draft.boolean(it, Effect.PICTURE) for it in ("indeterminate", "indeterminateOnly"))
    name = "indeterminateDrawable" if is_indeterminate else "progressDrawable"
    for it in ("indeterminateDrawable", "progressDrawable"):
        draft.use("android:" + it)
    if draft.attributes.given("android:" + name) is None:
        return Drawable()
    return draft.drawable(name)


def map_progress(draft: Draft, mapper: Mapper, arguments: str) -> None:
    """A bar or a wheel: its drawable, between the sizes of its style."""
    box = boxes.put_box(draft)
    bar = bar_of(draft)
    width, height = between(draft, "Width", bar.width, 24, 48), between(draft, "Height", bar.height, 24, 48)
    for name in ("minWidth", "minHeight"):
        draft.node.attributes.pop(name, None)
    put_content(draft, box._replace(width=0, height=0), width, height)
    put_colour(draft, box, bar)


def map_seek(draft: Draft, mapper: Mapper, arguments: str) -> None:
    """A bar with a thumb, which may be higher."""
    box = boxes.put_box(draft)
    bar, thumb = bar_of(draft), draft.drawable("thumb")
    width = between(draft, "Width", bar.width, 24, 48)
    height = max(between(draft, "Height", bar.height, 24, 48), thumb.height)
    for name in ("minWidth", "minHeight"):
        draft.node.attributes.pop(name, None)
    put_content(draft, box._replace(width=0, height=0), width, height)
    put_colour(draft, box, bar)


def map_rating(draft: Draft, mapper: Mapper, arguments: str) -> None:
    """Stars, each as wide as its picture."""
    box = boxes.put_box(draft)
    bar = bar_of(draft)
    stars = draft.number("numStars", {}) or STARS
    height = between(draft, "Height", bar.height, 24, 48)
    width = bar.width if bar.width > 0 else height
    for name in ("minWidth", "minHeight"):
        draft.node.attributes.pop(name, None)
    put_content(draft, box._replace(width=0, height=0), width * stars, height)
    put_colour(draft, box, bar)


def map_space(draft: Draft, mapper: Mapper, arguments: str) -> None:
    """Room without a picture."""
    boxes.put_box(draft)
    draft.node.kind = "FrameLayout"
    draft.node.attributes.pop("background", None)


def map_box(draft: Draft, mapper: Mapper, arguments: str) -> None:
    """A view whose content has a size in dp that the table says."""
    box = boxes.put_box(draft)
    width, height = (int(it) * draft.app.density // BASE_DENSITY for it in arguments.split())
    put_content(draft, box, width, height)
    mapper.leave_children(draft, "the class makes its children itself")


def map_clock(draft: Draft, mapper: Mapper, arguments: str) -> None:
    """A clock as large as its dial."""
    box = boxes.put_box(draft)
    dial = draft.drawable("dial")
    if dial.width < 0:
        draft.record.approximate("", "the size of its dial is not known", Effect.CONTENT)
    put_content(draft, box, max(dial.width, 0), max(dial.height, 0))
    put_colour(draft, box, dial)


def map_spinner(draft: Draft, mapper: Mapper, arguments: str) -> None:
    """A field that shows one of several entries, which are there with the code of the app."""
    box = boxes.put_box(draft)
    if draft.attributes.given("android:entries") is not None:
        draft.record.leave_out("android:entries", "the entries are not shown, nor is their width known", Effect.CONTENT)
    put_content(draft, box, 0, 0)


def map_fill(draft: Draft, mapper: Mapper, arguments: str) -> None:
    """A view that takes what there is, as a View does."""
    boxes.put_box(draft)
    draft.node.kind = "FrameLayout" if draft.view.children else "View"
    draft.node.children = mapper.children(draft)


def map_stub(draft: Draft, mapper: Mapper, arguments: str) -> None:
    """A view without a size that is gone until code asks for its layout."""
    boxes.put_box(draft)
    draft.node.kind = "View"
    draft.put("visibility", whole(GONE))
    why = "the layout is not there until code asks for it; --inflate-stubs puts it in place"
    draft.record.no_effect("android:layout", why)
    draft.record.no_effect("android:inflatedId", "it is the id of that layout")


def map_gone(draft: Draft, mapper: Mapper, arguments: str) -> None:
    """An element of which code makes something else."""
    boxes.put_box(draft)
    draft.put("visibility", whole(GONE))
    mapper.leave_children(draft, "the class makes its children itself")
