"""What the pixels of a frame say: they are the program's, of the same tree in other colours.

Colours change no bounds. So after the script, backgrounds and inks get colours that count or name views, and the
program paints: `#01ff0000` over black adds one to the red of a pixel each time, up to 127 times.
"""
from collections import Counter
from typing import Callable, Dict, Iterator, List, NamedTuple, Optional, Tuple

from ..pictures import frames
from ..scripts.replies import Answer, Part
from ..scripts.script import Window
from ..views import placement
from ..views.placement import Placed
from ..views.view_tree import View
from . import asking
from .asking import Run

CLEAR, BLACK = "#00000000", "#ff000000"
COUNTS_FILLS, COUNTS_TEXTS = "#01ff0000", "#0100ff00"
WHITE = "#ffffffff"
NO_VIEW = b"000000"
# red, green and blue as the program writes them
Colour = bytes
Colours = Callable[[View], str]


class Painted(NamedTuple):
    """Of the picture of the last frame: for each text the pairs of colours of its pixels, its own and what is seen
    behind it, with how many pixels have them; how many pixels are filled how often, in all and by the last view that
    fills them; and the numbers of the views whose opaque background is seen nowhere."""

    pairs: Dict[int, Dict[Tuple[Colour, Colour], int]]
    fills: Dict[int, int]
    filled: Dict[int, Dict[int, int]]
    covered: Dict[int, int]


class Layer(NamedTuple):
    """The tree in other colours: those of backgrounds and of inks."""

    background: Colours
    ink: Colours


def alpha(colour: Optional[str]) -> int:
    """The alpha of a colour; of one that a hook may have set it is taken to be opaque."""
    return int(colour[1:3], 16) if colour else 255


def ink_of(view: View) -> str:
    """The colour of a view's text."""
    return view.given.get("ink") or WHITE


def named(view: View) -> str:
    """An opaque colour that is the view's number."""
    return "#ff%06x" % view.number


def own_background(view: View) -> str:
    """The background that the view has."""
    return view.background or CLEAR


def names_of_fills(view: View) -> str:
    """The view's number where it has any background."""
    return named(view) if alpha(view.background) else CLEAR


def names_of_opaque(view: View) -> str:
    """The view's number where it has an opaque background."""
    return named(view) if alpha(view.background) == 255 else CLEAR


def black_where_opaque(view: View) -> str:
    """Black where the view has an opaque background."""
    return BLACK if alpha(view.background) == 255 else CLEAR


BEHIND = Layer(own_background, lambda view: CLEAR)
TEXTS = Layer(black_where_opaque, lambda view: named(view) if alpha(ink_of(view)) else CLEAR)
FILLS = Layer(
    lambda view: COUNTS_FILLS if alpha(view.background) else CLEAR,
    lambda view: COUNTS_TEXTS if alpha(ink_of(view)) else CLEAR,
)
LAST = Layer(names_of_fills, lambda view: CLEAR)
OPAQUE = Layer(names_of_opaque, lambda view: CLEAR)


def lines_of(layer: Layer, placed: List[Placed]) -> Iterator[bytes]:
    """The lines that give a tree the colours of a layer."""
    for it in placed:
        view = it.view
        yield b"bg v%d %s" % (view.number, layer.background(view).encode())
        if view.kind == "TextView":
            yield b"ink v%d %s" % (view.number, layer.ink(view).encode())


def rows_of(answer: Answer) -> List[bytes]:
    """The rows of a picture as the program writes them; equal ones are one object."""
    known: Dict[bytes, bytes] = {}
    return [known.setdefault(it, it) for it in answer.replies if not it.startswith((b"settled", b"again"))]


def painted(run: Run, placed: List[Placed], window: Window) -> Optional[Painted]:
    """What the pixels say; None where lines after the last frame would change the picture, or a background is
    unknown."""
    if any(it.view.background is None for it in placed):
        return None
    asked = frames.asked(window)
    layers = [BEHIND, TEXTS, FILLS, LAST, OPAQUE]
    parts = [Part(asked), Part([b"frame", b"bounds"])]
    parts += [Part([*lines_of(it, placed), b"frame", *asked]) for it in layers]
    answers = run.answers(parts)
    plain, still = rows_of(next(answers)), next(answers)
    if still.replies != [b"settled 0", *asking.bounds_lines(placed)]:
        return None
    behind, texts = rows_of(next(answers)), rows_of(next(answers))
    found = Painted({}, {}, {}, {})
    add_pairs(found, plain, behind, texts)
    fills, last = rows_of(next(answers)), rows_of(next(answers))
    add_fills(found, fills, last)
    seen = {int(it, 16) for row in set(rows_of(next(answers))) for it in set(row.split(b" "))}
    for it in placement.seen(placed):
        pixels = pixels_in(it, window)
        if pixels and alpha(it.view.background) == 255 and it.view.number not in seen:
            found.covered[it.view.number] = pixels
    return found


def pixels_in(it: Placed, window: Window) -> int:
    """How many pixels of the window are in a view."""
    left, top, right, bottom = it.window or (0, 0, 0, 0)
    return max(0, min(right, window[0]) - max(left, 0)) * max(0, min(bottom, window[1]) - max(top, 0))


def add_pairs(found: Painted, plain: List[bytes], behind: List[bytes], texts: List[bytes]) -> None:
    """Adds the colours of texts."""
    blank = {row for row in set(texts) if not row.replace(b"0", b"").strip()}
    for above, under, names in zip(plain, behind, texts):
        if names in blank:
            continue
        counted = Counter(zip(names.split(b" "), above.split(b" "), under.split(b" ")))
        for (name, over, below), number in counted.items():
            if name != NO_VIEW:
                pairs = found.pairs.setdefault(int(name, 16), {})
                pairs[over, below] = pairs.get((over, below), 0) + number


def add_fills(found: Painted, fills: List[bytes], last: List[bytes]) -> None:
    """Adds how often pixels are filled, and by which view the last time."""
    for (counts, names), times in Counter(zip(fills, last)).items():
        for (count, name), number in Counter(zip(counts.split(b" "), names.split(b" "))).items():
            often = int(count[:2], 16) + int(count[2:4], 16)
            found.fills[often] = found.fills.get(often, 0) + number * times
            own = found.filled.setdefault(int(name, 16), {})
            own[often] = own.get(often, 0) + number * times
