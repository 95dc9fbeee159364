"""Rules on what is painted, by the pixels of the program."""
from typing import Iterator, Tuple

from .page import Page
from .registry import Severity, rule
from .seen import Seen
from .text_rules import amount

# contrast ratios of WCAG 2.2, 1.4.3: of texts, and of large ones, from 18 points on, or 14 if they are bold
LEAST_CONTRAST, LEAST_OF_LARGE = 4.5, 3.0
LARGE, LARGE_BOLD = 24.0, 56 / 3
# how often a pixel may be filled, and from which part of the window on more is a finding, in hundredths
MOST_FILLS, LEAST_SHARE = 2, 5


def luminance(colour: bytes) -> float:
    """The relative luminance of a colour, as WCAG 2.2 defines it."""
    channels = [int(colour[at : at + 2], 16) / 255 for at in (0, 2, 4)]
    linear = [it / 12.92 if it <= 0.04045 else float(((it + 0.055) / 1.055) ** 2.4) for it in channels]
    return 0.2126 * linear[0] + 0.7152 * linear[1] + 0.0722 * linear[2]


def contrast_of(pair: Tuple[bytes, bytes]) -> float:
    """The contrast ratio of two colours, from 1 to 21."""
    low, high = sorted(map(luminance, pair))
    return (high + 0.05) / (low + 0.05)


def is_large(it: Seen) -> bool:
    """Whether a text is large by its attributes."""
    source = it.source
    found = {name: source.attributes[name].resolved for name in ("android:textSize", "android:textStyle")
             if source and name in source.attributes}
    size = amount(found.get("android:textSize"), "sp") or 0
    style = found.get("android:textStyle", "")
    is_bold = "bold" in style or style in ("1", "3", "0x00000001", "0x00000003")
    return size >= LARGE or (is_bold and size >= LARGE_BOLD)


@rule("contrast", Severity.WARNING, "TextContrastCheck")
def contrast(it: Seen, page: Page) -> Iterator[str]:
    """A text has a contrast of 4.5 to 1 with what is seen behind it, and a large one of 3 to 1."""
    pairs = page.painted.pairs.get(it.view.number) if it.view.text and page.painted else None
    if not pairs:
        return
    ratio, pair = min((contrast_of(pair), pair) for pair in pairs)
    least = LEAST_OF_LARGE if is_large(it) else LEAST_CONTRAST
    if ratio < least:
        total, few = sum(pairs.values()), sum(number for at, number in pairs.items() if contrast_of(at) < least)
        part = "" if few == total else " in %d of its %d pixels" % (few, total)
        note = "" if it.source is None or it.source.has_exact_picture else "; its picture is not exact"
        yield "#%s on #%s has a contrast of %.2f to 1, below %g%s%s" % (pair[0].decode(), pair[1].decode(), ratio, least, part, note)


@rule("overdraw", Severity.WARNING, "Overdraw")
def overdraw(it: Seen, page: Page) -> Iterator[str]:
    """A pixel is filled at most twice: where this view is the last that fills it, at most 5 % of the window are
    more."""
    found = page.painted.filled.get(it.view.number) if page.painted else None
    if not found:
        return
    more = {often: number for often, number in found.items() if often > MOST_FILLS}
    share = 100 * sum(more.values()) // (page.window[0] * page.window[1])
    if share >= LEAST_SHARE:
        below = [at for at in page.around(it) if at.view.background and int(at.view.background[1:3], 16)]
        yield "%d %% of the window are filled %d times, the last time here, over %s" % (
            share, max(more), ", ".join("v%d" % at.view.number for at in below) or "its siblings")


@rule("hidden-background", Severity.WARNING, "Overdraw")
def hidden_background(it: Seen, page: Page) -> Iterator[str]:
    """An opaque background is seen at one pixel at least."""
    pixels = page.painted.covered.get(it.view.number) if page.painted else None
    if pixels and 100 * pixels // (page.window[0] * page.window[1]) >= LEAST_SHARE:
        yield "its background %s fills %d pixels, and others cover all of them" % (it.view.background, pixels)
