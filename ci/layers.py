"""The crates by layers: the table and the drawing of docs/ARCHITECTURE.md, made of crates.txt, ci/layers.txt and the
first sentence of each root file. `ci/promises` writes them; the checks compare them with the sources."""
import html
import os
import re
from typing import Dict, Iterator, List, NamedTuple, Tuple

from public_calls import crates
from running import TOP, Checks

PAGE = os.path.join(TOP, "docs", "ARCHITECTURE.md")
PICTURES = os.path.join(TOP, "docs", "pictures")
BEGIN, END = "<!-- ci/promises: crates -->\n", "<!-- end -->\n"
# from the top of the drawing down
MEANING = {
    "tool": "the program, and the worlds of scripts",
    "script": "what comes in: lines and files",
    "tree": "the tree of views, and what is done to it",
    "layouts": "rules by themselves, without a tree",
    "values": "numbers, facts, bytes",
}
# the way of a line's bytes, by the crates that it passes: an edit, the frame after it, and its reply
WAY = ("view_tool", "tool_io", "whole_tool", "script_lines", "view_world", "seen_edits", "tree_edits", "view_tree", "traversal",
       "measure_pass", "linear_layout", "tree_painter", "pixel_raster", "text_lines")
# the most words of a sentence that the table has whole, and the least of the part of a longer one
LONG, ENOUGH = 12, 4
# of a drawing, in pixels
MARGIN, BOX, GAP, ROW, LEAST = 12, 22, 6, 30, 58


class Shape(NamedTuple):
    """How wide a drawing is, where boxes begin, how far below the top of their layer, and how many letters a line of
    what the layer is for has."""

    width: int
    left: int
    head: int
    letters: int


# on a telephone, of 360 pixels with the margins of a page, letters of the narrow one have their size
SHAPES = {"layers.svg": Shape(960, 190, 10, 27), "layers_narrow.svg": Shape(328, 18, 46, 60)}


def used() -> Dict[str, List[str]]:
    """What each crate uses, crates of the repository alone."""
    ours = set(crates())
    with open(os.path.join(TOP, "crates.txt"), encoding="utf-8") as file:
        lines = [re.split(r"[ :]+", line.strip()) for line in file if line.strip()]
    return {words[0]: [word for word in words[1:] if word in ours] for words in lines}


def layers() -> Dict[str, List[str]]:
    """The crates of each layer, the highest layer first."""
    with open(os.path.join(TOP, "ci", "layers.txt"), encoding="utf-8") as file:
        rows = [line.split(":") for line in file.read().splitlines()]
    return {name: words.split() for name, words in rows}


def summary(crate: str) -> str:
    """The first sentence of the root file of a crate."""
    for name in ("lib.rt", "main.rt"):
        path = os.path.join(TOP, "crates", crate, "src", name)
        if os.path.exists(path):
            with open(path, encoding="utf-8") as file:
                head = [line[3:].strip() for line in file.read().split("\n\n")[0].splitlines() if line.startswith("//!")]
            found = re.match(r".*?\.(?= |$)", " ".join(head))
            return found[0].rstrip(".") if found else " ".join(head)
    return ""


def beginning(sentence: str) -> str:
    """A sentence without the article at its head; of one of more than `LONG` words the part up to a colon, if that has
    enough words to say something."""
    text = re.sub(r"^(The|An?) ", "", sentence)
    short = text.split(": ")[0]
    chosen = text if len(text.split()) <= LONG or len(short.split()) < ENOUGH else short
    return chosen[:1].upper() + chosen[1:]


def table() -> str:
    rows = ["|crate|what it is|", "|---|---|"]
    for layer, members in layers().items():
        rows.append("|**%s**|%s|" % (layer, MEANING[layer]))
        rows += ["|[`%s`](../crates/%s)|%s|" % (crate, crate, beginning(summary(crate))) for crate in members]
    return "\n".join(rows) + "\n"


def label(crate: str) -> str:
    """What the box of a crate says: where it is on the way of a line, and its name."""
    return "%d %s" % (WAY.index(crate) + 1, crate) if crate in WAY else crate


def placed(members: List[str], shape: Shape) -> Iterator[Tuple[str, int, int, int]]:
    """Each crate of a layer with the left edge, the row and the width of its box."""
    left, row = shape.left, 0
    for crate in members:
        width = 16 + 7 * len(label(crate))
        if left + width > shape.width - MARGIN - GAP:
            left, row = shape.left, row + 1
        yield crate, left, row, width
        left += width + GAP


def drawing(shape: Shape) -> str:
    """The layers as a picture: a band a layer, a box a crate, and numbers at the boxes which a line passes."""
    parts: List[str] = []
    top = MARGIN
    for layer, members in layers().items():
        boxes = list(placed(members, shape))
        height = max((max(row for _, _, row, _ in boxes) + 1) * ROW + shape.head + 4, LEAST)
        parts.append('<rect class="layer" x="%d" y="%d" width="%d" height="%d"/>' % (MARGIN, top, shape.width - 2 * MARGIN, height))
        parts.append('<text class="name" x="%d" y="%d">%s</text>' % (MARGIN + 10, top + 22, layer))
        parts += ['<text class="what" x="%d" y="%d">%s</text>' % (MARGIN + 10, top + 37 + 13 * number, html.escape(line))
                  for number, line in enumerate(wrapped(MEANING[layer], shape.letters))]
        for crate, left, row, width in boxes:
            y = top + shape.head + row * ROW
            kind = "way" if crate in WAY else "crate"
            parts.append('<rect class="%s" x="%d" y="%d" width="%d" height="%d" rx="3"/>' % (kind, left, y, width, BOX))
            parts.append('<text class="box" x="%d" y="%d">%s</text>' % (left + 8, y + 15, label(crate)))
        top += height + 8
    size = (shape.width, top + MARGIN - 8)
    return SVG % (*size, *size, "\n".join(parts))


def wrapped(text: str, most: int) -> List[str]:
    lines = [""]
    for word in text.split():
        if len(lines[-1]) + len(word) >= most:
            lines.append("")
        lines[-1] = (lines[-1] + " " + word).strip()
    return lines


SVG = """<svg xmlns="http://www.w3.org/2000/svg" width="%d" height="%d" viewBox="0 0 %d %d" role="img">
<title>The crates in five layers</title>
<desc>Made by ci/promises. A crate uses crates of its own layer and of those below it. Numbers are the way of a line: an edit, the frame after it, and the reply.</desc>
<style>
text { font-family: sans-serif; font-size: 12px; fill: #1b1b1f }
.name { font-weight: bold; font-size: 14px } .what { font-size: 11px; fill: #46464f }
.box { font-family: monospace; font-size: 11.5px }
.layer { fill: #f4f4f8; stroke: #c7c6d0 } .crate { fill: #ffffff; stroke: #90909a } .way { fill: #d7e3ff; stroke: #3d5f90 }
</style>
%s
</svg>
"""


def with_table(text: str) -> str:
    """The page with the table between its two marks."""
    before, rest = text.split(BEGIN)
    return before + BEGIN + table() + END + rest.split(END, 1)[1]


def write() -> None:
    with open(PAGE, encoding="utf-8") as file:
        text = file.read()
    with open(PAGE, "w", encoding="utf-8") as file:
        file.write(with_table(text))
    for name, shape in SHAPES.items():
        with open(os.path.join(PICTURES, name), "w", encoding="utf-8") as file:
            file.write(drawing(shape))


def each_is_in_one_layer() -> str:
    """Each crate is in one layer, and uses none of a higher one."""
    members = [crate for found in layers().values() for crate in found]
    if sorted(members) != sorted(crates()):
        return "ci/layers.txt and crates.txt differ in %s" % ", ".join(sorted(set(members) ^ set(crates())))
    height = {crate: number for number, found in enumerate(layers().values()) for crate in found}
    wrong = ["%s uses %s" % (crate, other) for crate, others in used().items() for other in others if height[other] < height[crate]]
    return "of a higher layer: " + ", ".join(wrong) if wrong else ""


def is_fresh() -> str:
    with open(PAGE, encoding="utf-8") as file:
        text = file.read()
    if with_table(text) != text:
        return "docs/ARCHITECTURE.md is not of the sources: run ci/promises"
    for name, shape in SHAPES.items():
        with open(os.path.join(PICTURES, name), encoding="utf-8") as file:
            if file.read() != drawing(shape):
                return "docs/pictures/%s is not of the sources: run ci/promises" % name
    return ""


def boxes_fit() -> str:
    """Each box of a drawing lies within its layer, beside the others."""
    for name, shape in SHAPES.items():
        for members in layers().values():
            ends: Dict[int, int] = {}
            for crate, left, row, width in placed(members, shape):
                if left < max(shape.left, ends.get(row, 0)) or left + width > shape.width - MARGIN:
                    return "%s: the box of %s" % (name, crate)
                ends[row] = left + width
    return ""


def checks() -> Checks:
    yield "layers: each crate is in one, and uses none of a higher one", each_is_in_one_layer
    yield "layers: table and drawings of docs/ARCHITECTURE.md are of the sources", is_fresh
    yield "layers: boxes of the drawings fit", boxes_fit
