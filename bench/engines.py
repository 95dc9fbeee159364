"""What a frame after an edit costs the program, the library and another program: `bench/run engines`.

A row is a tree and an edit (scenes.py) at two sizes. Its figures are the difference between a script with some more edits,
a frame after each, and the same script without these, a pair: instructions by callgrind, or microseconds of processor time
where valgrind is not there. `line` is the part of the program's figure that the edit takes without its frame, `ratio` the
program's figure by that of the other program, and `growth` the figure by that of the size before, the other program's in
brackets. All have to write the same bytes.
"""
import shlex
import sys
from typing import Callable, Dict, Iterator, List, NamedTuple, Optional, Sequence, Tuple

import costs
import scenes
from costs import Cost
from scenes import Scene, Tree

# how many edits come before those that are measured
WARM = 4
# how many lines of edits are measured at least, by callgrind and by the clock
COUNTED, TIMED = 8, 1000

FORM = "%-38s %6s %10s %8s %10s %10s %6s %12s"
Made = Callable[[int], Scene]


class Row(NamedTuple):
    name: str
    sizes: Tuple[int, int]
    made: Made


Scened = Callable[[Tree, bytes, bool], Scene]
LINEAR, FRAME, RELATIVE = b"LinearLayout", b"FrameLayout", b"RelativeLayout"
GROUPS = (("wrap", False), ("fixed", True))
# the tree of which there are figures of other engines; it has 16 rows at the second size
GRID = "8 rows, groups %s, %s"


def in_even(scened: Scened, depth: int, group: bytes, is_fixed: bool) -> Made:
    return lambda views: scened(scenes.even(views, depth), group, is_fixed)


def in_grid(scened: Scened, group: bytes, is_fixed: bool) -> Made:
    return lambda rows: scened(scenes.grid(rows), group, is_fixed)


def rows() -> Iterator[Row]:
    for word, is_fixed in GROUPS:
        for depth, sizes in ((3, (100, 200)), (6, (1000, 2000)), (3, (2047, 4095)), (12, (2047, 4095)), (32, (2047, 4095))):
            name = "one leaf %d deep, groups %s" % (depth, word)
            yield Row(name, sizes, in_even(scenes.one_leaf, depth, LINEAR, is_fixed))
    yield Row("one leaf 12 deep, FrameLayout", (2047, 4095), in_even(scenes.one_leaf, 12, FRAME, False))
    yield Row("a text 12 deep", (2047, 4095), in_even(scenes.text, 12, LINEAR, False))
    yield Row("a colour 12 deep", (2047, 4095), in_even(scenes.colour, 12, LINEAR, False))
    for word, is_fixed in GROUPS:
        for what, scened in (("one leaf", scenes.one_leaf), ("all anew", scenes.all_anew), ("all leaves", scenes.all_leaves),
                             ("a text", scenes.text), ("a colour", scenes.colour)):
            yield Row(GRID % (word, what), (8, 16), in_grid(scened, LINEAR, is_fixed))
    for group in (LINEAR, FRAME, RELATIVE):
        yield Row("another window, %s" % group.decode(), (8, 16), in_grid(scenes.windows, group, False))
    yield Row("scrolled by a pixel", (1000, 2000), scenes.scroll)


class Engine(NamedTuple):
    """How costs are found of some scripts."""

    name: str
    costs: Callable[[Sequence[bytes], bool], List[Cost]]


def process_engine(name: str, command: Sequence[str]) -> Engine:
    def of(scripts: Sequence[bytes], counts: bool) -> List[Cost]:
        return [(costs.instructions if counts else costs.seconds)(command, it) for it in scripts]

    return Engine(name, of)


def library_engine(path: str, scripts: Sequence[bytes], counts: bool) -> Engine:
    """The library, over scripts that are all carried out here by one process of Python."""
    found = dict(zip(scripts, costs.calls(path, scripts, counts)))
    return Engine("library", lambda some, _: [found[it] for it in some])


class Figures(NamedTuple):
    """What an edit and its frame cost, the edit alone, and the digest of the longest page."""

    whole: float
    line: Optional[float]
    digest: str


def scripts(scene: Scene, times: int) -> List[bytes]:
    """The script before, the one with edits and frames more, and the one with the edits alone."""
    before = scene.begun + b"frame\n" + b"".join(scene.edit(k) + b"frame\n" for k in range(WARM))
    more = [scene.edit(WARM + k) for k in range(times)]
    return [before, before + b"".join(it + b"frame\n" for it in more), before + b"".join(more)]


def edits_in(scene: Scene, counts: bool) -> int:
    return max(4, (COUNTED if counts else TIMED) // scene.edit(0).count(b"\n"))


def figures(engine: Engine, scene: Scene, counts: bool) -> Figures:
    times = edits_in(scene, counts)
    # the line alone is asked of the program only
    before, whole, *alone = engine.costs(scripts(scene, times)[:3 if engine.name == "program" and counts else 2], counts)
    unit = 1 if counts else 1e6
    line = (alone[0].spent - before.spent) / times * unit if alone else None
    return Figures((whole.spent - before.spent) / times * unit, line, whole.digest)


def shown(figure: Optional[float], counts: bool) -> str:
    return "-" if figure is None else ("%.0f" if counts else "%.1f") % figure


def measured(row: Row, size: int, engines: Sequence[Engine], counts: bool) -> Tuple[int, Dict[str, Figures]]:
    """How many views a scene has, and its figures by the engine."""
    scene = row.made(size)
    return scene.views, {engine.name: figures(engine, scene, counts) for engine in engines}


def print_row(row: Row, engines: Sequence[Engine], counts: bool) -> bool:
    """Prints a row at both sizes, and answers whether all engines wrote the same."""
    half: Dict[str, Figures] = {}
    good = True
    for size in row.sizes:
        views, found = measured(row, size, engines, counts)
        wholes = {name: it.whole for name, it in found.items()}
        other = wholes.get("other")
        below = "" if other is None else "%.2f" % (wholes["program"] / other)
        growth = " ".join(form % (wholes[name] / half[name].whole) for name, form in (("program", "%.2f"), ("other", "(%.2f)"))
                          if name in half)
        same = len({it.digest for it in found.values()}) == 1
        shown_here = [shown(it, counts) for it in (wholes["program"], found["program"].line, wholes.get("library"), other)]
        print(FORM % (row.name, views, *shown_here, below, growth) + ("" if same else "  THE PAGES DIFFER"), flush=True)
        half, good = found, good and same
    return good


# microseconds of processor time a frame, in the order of `kept_rows`
KEPT = (
    ("Android 6.0.1's classes, OpenJDK 17, warm", ("3.9", "82", "1.5", "81")),
    ("the same, the first 20000 frames", ("16-21", "147-155", "8-10", "178-182")),
    ("Qt 5.15.8, QBoxLayout", ("38-54", "2290-2910", "11-15", "1720-2400")),
)
KEPT_FORM = "%-44s %12s %12s %12s %12s"
KEPT_NOTE = """\
The figures of Android and Qt are of 1 December 2026, on an Intel Xeon of 2.5 GHz with 4 processors at load 2 to 17. Both were
called in process: no line was read and nothing written. Android's classes had no window; their directions were marked
as resolved, which is 35 us a frame otherwise. Qt was offscreen, with updates off, and moved its widgets."""


def kept_rows() -> List[Row]:
    """The rows whose scenes other engines were measured in too."""
    names = [GRID % (word, what) for word, _ in GROUPS for what in ("one leaf", "all anew")]
    return [row for name in names for row in rows() if row.name == name]


def print_kept(engines: Sequence[Engine], some: Sequence[Scene]) -> None:
    """Prints the processor time of a frame of these scenes by each engine, and the kept figures of others."""
    print(KEPT_FORM % ("microseconds a frame, 1049 views", "wrap, leaf", "wrap, anew", "fixed, leaf", "fixed, anew"))
    for engine in engines:
        print(KEPT_FORM % (engine.name, *(shown(figures(engine, it, False).whole, False) for it in some)), flush=True)
    for name, kept in KEPT:
        print(KEPT_FORM % (name, *kept))
    print(KEPT_NOTE)


def scripts_of(some: Sequence[Scene], counts: bool) -> List[bytes]:
    """The scripts that the library is asked for."""
    return [it for scene in some for it in scripts(scene, edits_in(scene, counts))[:2]]


def engines_of(program: str, library: Optional[str], beside: Optional[str], some: Sequence[Scene], counts: bool) -> List[Engine]:
    """The engines that there are, for these scenes."""
    engines = [process_engine("program", [program, "run"])]
    engines += [library_engine(library, scripts_of(some, counts), counts)] if library else []
    return engines + ([process_engine("other", [*shlex.split(beside), "run"])] if beside else [])


class Asked(NamedTuple):
    """The command of another program, and the rows to print."""

    beside: Optional[str]
    rows: List[Row]


def asked(words: Sequence[str]) -> Optional[Asked]:
    """What words ask for: `--beside` and a command, and parts of the names of rows, all rows if there are none. None where
    a word names no row, which is said."""
    beside = words[1] if words[:1] == ["--beside"] and len(words) > 1 else None
    words = words[2:] if beside else words
    for word in words:
        if not any(word in row.name for row in rows()):
            names = "\n".join(row.name for row in rows())
            print("bench/run engines: no row is named by '%s'; the names are\n%s" % (word, names), file=sys.stderr)
            return None
    return Asked(beside, [row for row in rows() if not words or any(word in row.name for word in words)])


def measure(what: Asked, program: str, library: Optional[str]) -> bool:
    """Prints the table, and answers whether all engines wrote the same pages."""
    counts = costs.has_callgrind()
    try:
        some = [row.made(size) for row in what.rows for size in row.sizes]
        engines = engines_of(program, library, what.beside, some, counts)
        print("instructions of an edit and its frame" if counts else "microseconds of an edit and its frame")
        print(FORM % ("", "views", "program", "line", "library", "other", "ratio", "growth"), flush=True)
        good = all([print_row(row, engines, counts) for row in what.rows])
        if {row.name for row in kept_rows()} <= {row.name for row in what.rows}:
            some = [row.made(row.sizes[0]) for row in kept_rows()]
            print_kept(engines_of(program, library, what.beside, some, False), some)
    except costs.Failed as failed:
        print("bench/run engines: %s" % failed, file=sys.stderr)
        return False
    return good
