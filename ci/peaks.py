"""How much memory a call takes at most: the bytes that it has of `malloc` at once, over shapes that need much, are no
more than the formula of docs/PROOFS.md says (COSTS), and each number of the formula is needed: with one that is a fifth
lower some shape has more. A library that is loaded before that of C counts (peaks.c); the C compiler `cc` has to be on
PATH."""
import functools
import os
import re
import struct
import subprocess
import tempfile
from functools import partial
from typing import Callable, Dict, List, NamedTuple, Sequence

import memory
from running import PROGRAM, TOP, Checks, need
from vindaesk.layouts.compiler import MAP, POOL, START, END, NONE, UTF8, XML, chunk, string

SOURCE = os.path.join(TOP, "ci", "peaks.c")
MAX_VIEWS, MAX_RESOURCES, MAX_FILE, MAX_TABLE, MAX_SCRIPT = 4096, 4096, 1 << 20, 1 << 24, 1 << 24
LOWER = 0.8


class Amounts(NamedTuple):
    """What memory is taken for, and in COSTS how many bytes for each."""

    # windows of a stack, or the one of a run
    windows: float = 0
    # the most views that there are at once
    views: float = 0
    # pixels of the largest window, and of the largest one before it
    pixels: float = 0
    # bytes of texts that views have
    texts: float = 0
    resources: float = 0
    # bytes of texts that resources have
    resource_texts: float = 0
    # bytes of a saved state
    saved: float = 0
    # bytes of the longest file, its strings, and their bytes, counted for each
    file: float = 0
    strings: float = 0
    string_bytes: float = 0


COSTS = Amounts(
    windows=250000,
    views=3700,
    pixels=4.3,
    texts=4.5,
    resources=85,
    resource_texts=8.5,
    saved=8,
    file=3.3,
    strings=36,
    string_bytes=1.1,
)


class Shape(NamedTuple):
    """A call that needs much memory, with the file that it reads."""

    amounts: Amounts
    script: bytes
    words: Sequence[str] = ("run",)
    file: bytes = b""


def views(count: int, kind: str = "View", *edits: str) -> List[str]:
    """The lines of a window with this many views; edits have the number of each as %d, or in hexadecimal as %x."""
    made = ["window 16 16", "add root %s match match" % ("RelativeLayout" if kind == "View" else "FrameLayout")]
    for view in range(2, count + 1):
        made += ["add v1 %s 4 3" % kind, *(edit.replace("%d", str(view)).replace("%x", "%x" % view) for edit in edits)]
    return made


def many_views() -> Shape:
    rules = ["rule v%d below @%x" % (it, it - 1) for it in range(3, MAX_VIEWS + 1)]
    made = [*views(MAX_VIEWS, "View", "id v%d @%x"), *rules, "frame", "bounds"]
    return Shape(Amounts(1, MAX_VIEWS), memory.lines(*made))


def deep_trees() -> Shape:
    classes = ("LinearLayout", "FrameLayout", "ScrollView", "RelativeLayout")
    return Shape(Amounts(1, memory.DEPTH, 2 * 400 * 400, 10), memory.deep(classes))


def ids_that_come_and_go() -> Shape:
    made = views(2)
    for view in range(3, 20000):
        made += ["add v1 View 1 1", "id v%d @%x" % (view, view), "rule v%d below @1" % view, "remove v%d" % view]
    return Shape(Amounts(1, 3), memory.lines(*made, "frame"))


def texts_of_views(size: int) -> Shape:
    made = views(MAX_VIEWS, "TextView", "text v%d " + "a" * size)
    return Shape(Amounts(1, MAX_VIEWS, texts=MAX_VIEWS * size), memory.lines(*made, "frame"))


def texts_of_resources(size: int) -> Shape:
    made = ["res @%x text %s" % (it, "w" * size) for it in range(1, MAX_RESOURCES + 1)]
    amounts = Amounts(1, 2, resources=MAX_RESOURCES, resource_texts=MAX_RESOURCES * size)
    return Shape(amounts, memory.lines(*views(2), *made, "frame"))


def large_windows() -> Shape:
    made = ["bg v1 #80336699", "window 4096 4000", "frame", "digest", "window 4096 4096", "frame", "pixels 0 0 64 64"]
    return Shape(Amounts(1, 1, 4096 * (4096 + 4000)), memory.lines(*views(1), *made))


def stacks() -> Shape:
    made = [line for it in range(8) for line in ("at %d 0 0" % it, *("in %d %s" % (it, line) for line in views(9)))]
    return Shape(Amounts(8, 8 * 9), memory.lines(*made, *("in %d frame" % it for it in range(8))), ("stack",))


def hooks() -> Shape:
    hook = "hook v%d " + " ; ".join(["margins v%d 1 2 3 4"] * 8)
    made = [*views(33, "View", hook), "frame", *("size v%d 9 9" % it for it in range(2, 34)), "frame", "frame"]
    return Shape(Amounts(1, 33), memory.lines(*made))


def pointers() -> Shape:
    made = ["window 99 99", "add root FrameLayout match match"]
    made += ["add v%d FrameLayout match match" % it for it in range(1, 31)] + ["answer v31 yes", "frame"]
    made += ["down %d 5 5" % it for it in range(32)] + ["move %d 6 6" % it for it in range(32)]
    return Shape(Amounts(1, 32, 99 * 99), memory.lines(*made))


def saved_states(size: int) -> Shape:
    """Each view has six bytes in the state before its text, and the state eight."""
    made = views(MAX_VIEWS, "TextView", "id v%d @%x", "text v%d " + "t" * size)
    saved = MAX_VIEWS * (size + 7)
    amounts = Amounts(1, MAX_VIEWS, texts=MAX_VIEWS * size, saved=saved)
    return Shape(amounts, memory.lines(*made, "frame", "save", "restore", "frame"))


def long_comments() -> Shape:
    return Shape(Amounts(1), (b"#" * 1023 + b"\n") * (MAX_SCRIPT // 1024))


def loads() -> Shape:
    return Shape(Amounts(1, 7 + 32 * 64, 320 * 480), b"", ("gen", "64"))


def pool(texts: Sequence[bytes], shared: int = 0) -> bytes:
    """A pool of strings, to whose last one this many more numbers lead."""
    places = [sum(map(len, texts[:it])) for it in range(len(texts))]
    places += places[-1:] * shared
    body = b"".join(texts)
    head = struct.pack("<IIIII", len(places), 0, UTF8, 28 + 4 * len(places), 0)
    return chunk(POOL, head, struct.pack("<%dI" % len(places), *places) + body + bytes(-len(body) % 4))


# what the files here name: their attributes, their classes, and where attributes are from
ANDROID = "http://schemas.android.com/apk/res/android"
NAMES = ("layout_width", "layout_height", "text", ANDROID, "FrameLayout", "TextView")
IDS = (0x010100F4, 0x010100F5, 0x0101014F)
WRAP, REFERENCE_TO_STRING, INTEGER = 0xFFFFFFFE, 3, 0x10


def element(name: int, inside: bytes = b"", text: int = NONE) -> bytes:
    """An element that wraps what is in it, with a text by its number."""
    rows = [(3, 0, NONE, 8, 0, INTEGER, WRAP), (3, 1, NONE, 8, 0, INTEGER, WRAP)]
    rows += [(3, 2, text, 8, 0, REFERENCE_TO_STRING, text)] if text != NONE else []
    begin = struct.pack("<IIHHHHHH", NONE, name, 20, 20, len(rows), 0, 0, 0)
    begin += b"".join(struct.pack("<IIIHBBI", *row) for row in rows)
    place = struct.pack("<II", 1, NONE)
    return chunk(START, place, begin) + inside + chunk(END, place, struct.pack("<II", NONE, name))


def layout(texts: Sequence[str], shared: int, children: int) -> bytes:
    """A layout file with more texts, the last of which has more numbers, and which each child has."""
    strings = pool([string(it) for it in (*NAMES, *texts)], shared)
    child = element(5, text=len(NAMES) if texts else NONE)
    return chunk(XML, b"", strings + chunk(MAP, b"", struct.pack("<3I", *IDS)) + element(4, child * children))


def dumped(size: int, shared: int) -> Shape:
    """A file whose strings lie over one another."""
    file = layout(["b" * size], shared, 1)
    total = sum(map(len, NAMES)) + size * (1 + shared)
    return Shape(Amounts(file=len(file), strings=7 + shared, string_bytes=total), b"", ("dump", "a.xml"), file)


def inflated(texts: Sequence[str], children: int, times: int) -> Shape:
    """A file that is inflated a number of times."""
    file, size = layout(texts, 0, children), sum(map(len, texts))
    count = (1 + children) * times
    script = memory.lines(*views(1), *["inflate a.xml into v1"] * times, "frame")
    strings = sum(map(len, NAMES)) + size
    amounts = Amounts(1, 1 + count, texts=children * times * size, file=len(file), strings=7, string_bytes=strings)
    return Shape(amounts, script, file=file)


def looked_up() -> Shape:
    return Shape(Amounts(file=MAX_TABLE), b"", ("lookup", "a.xml", "7f010000"), bytes(MAX_TABLE))


SHAPES: Dict[str, Callable[[], Shape]] = {
    "many views": many_views,
    "deep trees": deep_trees,
    "ids that come and go": ids_that_come_and_go,
    **{"texts of %d bytes" % size: partial(texts_of_views, size) for size in (1, 60, 300, 520, 900)},
    **{"resources of %d bytes" % size: partial(texts_of_resources, size) for size in (1, 65, 257, 513, 900)},
    "large windows": large_windows,
    "stacks": stacks,
    "hooks": hooks,
    "pointers": pointers,
    **{"saved states of %d bytes" % size: partial(saved_states, size) for size in (1, 257, 513, 900)},
    "long comments": long_comments,
    "loads": loads,
    "a file of zeros": lambda: Shape(Amounts(file=MAX_FILE), b"", ("dump", "a.xml"), bytes(MAX_FILE)),
    "a file of many strings": partial(dumped, 10, 60000),
    "a file of long strings": partial(dumped, 32000, 125),
    "a file of many views": partial(inflated, [], 4000, 1),
    "many files": partial(inflated, ["t" * 32000], 39, 100),
    "a table": looked_up,
}


@functools.lru_cache(maxsize=None)
def peak(name: str) -> int:
    """The most bytes that the program has at once for a shape."""
    shape = SHAPES[name]()
    with tempfile.TemporaryDirectory() as place:
        counts = os.path.join(place, "peaks.so")
        subprocess.run([need("cc"), "-O2", "-shared", "-fPIC", "-o", counts, SOURCE], check=True)
        with open(os.path.join(place, "a.xml"), "wb") as file:
            file.write(shape.file)
        ended = subprocess.run([PROGRAM, *shape.words], input=shape.script, cwd=place, env={"LD_PRELOAD": counts},
                               stdout=subprocess.DEVNULL, stderr=subprocess.PIPE, check=False)
    if ended.returncode not in (0, 1):
        raise AssertionError("the status is %d" % ended.returncode)
    return int(ended.stderr)


def limit(amounts: Amounts, costs: Amounts = COSTS) -> float:
    return sum(cost * amount for cost, amount in zip(costs, amounts))


def within(name: str) -> str:
    """Whether a shape has more memory than the formula says."""
    most, found = limit(SHAPES[name]().amounts), peak(name)
    return "" if found <= most else "%d bytes at once, and the formula says %d" % (found, most)


def needed(cost: str) -> str:
    """Whether no shape would have more memory where a number of the formula is a fifth lower."""
    costs = COSTS._replace(**{cost: LOWER * float(getattr(COSTS, cost))})
    shapes = [name for name, made in SHAPES.items() if peak(name) > limit(made().amounts, costs)]
    return "" if shapes else "with %s a fifth lower each shape is within the formula" % cost


def page_has_the_formula() -> str:
    """Whether a paragraph of docs/PROOFS.md has the numbers of the formula, in their order."""
    with open(os.path.join(TOP, "docs", "PROOFS.md"), encoding="utf-8") as page:
        found = [it for it in page.read().split("\n- ") if "ci/peaks.py" in it]
    numbers = [format(it, ",g").replace(",", " ") for it in COSTS]
    form = re.compile(".*?".join(r"\b%s\b" % re.escape(it) for it in numbers), re.DOTALL)
    has_all = len(found) == 1 and form.search(found[0]) is not None
    return "" if has_all else "docs/PROOFS.md lacks the numbers %s" % ", ".join(numbers)


def checks() -> Checks:
    yield "memory/the page has the formula", page_has_the_formula
    for name in SHAPES:
        yield "memory/peak of %s" % name, partial(within, name)
    for cost in Amounts._fields:
        yield "memory/the formula needs its number of %s" % cost, partial(needed, cost)
