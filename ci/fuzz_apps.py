"""Tries `tools/app` over apps that are broken at random: each ends with a layout or with one sentence, in seconds.

    python3 ci/fuzz_apps.py N [SEED]

Half of the N runs change bytes of the files of examples/trips/trips.apk; the other half make sources of random
elements with random attributes and values. The layouts that come out are compiled, and one in 250 is carried out by
the program, which has to take it. The measuring of ConstraintLayouts is replaced by random bounds, but in those
runs."""
import contextlib
import os
import random
import sys
import tempfile
import time
import unittest.mock
import zipfile
from typing import Dict, Iterator, List, Tuple

sys.dont_write_bytecode = True

from running import PROGRAM, TOP, Checks, run
from vindaesk.apps import app, placing, widget_table
from vindaesk.apps.app import Request, Screen
from vindaesk.apps.constraints import CHAINS
from vindaesk.apps.draft import Node
from vindaesk.apps.expansion import Options
from vindaesk.apps.measurer import Bounds, Measurer
from vindaesk.apps.platform_names import NUMBER_OF
from vindaesk.apps.rules import RULES
from vindaesk.common.failures import Failure
from vindaesk.resources.devices import device

TRIPS = os.path.join(TOP, "examples", "trips", "trips.apk")
SECONDS = 10
SHOWN = 250
SIDES = ("Left", "Right", "Start", "End", "Top", "Bottom")
CLASSES = sorted(widget_table.Table(sorted(RULES), []).rows)
OTHERS = ["include", "merge", "view", "requestFocus", "tag", "a.b.Wheel", "a.b.MyListView", "layout", "data", "x" * 300]
NAMES = sorted(NUMBER_OF)
COMMON = [it for it in NAMES if it.startswith(("layout_", "padding", "min", "max", "text", "drawable")) or it in (
    "id", "gravity", "orientation", "visibility", "background", "src", "divider", "showDividers", "weightSum", "theme",
    "lines", "ems", "singleLine", "hint", "button", "checkMark", "thumb", "adjustViewBounds", "fillViewport", "columnCount")]
LIBRARY = ["layout_constraint%s_to%sOf" % (a, b) for a in SIDES for b in SIDES] + [
    "layout_constraint%s_%s" % (a, b) for a in ("Horizontal", "Vertical", "Width", "Height")
    for b in ("bias", "weight", "chainStyle", "percent", "min", "max", "default")] + [
    "layout_constraintDimensionRatio", "layout_constraintGuide_percent", "layout_constraintGuide_begin", "barrierDirection",
    "constraint_referenced_ids", "contentPadding", "cardBackgroundColor", "srcCompat", "title", "navigationIcon", "fabSize"]
VALUES = [
    "match_parent", "wrap_content", "0dp", "1dp", "-1dp", "0.5dp", "16777215dp", "99999999px", "-2", "-1", "0", "1", "7.5sp",
    "true", "false", "parent", "center", "left|bottom", "vertical", "gone", "invisible", "@null", "@empty", "@string/app",
    "@dimen/gap", "@drawable/card", "@drawable/loop", "@drawable/button", "@color/toggle", "@style/Row", "@style/Loop",
    "@layout/row", "@layout/main", "@layout/none", "@id/a", "@+id/a", "@+id/b", "@+id/c", "?attr/rowHeight", "?attr/loop",
    "?android:attr/textColorPrimary", "@android:id/text1", "@android:dimen/app_icon_size", "#fff", "#12345678", "text",
    "1e9", "50%", "16:9", "H,1:0", "a,b,c", "\\u0041\\n", "x" * 2000, "", " ", "@{a.b}", "@{a, default=b}", "é\U0001f682",
    *CHAINS,
]
VALUES_FILE = """<resources><string name="app">Trips</string><dimen name="gap">16dp</dimen><attr name="rowHeight"/><attr name="loop"/>
<style name="Row"><item name="android:layout_width">match_parent</item><item name="android:background">?attr/loop</item></style>
<style name="Loop" parent="Pool"/><style name="Pool" parent="Loop"/>
<style name="T" parent="android:Theme.Material.Light"><item name="loop">?attr/loop</item><item name="rowHeight">9dp</item></style>
<color name="brand">#00695c</color></resources>"""
FILES = {
    "res/values/values.xml": VALUES_FILE,
    "res/drawable/loop.xml": '<layer-list xmlns:android="http://schemas.android.com/apk/res/android"><item android:drawable="@drawable/loop"/></layer-list>',
    "res/drawable/card.xml": '<inset xmlns:android="http://schemas.android.com/apk/res/android" android:inset="4dp"><shape><padding android:left="3dp"/></shape></inset>',
    "res/drawable/button.xml": '<selector xmlns:android="http://schemas.android.com/apk/res/android"><item android:drawable="@drawable/card"/></selector>',
    "res/color/toggle.xml": '<selector xmlns:android="http://schemas.android.com/apk/res/android"><item android:color="#123"/></selector>',
    "res/layout/row.xml": '<merge xmlns:android="http://schemas.android.com/apk/res/android"><View android:layout_width="1dp" android:layout_height="1dp"/></merge>',
}
SPACES = ('xmlns:android="http://schemas.android.com/apk/res/android" xmlns:app="http://schemas.android.com/apk/res-auto" '
          'xmlns:tools="http://schemas.android.com/tools"')
ESCAPES = {"&": "&amp;", "<": "&lt;", '"': "&quot;"}


class AnyMeasurer(Measurer):
    """Bounds at random in the place of those of the program."""

    def __init__(self, dice: random.Random):
        super().__init__((360, 640), 160)
        self.dice = dice

    def bounds(self, root: Node) -> List[Bounds]:
        count = len(placing.nodes_in(root))
        return [self.box() if self.dice.random() < 0.9 else None for _ in range(count)]

    def box(self) -> Tuple[int, int, int, int]:
        left, top = self.dice.randrange(-5, 300), self.dice.randrange(-5, 300)
        return left, top, left + self.dice.randrange(0, 400), top + self.dice.randrange(0, 400)


def changed(dice: random.Random, folder: str) -> str:
    """The app with some bytes of some files changed."""
    path = os.path.join(folder, "a.apk")
    with zipfile.ZipFile(TRIPS) as old, zipfile.ZipFile(path, "w") as new:
        names = old.namelist()
        hit = set(dice.sample(names, dice.randrange(1, 4)))
        for name in names:
            body = bytearray(old.read(name))
            for _ in range(dice.choice((1, 1, 2, 8, 30)) if name in hit and body else 0):
                at = dice.randrange(len(body))
                body[at] = dice.choice((0, 1, 0xFF, 0x7F, dice.randrange(256), body[at] ^ 1 << dice.randrange(8)))
            if name in hit and dice.random() < 0.1:
                del body[dice.randrange(len(body) + 1) :]
            new.writestr(name, bytes(body))
    return path


def attribute(dice: random.Random) -> Tuple[str, str]:
    """An attribute at random."""
    kind = dice.random()
    name = "android:" + dice.choice(COMMON if kind < 0.7 else NAMES) if kind < 0.8 else "app:" + dice.choice(LIBRARY)
    if kind > 0.97:
        name = dice.choice(("style", "class", "layout", "tools:listitem", "tools:text", "tools:layout"))
    value = "".join(ESCAPES.get(it, it) for it in dice.choice(VALUES))
    return name, value


def element(dice: random.Random, depth: int) -> str:
    """An element at random, with what is in it."""
    name = dice.choice(CLASSES if dice.random() < 0.9 else OTHERS).replace("$", "_")
    pairs = dict(attribute(dice) for _ in range(dice.randrange(0, 9)))
    if dice.random() < 0.9:
        pairs.setdefault("android:layout_width", dice.choice(("match_parent", "wrap_content", "0dp", "40dp")))
        pairs.setdefault("android:layout_height", dice.choice(("match_parent", "wrap_content", "0dp", "40dp")))
    count = dice.randrange(0, 5) if depth < dice.choice((2, 4, 40)) and depth < 45 else 0
    inner = "".join(element(dice, depth + 1) for _ in range(count if depth < 5 else min(count, 1)))
    spaces = SPACES if depth == 0 else ""
    return "<%s %s %s>%s</%s>" % (name, spaces, " ".join('%s="%s"' % it for it in pairs.items()), inner, name)


def made(dice: random.Random, folder: str) -> str:
    """A source at random."""
    for path, text in {**FILES, "res/layout/main.xml": element(dice, 0)}.items():
        place = os.path.join(folder, path)
        os.makedirs(os.path.dirname(place), exist_ok=True)
        with open(place, "w", encoding="utf-8") as file:
            file.write(text)
    return folder


def tried(dice: random.Random, folder: str, is_source: bool) -> List[Screen]:
    """The screens of an app."""
    path = (made if is_source else changed)(dice, folder)
    options = Options(dice.random() < 0.5, dice.random() < 0.5, 2)
    request = Request(device(dice.choice(("", "mdpi", "de-land-night", "v30"))), "T" if is_source else "", options=options)
    with app.opened([path]) as opened:
        names = opened.layouts(request.device)
        return [opened.screen(it, request) for it in (["main"] if is_source else dice.sample(names, min(3, len(names))))]


def refused(screen: Screen, folder: str) -> str:
    """Whether the program refuses a layout, and how."""
    with open(os.path.join(folder, screen.name + ".xml"), "wb") as file:
        file.write(screen.compiled)
    program = os.environ.get("VINDAESK_PROGRAM", PROGRAM)
    lines = screen.script.split(b"\n")
    small = [b"window 40 60" if line.startswith(b"window") else line for line in lines]
    written, status = run([program, "run"], b"\n".join(small), folder)
    return "" if status == 0 and b"settled" in written else "status %d: %r" % (status, written[-300:])


@contextlib.contextmanager
def measured_by(dice: random.Random) -> Iterator[None]:
    """Has bounds at random take the place of those of the program."""
    before = placing.place

    def solve(root: Node, _: Measurer) -> bool:
        return before(root, AnyMeasurer(dice))

    with unittest.mock.patch.object(placing, "place", solve):
        yield


def fuzzed(count: int, seed: int, every: int = SHOWN) -> Tuple[str, Dict[str, float]]:
    """Runs a number of cases; returns the sentence of the first that goes wrong, or nothing, and what there was."""
    sums: Dict[str, float] = {"screens": 0, "sentences": 0, "framed": 0, "slowest": 0.0}
    for number in range(count):
        dice = random.Random("%d %d" % (seed, number))
        started = time.process_time()
        try:
            with measured_by(dice), tempfile.TemporaryDirectory() as folder:
                for screen in tried(dice, folder, number % 2 == 0):
                    sums["sentences" if screen.why else "screens"] += 1
                    if number % every == 0 and not screen.why:
                        why = refused(screen, folder)
                        if why and "refused 18 Cycle" not in why:
                            return "run %d of seed %d: %s" % (number, seed, why), sums
                        sums["framed"] += 1
        except Failure:
            sums["sentences"] += 1
        except Exception as error:
            return "run %d of seed %d: %s: %s" % (number, seed, type(error).__name__, error), sums
        sums["slowest"] = max(sums["slowest"], time.process_time() - started)
        if sums["slowest"] > SECONDS:
            return "run %d of seed %d took %.1f s" % (number, seed, sums["slowest"]), sums
    return "", sums


def checks() -> Checks:
    yield "app: broken and random apps", lambda: fuzzed(120, 1, 40)[0]


if __name__ == "__main__":
    why, sums = fuzzed(int(sys.argv[1]), int(sys.argv[2]) if len(sys.argv) > 2 else 1)
    print(why or "all end with a layout or a sentence", sums)
    sys.exit(bool(why))
