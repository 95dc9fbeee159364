"""Compares the bounds of the views of apps' layouts, as `tools/app` writes them, with those that Android 6.0.1's own
classes give to the same files: each view of each layout at two screens, left to right.

    python3 ci/android_bounds.py BASE APP.apk .. [--framework APK] [--fault]

BASE is the folder frameworks/base of Android's source; ci/apps_android fetches it and asks this. Where bounds differ,
Android's classes are asked again with a known difference switched: they do there as the program does. It prints each
view whose bounds differ then too, and how many were compared. The status is 1 if there is one, or nothing to compare.
With --fault each tree has a margin for Android's classes alone, to see that differences are found."""
import argparse
import os
import subprocess
import sys
import tempfile
from collections import Counter
from dataclasses import dataclass, field
from typing import Iterator, List, Optional, Tuple

sys.path.append(os.path.join(os.path.dirname(os.path.abspath(__file__)), os.pardir, "tools"))

import android_classes  # noqa: E402
from vindaesk.apps import app  # noqa: E402
from vindaesk.apps.app import Request, Screen  # noqa: E402
from vindaesk.common.failures import Failure  # noqa: E402
from vindaesk.layouts import documents  # noqa: E402
from vindaesk.program import process  # noqa: E402
from vindaesk.resources.devices import device  # noqa: E402

# the qualifiers of each screen, which are laid out in its pixels: 320 by 480, and 1080 by 1920
SCREENS = ("w320dp-h480dp-mdpi", "w360dp-h640dp-xxhdpi")
# the known differences, which docs/ANDROID.md has, as they are switched one after the other
KNOWN = {
    "": "",
    "lengths": "a length below 0 is brought to the nearest pixel; Android 6.0.1 makes it one more",
    "lengths,weights": "a weight is a whole number of 256ths",
}
Bounds = Optional[Tuple[int, int, int, int]]


@dataclass
class Sums:
    """How many layouts and views were compared, of how many the bounds are the same without a switch, and with which
    known difference they are."""

    layouts: int = 0
    views: int = 0
    same_layouts: int = 0
    same_views: int = 0
    known_layouts: "Counter[str]" = field(default_factory=Counter)
    known_views: "Counter[str]" = field(default_factory=Counter)

    def add(self, other: "Sums") -> None:
        """Adds other sums."""
        self.layouts += other.layouts
        self.views += other.views
        self.same_layouts += other.same_layouts
        self.same_views += other.same_views
        self.known_layouts.update(other.known_layouts)
        self.known_views.update(other.known_views)

    @property
    def is_explained(self) -> bool:
        """Whether there are views, and each has the same bounds, or other ones for a known reason."""
        layouts = self.same_layouts + sum(self.known_layouts.values())
        return bool(self.views) and layouts == self.layouts


class Judge:
    """The program of Android's classes, which is asked about one tree after the other."""

    def __init__(self, classes: str):
        self.started = subprocess.Popen(["java", "-Xss64m", "-cp", classes, "Judge"], stdin=subprocess.PIPE,
                                        stdout=subprocess.PIPE, text=True, encoding="utf-8")

    def bounds(self, lines: List[str]) -> List[Bounds]:
        """The bounds of the views of a tree."""
        assert self.started.stdin and self.started.stdout
        self.started.stdin.write("\n".join(lines) + "\n")
        self.started.stdin.flush()
        found: List[Bounds] = []
        for line in iter(self.started.stdout.readline, "end\n"):
            if not line or line.startswith("refused"):
                raise AssertionError("Android's classes say %s" % line.strip())
            found.append(bounds_in(line.split()))
        return found

    def end(self) -> None:
        """Ends the program."""
        assert self.started.stdin
        self.started.stdin.close()
        self.started.wait(60)


def bounds_in(words: List[str]) -> Bounds:
    """The bounds in the words of a line."""
    if words[0] == "none":
        return None
    left, top, right, bottom = map(int, words[:4])
    return left, top, right, bottom


def tree_lines(screen: Screen, known: str, is_faulty: bool) -> List[str]:
    """The lines that say a layout to Android's classes, and in which known differences these do as the program."""
    lines = ["tree %d %d %d %s" % (*screen.window, screen.density, known)]
    depth = 0
    for node in documents.of_file(screen.compiled, screen.name):
        if isinstance(node, documents.Start):
            lines.append(" ".join([str(depth), node.name, *map(attribute, node.attributes)]))
            depth += 1
        elif isinstance(node, documents.End):
            depth -= 1
    if is_faulty and len(lines) > 2:
        lines[2] += " layout_marginLeft=5:256 layout_marginTop=5:256"
    return [*lines, "end"]


def attribute(it: documents.Attribute) -> str:
    """An attribute as Android's classes read it."""
    word = str(it.value.word) if it.value.text is None else it.value.text.encode().hex()
    return "%s=%d:%s" % (it.name, it.value.kind, word)


def own_bounds(screen: Screen, folder: str) -> List[Bounds]:
    """The bounds that the program gives."""
    with open(os.path.join(folder, screen.name + ".xml"), "wb") as file:
        file.write(screen.compiled)
    written, status = process.ran(["run"], screen.script + b"bounds\n", folder)
    if status:
        raise AssertionError("%s: the program ends with status %d" % (screen.name, status))
    return [bounds_in(it.split()[1:]) for it in written.decode().split("\n") if it.startswith("v")]


def unlike(found: List[Bounds], wanted: List[Bounds]) -> List[int]:
    """The numbers of the views whose bounds differ."""
    if len(found) != len(wanted):
        raise AssertionError("%d views here, %d in Android" % (len(found), len(wanted)))
    return [number for number, pair in enumerate(zip(found, wanted), 1) if pair[0] != pair[1]]


def compared(screen: Screen, judge: Judge, folder: str, is_faulty: bool) -> Sums:
    """Compares a layout; prints each view that differs for no known reason."""
    sums = Sums(1)
    place = "%s at %dx%d" % (screen.file, *screen.window)
    try:
        found = own_bounds(screen, folder)
        sums.views = len(found)
        plain = judge.bounds(tree_lines(screen, "", is_faulty))
        first = unlike(found, plain)
        sums.same_views = len(found) - len(first)
        sums.same_layouts = not first
        known = next((it for it in KNOWN if not unlike(found, judge.bounds(tree_lines(screen, it, is_faulty)))), None)
    except AssertionError as error:
        print("%s: not compared: %s" % (place, error))
        return sums
    if known:
        sums.known_layouts[known] += 1
        sums.known_views[known] += len(first)
    for number in first if known is None else ():
        print("%s: v%d: %s here, %s in Android" % (place, number, found[number - 1], plain[number - 1]))
    return sums


def screens_of(path: str, framework: Optional[str]) -> Iterator[Screen]:
    """The layouts of an app at each screen; an app that cannot be read has none, and is named."""
    try:
        with app.opened([path], framework) as opened:
            for config in SCREENS:
                request = Request(device(config), in_pixels=True)
                for name in opened.layouts(request.device):
                    screen = opened.screen(name, request)
                    if screen.why:
                        print("%s: %s: not made: %s" % (os.path.basename(path), name, screen.why))
                    else:
                        yield screen
    except Failure as failure:
        print("%s: passed over: %s" % (os.path.basename(path), failure))


def main() -> int:
    reader = argparse.ArgumentParser(description=__doc__, formatter_class=argparse.RawDescriptionHelpFormatter)
    reader.add_argument("base", metavar="BASE")
    reader.add_argument("apps", metavar="APP.apk", nargs="+")
    reader.add_argument("--framework", metavar="APK")
    reader.add_argument("--fault", action="store_true")
    given = reader.parse_args()
    total = Sums()
    with tempfile.TemporaryDirectory() as folder:
        judge = Judge(android_classes.built(given.base, folder))
        for path in given.apps:
            sums = Sums()
            for screen in screens_of(path, given.framework):
                sums.add(compared(screen, judge, folder, given.fault))
            if sums.layouts:
                say(os.path.basename(path), sums)
            total.add(sums)
        judge.end()
    say("all", total)
    for it, count in total.known_layouts.items():
        print("known: %s: %d views of %d layouts" % (KNOWN[it], total.known_views[it], count))
    return 0 if total.is_explained else 1


def say(name: str, sums: Sums) -> None:
    """Prints what was compared."""
    same = sums.same_layouts, sums.layouts, sums.same_views, sums.views
    print("%s: %d of %d layouts, %d of %d views have the same bounds" % (name, *same), flush=True)


if __name__ == "__main__":
    sys.exit(main())
