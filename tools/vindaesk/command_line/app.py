"""The layouts of an app as the program takes them, each for a device, with a report of what is exact and what is not.

APP is an APK, or a folder: of split APKs, or into which an APK was unpacked. Further words are split APKs, if they end
with .apk, and names of layouts; without names all layouts are made. Includes, styles, themes, resources and drawables
are put in place, and each class becomes one of the six that the program has; docs/APPS.md says how, and what is exact.

Without --out, --picture and so on it prints how many views are exact, and with --report what is not. --out writes for
each layout NAME.xml, compiled, and NAME.script, and for all of them ids.txt and app.json.

The status is 1 where a layout cannot be made, or with --strict where a view is not exact, or where --lint finds
something; the others are made all the same. It is 2 where the app cannot be read; then nothing is written."""
import argparse
import json
from typing import List, Optional, Sequence, Tuple

from ..apps import app, report, results, states
from ..apps.app import OpenApp, Request, Screen
from ..apps.expansion import Options
from ..common import failures, files, messages, progress
from ..common.failures import Failure
from ..resources.devices import device
from . import app_views, arguments
from .uses import Purpose, Use

USE = Use(Purpose.READ, "vindaesk app trips/trips.apk home --tree",
          "the layouts of an app as the program takes them, with a report of what is exact")
MOST_ITEMS = 100
MOST_LAYOUTS = 4096


def reader() -> argparse.ArgumentParser:
    """The arguments."""
    found = arguments.parser(__doc__)
    found.add_argument("app", metavar="APP", help="an APK, or a folder")
    found.add_argument("names", metavar="LAYOUT", nargs="*", default=[],
                       help="names of layouts; or further APKs of a split app")
    found.add_argument("--config", metavar="QUALIFIERS", default="",
                       help="the device, as de-rDE-land-night-xhdpi-v30 over a phone of 360 by 640 dp, 480 dpi, en-US, "
                       "API level 23")
    found.add_argument("--framework", metavar="APK",
                       help="Android's own resources, as framework-res.apk or android.jar")
    found.add_argument("--theme", metavar="NAME", default="", help="the theme; without it that of the manifest")
    found.add_argument("--state", metavar="STATE,..", default="",
                       help="drawables and colours are in these states, as pressed,checked")
    found.add_argument("--map", metavar="FILE", action="append", default=[],
                       help="further rows of the table of classes")
    found.add_argument("--design", action="store_true", help="takes attributes of the namespace tools too")
    found.add_argument("--items", metavar="N", type=arguments.count(0, MOST_ITEMS), default=3,
                       help="items of a list with --design, 0 to %d; 3" % MOST_ITEMS)
    found.add_argument("--inflate-stubs", action="store_true", help="puts the layouts of ViewStubs in place")
    found.add_argument("--no-window", action="store_true",
                       help="leaves out the content of the window around the layout")
    found.add_argument("--pixels", action="store_true",
                       help="lays out in the pixels of the device; without it in dp")
    found.add_argument("--list", action="store_true", help="prints the names of the layouts alone")
    found.add_argument("--report", action="store_true", help="prints what is not exact, a line each")
    found.add_argument("--json", action="store_true", help="prints the report as JSON")
    found.add_argument("--strict", action="store_true", help="status 1 where a view is not exact")
    found.add_argument("--out", metavar="DIR", help="writes scripts, compiled layouts, ids and the report there")
    found.add_argument("--picture", metavar="OUT.png", help="writes the picture of one layout")
    found.add_argument("--scale", metavar="N", type=arguments.count(1, 8), default=1,
                       help="a pixel of the picture is N by N, 1 to 8")
    found.add_argument("--page", metavar="OUT.html", help="writes a page of one layout")
    found.add_argument("--tree", action="store_true",
                       help="prints the views of layouts; ~ follows one that is not exact")
    found.add_argument("--lint", action="store_true", help="prints what is wrong with layouts")
    return found


def parts_of(given: argparse.Namespace) -> Tuple[List[str], List[str]]:
    """The files of the app, and the names of layouts."""
    parts = [it for it in given.names if it.lower().endswith(".apk")]
    return [given.app, *parts], [it for it in given.names if it not in parts]


def request_of(given: argparse.Namespace) -> Request:
    """How the layouts are made."""
    options = Options(given.design, given.inflate_stubs, given.items)
    try:
        wanted = device(given.config)
    except Failure as failure:
        raise Failure(str(failure), failures.NOT_RUN)
    return Request(
        wanted, given.theme, states.named(given.state), options, tuple(given.map), not given.no_window,
        given.pixels
    )


def made(opened: OpenApp, names: List[str], request: Request) -> List[Screen]:
    """The layouts, with a line of progress on a terminal."""
    known = opened.layouts(request.device)
    if not known:
        raise Failure("%s has no layout" % messages.printable(opened.paths[0]), failures.NOT_RUN)
    wanted = names or known
    if len(wanted) > MOST_LAYOUTS:
        why = "the app has %d layouts; %d is the most: name some of them" % (len(wanted), MOST_LAYOUTS)
        raise Failure(why, failures.NOT_RUN)
    for name in wanted:
        if name not in known:
            raise Failure(results.unknown(name, known), failures.NOT_RUN)
    found: List[Screen] = []
    line = progress.Line()
    for name in wanted:
        line.show(progress.bar(len(found), len(wanted)))
        found.append(opened.screen(name, request, [it.name for it in found]))
    line.clear()
    return found


def shown(screens: List[Screen], given: argparse.Namespace) -> bool:
    """Prints what was asked for; returns whether a lint was asked for, and found something."""
    if given.json:
        print(json.dumps(results.json_of(screens), indent=1, ensure_ascii=False))
        return False
    has_findings = False
    for it in screens:
        if given.report and not it.why:
            for line in report.lines_of(it.records):
                print(messages.printable(line))
        for line in app_views.tree_lines(it) if given.tree and not it.why else ():
            print(messages.printable(line))
        for line in app_views.lint_lines(it) if given.lint and not it.why else ():
            print(messages.printable(line))
            has_findings = True
    if not (given.tree or given.lint):
        for line in results.summary(screens):
            print(messages.printable(line))
    return has_findings


def written(screens: List[Screen], given: argparse.Namespace) -> None:
    """Writes what was asked for."""
    if given.out:
        results.write(given.out, screens)
    good = [it for it in screens if not it.why]
    if given.picture and good:
        files.write(given.picture, app_views.picture(good[0], given.scale))
    if given.page and good:
        files.write(given.page, app_views.whole_page(good[0]))


def status_of(screens: List[Screen], is_strict: bool) -> int:
    """The status."""
    if any(it.why for it in screens):
        return failures.WRONG
    return failures.WRONG if is_strict and any(it.sums.views != it.sums.exact for it in screens) else 0


def main(words: Optional[Sequence[str]] = None) -> int:
    parser = reader()
    given = arguments.parsed(parser, words)
    parts, names = parts_of(given)
    if (given.picture or given.page) and len(names) != 1:
        parser.error("a picture or a page is that of one layout: name it")
    arguments.write_any_text()
    request = request_of(given)
    with app.opened(parts, given.framework) as opened:
        if given.list:
            print("".join(it + "\n" for it in opened.layouts(request.device)), end="")
            return 0
        screens = made(opened, names, request)
    for it in screens:
        if it.why:
            messages.say(it.why)
    written(screens, given)
    has_findings = shown(screens, given)
    return failures.WRONG if has_findings else status_of(screens, given.strict)
