"""Tries what tools say of the elements that made views. `aapt2` has made the APK of examples/trips/ of the sources
beside it, so that what is said of the APK has to be what Python's reader of XML reads in these."""
import glob
import json
import os
import re
import xml.etree.ElementTree as ElementTree
from typing import Any, Dict, Iterator, List, Tuple
from xml.parsers import expat

from running import Checks, named
from tools import EXAMPLES, place
from vindaesk.apps import app, sources
from vindaesk.apps.app import Request
from vindaesk.resources.devices import device
from vindaesk.views import facts
from vindaesk.views.facts import Attribute, Source

TRIPS = os.path.join(EXAMPLES, "trips")
ANDROID = "http://schemas.android.com/apk/res/android"
SPACES = {ANDROID: "android:", "http://schemas.android.com/apk/res-auto": "app:"}
VALUE = re.compile(r"@(dimen|color|string)/(\w+)")
SCRIPT = """window 100 100
add root LinearLayout match match
orient v1 vertical
add v1 TextView 0 wrap
weight v2 1 128
margins v2 1 2 3 4
ink v2 #ff00FF00
hook v1 margins v2 9 9 9 9 ; gravity v2 self right
add v1 RelativeLayout wrap 20
gravity v1 kids bottom
flag v3 clip no
add v3 View 5 6
  rule v4 parent_right yes
rule v4 below @A0
min v4 7 8
frame
hook v2 padding v3 1 1 1 1
hook v4 min v4 3 4
size v4 8 8
frame
"""


def read(path: str) -> Dict[Tuple[int, int], Dict[str, str]]:
    """The attributes of each element of a source, by its line and its column."""
    found: Dict[Tuple[int, int], Dict[str, str]] = {}
    parser = expat.ParserCreate(namespace_separator="\n")

    def start(name: str, pairs: Dict[str, str]) -> None:
        keys = {key.rpartition("\n")[::2]: text for key, text in pairs.items()}
        found[parser.CurrentLineNumber, parser.CurrentColumnNumber + 1] = {
            SPACES.get(space, "") + plain: text for (space, plain), text in keys.items() if not space.endswith("/tools")}

    parser.StartElementHandler = start
    with open(path, "rb") as file:
        parser.ParseFile(file)
    return found


def alike(text: str) -> object:
    """A text in which what `aapt2` does not keep is left out: the order of flags, how a number is written, what makes
    an id new, and the type of an attribute of the theme."""
    plain = re.sub(r"^\?(android:)?attr/", r"?\1", text.replace("@+", "@").replace("\\'", "'"))
    try:
        return float(plain)
    except ValueError:
        return frozenset(plain.split("|"))


def all_sources(path: str) -> Iterator[Tuple[str, Source]]:
    """Each element that made a view of an app, with the name of its layout."""
    with app.opened([path]) as opened:
        request = Request(device("mdpi"))
        for name in opened.layouts(request.device):
            screen = opened.screen(name, request)
            assert not screen.why, screen.why
            yield from ((name, it) for it in sources.of_screen(screen).values() if not it.is_added)


def own(it: Source) -> Dict[str, Attribute]:
    """The attributes of the element itself."""
    return {key: at for key, at in it.attributes.items() if at.origin == "element" and not key.startswith("tools:")}


def of_the_apk() -> str:
    """Lines and attributes of the compiled files are those of the sources, and so are columns where the sources are
    read."""
    for path in (os.path.join(TRIPS, "trips.apk"), TRIPS):
        count = 0
        for name, it in all_sources(path):
            where = it.places[0]
            rows = read(os.path.join(TRIPS, where.file))
            if not own(it):
                continue
            wanted = [row for (line, column), row in rows.items() if line == where.line and where.column in (0, column)]
            found = {key: alike(at.written) for key, at in own(it).items()}
            # what an include gives is in the place of the element's own
            given = {key for key, at in it.attributes.items() if at.origin == "include"}
            left = {key: alike(text) for key, text in (wanted[0] if wanted else {}).items() if key not in given}
            if found != left:
                return "%s of %s: %s, in the source %s" % (where, name, found, left)
            count += len(found)
        if count < 300:
            return "there are only %d attributes in %s" % (count, path)
    return ""


def plain_text(text: str) -> str:
    """A text of values.xml without its escapes."""
    return re.sub(r"\\u([0-9a-f]{4})", lambda it: chr(int(it[1], 16)), text.replace("\\'", "'"))


def of_values() -> str:
    """A reference leads to the value that values.xml has."""
    (path,) = glob.glob(os.path.join(TRIPS, "res", "values", "values.xml"))
    values = {(it.tag, it.get("name")): plain_text(it.text or "") for it in ElementTree.parse(path).getroot()}
    count = 0
    for name, it in all_sources(TRIPS):
        for key, at in own(it).items():
            named_one = VALUE.fullmatch(at.written)
            wanted = values.get((named_one[1], named_one[2])) if named_one else None
            if wanted is None or wanted.startswith(("@", "?")):
                continue
            count += 1
            if at.resolved != wanted or at.resources != (at.written,):
                return "%s %s: %s, and not %s" % (name, key, at, wanted)
    return "" if count > 20 else "there are only %d references" % count


def of_includes() -> str:
    """What is included has the places of the elements that include it."""
    chains = {tuple(map(str, it.places)) for name, it in all_sources(TRIPS) if name == "settings" and len(it.places) > 1}
    lines = {line for (line, _), row in read(os.path.join(TRIPS, "res", "layout", "settings.xml")).items() if "layout" in row}
    (line,) = lines
    wanted = {("res/layout/bar.xml:3:5", "res/layout/settings.xml:%d:5" % line)}
    found = {it for it in chains if it[0].startswith("res/layout/bar.xml")}
    return "" if found and {it[1].rpartition(":")[0] for it in found} == {it[1].rpartition(":")[0] for it in wanted} else "%s" % chains


def of_lines() -> str:
    """What lines set, and what hooks may have."""
    with place() as it:
        it.put("a.script", SCRIPT)
        status, out, said = it.call("tree", "--json", "a.script")
    if (status, said) != (0, ""):
        return "status %d, '%s'" % (status, said)
    views: List[Dict[str, Any]] = json.loads(out.decode())["views"]
    wanted: List[Tuple[Dict[str, Any], Dict[str, str], int]] = [
        ({"width": "match", "height": "match", "orientation": "vertical", "content_gravity": "bottom"}, {}, 2),
        ({"width": "0 px", "height": "wrap", "weight": "1.5", "margins": "9 9 9 9 px", "gravity": "right", "ink": "#ff00ff00"},
         {}, 4),
        ({"width": "wrap", "height": "20 px", "clip": "no", "padding": None}, {}, 9),
        ({"width": "8 px", "height": "8 px", "min_width": None, "min_height": None},
         {"parent_right": "yes", "below": "@a0"}, 12),
    ]
    for view, (given, rules, line) in zip(views, wanted):
        place_of = {"file": "a.script", "line": line, "column": 1}
        found = view["given"], view["rules"], view["source"]["places"]
        if found != (given, rules, [place_of]):
            return "v%d: %s, and not %s" % (view["number"], found, (given, rules, place_of))
    return ""


def of_files() -> str:
    """A view of a layout file has the file, and after it the line that inflates it; a resource the value of its
    line."""
    with place() as it:
        it.copy(os.path.join(EXAMPLES, "dimens.xml"))
        it.put("a.script", "window 9 9\nres @7f060006 dimen 40 px\nres @7f060002 dimen 30 dp\nres @7f06000f dimen 1 in\n"
                           "res @7f060004 dimen 3 dp\n inflate dimens.xml\nres @7f060006 dimen 50 px\nframe\n")
        views = json.loads(it.call("tree", "--json", "a.script")[1].decode())["views"]
    width = views[0]["source"]["attributes"]["android:layout_width"]
    places = [(at["file"], at["line"], at["column"]) for at in views[1]["source"]["places"]]
    is_right = width == {"written": "@7f060006", "resolved": "40px", "resources": ["@7f060006"], "origin": "element"}
    return "" if is_right and places == [("dimens.xml", 6, None), ("a.script", 6, 2)] else "%s, %s" % (width, places)


def words_of_settings() -> str:
    """The table of the module has all settings."""
    with open(os.path.join(EXAMPLES, os.pardir, "docs", "tree.schema.json"), encoding="utf-8") as file:
        view = json.load(file)["properties"]["views"]["items"]["properties"]
    listed = set(view["given"]["propertyNames"]["enum"])
    rows = re.findall(r"^\| ([a-z_, ]+) \|", facts.__doc__ or "", re.MULTILINE)
    found = {name for row in rows for name in row.split(", ")} - {"setting"}
    return "" if found == listed else "in one of both: %s" % sorted(found ^ listed)


def checks() -> Checks:
    yield from named("facts", (of_the_apk, of_values, of_includes, of_lines, of_files, words_of_settings))
