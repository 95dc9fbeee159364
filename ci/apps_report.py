"""Tries `tools/app`: that each attribute of each element of the source is in the report, over the apps of examples/
and over those in the folders that the variable VINDAESK_APPS names, joined by `:`; and what it writes, and says of
wrong input."""
import glob
import json
import os
import shutil
import zipfile
from functools import partial
from typing import Any, Iterator, List, Set, Tuple

from running import TOP, Checks
from tools import Ended, Place, first, place, unfit, unlike
from vindaesk.apps import archives, element
from vindaesk.layouts import documents

TRIPS = os.path.join(TOP, "examples", "trips", "trips.apk")
INBOX = os.path.join(TOP, "examples", "inbox", "inbox.apk")
SOURCE = os.path.join(TOP, "examples", "trips")
MAX_LAYOUT = 1 << 20
# of an element its line, its name, and its attributes; of a row of a report all attributes, and those that are used or
# without effect
Element = Tuple[int, str, List[str]]
Row = Tuple[int, str, Set[str], Set[str]]
SCHEMA = os.path.join(TOP, "docs", "app.schema.json")


def report(it: Place, *words: str) -> Tuple[Any, Ended]:
    """The report of a call, and the call."""
    found = it.call("app", *words, "--json")
    return json.loads(found[1]) if found[0] in (0, 1) and found[1] else None, found


def elements_of(app: archives.Archive, path: str) -> Iterator[Element]:
    """Line, name and attributes of each element of a layout file, read by the program."""
    nodes = documents.of_file(app.read(path, MAX_LAYOUT), path)
    for node in documents.starts(nodes):
        yield node.line, node.name, sorted({element.key_of(it.namespace, it.name) for it in node.attributes})


def rows_of(layout: Any, path: str) -> Iterator[Row]:
    """The same of the rows of a report that are of a file, with all attributes of which something is said, and those
    that are said to be used or without effect."""
    for row in layout["elements"]:
        if row["file"] == path:
            noted = {it["attribute"] for it in row["notes"]}
            own = {*row["used"], *row["no_effect"]}
            yield row["line"], row["element"], own | noted, own


def has_each_attribute(path: str) -> str:
    """Each element of each layout file, with each of its attributes, is in the report, as often as its file is
    included."""
    with place() as it, archives.opened(path) as app:
        whole, found = report(it, path)
        if whole is None:
            # another one's app may have no layout, or be broken on purpose: that is a sentence
            is_right = path not in (TRIPS, INBOX) and found[0] == 2 and found[2].count("\n") == 1
            return "" if is_right else "status %d: %s" % found[::2]
        for layout in whole["layouts"]:
            for file in sorted({row["file"] for row in layout["elements"]}):
                if file not in app.infos:
                    continue
                why = unlike_rows(list(elements_of(app, file)), list(rows_of(layout, file)))
                if why:
                    return "%s, %s: %s" % (layout["name"], file, why)
            why = sums_differ(layout)
            if why:
                return "%s: %s" % (layout["name"], why)
    return ""


def unlike_rows(wanted: List[Element], had: List[Row]) -> str:
    """The first element that is not in the report as it should be; each is there as often as the file is included."""
    if not wanted or len(had) % len(wanted):
        return "%d elements, and %d rows" % (len(wanted), len(had))
    for one, other in zip(wanted * (len(had) // len(wanted)), had):
        if one[:2] != other[:2] or not other[3] <= set(one[2]) <= other[2]:
            return "%s is reported as %s" % (one, other)
    return ""


def sums_differ(layout: Any) -> str:
    """Whether the sums of a layout are not those of its rows."""
    rows = [(it["no_view"] is None, not any(note["effect"] == "bounds" for note in it["notes"])) for it in layout["elements"]]
    views = [it for it in rows if it[0] or not it[1]]
    exact = [it for it in views if it[1]]
    sums = layout["sums"]
    return "" if (sums["views"], sums["exact"]) == (len(views), len(exact)) else "the sums are %s" % sums


def inlined(schema: Any, whole: Any) -> Any:
    """A schema with its own definitions in the place of references to them."""
    if isinstance(schema, dict):
        if "$ref" in schema:
            return inlined(whole["$defs"][schema["$ref"].rpartition("/")[2]], whole)
        return {key: inlined(it, whole) for key, it in schema.items() if key != "$defs"}
    return [inlined(it, whole) for it in schema] if isinstance(schema, list) else schema


def fits_schema() -> str:
    with open(SCHEMA, encoding="utf-8") as file:
        whole = json.load(file)
    schema = inlined(whole, whole)
    with place() as it:
        for path in (TRIPS, SOURCE, INBOX):
            made, _ = report(it, path)
            why = unfit(made, schema)
            if why:
                return why
        return "" if unfit({**made, "sums": {}}, schema) else "the schema takes anything"


def writes_a_folder() -> str:
    """The script shows the layout, as --tree has it, and the ids have their names."""
    with place() as it:
        why = unlike(it.call("app", TRIPS, "home", "row", "--out", "made", "--config", "mdpi"), 0, None, "")
        made = sorted(os.listdir(os.path.join(it.folder, "made"))) if not why else []
        if why or made != ["app.json", "home.script", "home.xml", "ids.txt", "row.script", "row.xml"]:
            return why or "files: %s" % made
        tree = it.call("tree", "made/home.script")
        marked = it.call("app", TRIPS, "home", "--tree", "--config", "mdpi")
        if tree[:2] != marked[:2]:
            return "the tree is another one: %r" % tree[1][:200]
        ids = it.read("made/ids.txt").decode().splitlines()
        return "" if any(line.startswith("vindaesk.trips:id/book = 0x7f") for line in ids) else "the ids are %s" % ids


def names_files_of_the_app() -> str:
    """A page says of a view in which file of the app it is, and names no file that was made for the page."""
    with place() as it:
        why = unlike(it.call("app", TRIPS, "home", "--page", "a.html"), 0, None, "")
        data = it.read("a.html").split(b'<script id="data" type="application/json">')[1].split(b"</script>")[0]
        places = [[at["file"] for at in source["places"]] for source in json.loads(data)["sources"].values()]
        with zipfile.ZipFile(TRIPS) as app:
            strange = {name for names in places for name in names} - set(app.namelist())
        # the content of the window is of no file
        return why or ("it names %s" % sorted(strange) if strange else "") or (
            "" if [len(names) for names in places] == [0, *[1] * (len(places) - 1)] else "places: %s" % places)


def marks_what_is_not_exact() -> str:
    """In a tree, on a page, and of what is refused; a report that is broken, or another one's, marks nothing."""
    with place() as it:
        why = unlike(it.call("app", TRIPS, "player", "settings", "--out", "made", "--config", "mdpi"), 0, None, "")
        said = "Chronometer res/layout/player.xml:19: the text is that of a time: 00:00 here"
        lines = it.call("tree", "made/player.script")[1].decode().split("\n")
        marked = [line for line in lines if "  ~ " in line]
        if why or len(marked) != 1 or not marked[0].endswith("  ~ " + said) or not lines[0].endswith("#fffafafa"):
            return why or "the tree is %s" % lines
        why = unlike(it.call("page", "made/player.script", "a.html"), 0, b"", "")
        why = why or ("" if ('"app":"~ %s"' % said).encode() in it.read("a.html") else "the page has no mark")
        found = it.call("lint", "made/settings.script")
        why = why or ("" if b"res/layout/settings.xml:34: warning touch-target: v13 " in found[1] else "lint says %r" % found[1])
        return why or wrong_reports(it)


def wrong_reports(it: Place) -> str:
    """Reports that say nothing."""
    why = ""
    bodies = {
        b"{": "app.json is no report that can be read", b'{"a": 1}': "", b"[]": "", b"\xff": "no view is marked",
        b'{"version": 1}': "it has no layouts",
        b'{"version": 2, "layouts": []}': "it is of the version 2", b'{"version": 1, "layouts": [{}]}': "no view is marked",
    }
    for body, said in bodies.items():
        it.put("made/app.json", body)
        found = it.call("tree", "made/settings.script")
        why = why or unlike(found, 0, None, said) or ("" if b"res/layout" not in found[1] else "marked: %r" % found[1])
    return why


def check_names_the_source() -> str:
    """Of a layout whose file was changed, so that it is refused."""
    with place() as it:
        why = unlike(it.call("app", TRIPS, "player", "--out", "made", "--config", "mdpi"), 0, None, "")
        source = it.call("axml", "--text", "made/player.xml", "a.xml")
        text = it.read("a.xml").decode().replace("<TextView", "<TextVeiw", 1)
        why = why or unlike(source, 0, None, "") or unlike(it.call("axml", "-", "made/player.xml", given=text), 0, None, "")
        found = it.call("check", "made/player.script")
        named = b"; it is of Chronometer res/layout/player.xml:19" in found[1]
        return why or ("" if found[0] == 1 and named else "check says %r" % found[1])


def lint_names_the_source() -> str:
    with place() as it:
        found = it.call("app", TRIPS, "settings", "--lint", "--config", "mdpi")
        return unlike(found, 1, None, "") or ("" if b"res/layout/settings.xml:" in found[1] else "it writes %r" % found[1])


def takes_configurations() -> str:
    with place() as it:
        calls = {"": "BOOK", "de": "BUCHEN", "de-land-night": "BUCHEN"}
        for config, text in calls.items():
            found = it.call("app", TRIPS, "home", "--tree", "--config", config and config + "-mdpi")
            if '"%s"' % text not in found[1].decode():
                return "with '%s': %r" % (config, found[1][:400])
        night = it.call("app", TRIPS, "home", "--tree", "--config", "night-mdpi")
        return "" if b"bg #ff121212" in night[1] else "at night it is %r" % night[1][:200]


def is_strict() -> str:
    with place() as it:
        why = unlike(it.call("app", TRIPS, "home", "--strict"), 0, None, "")
        return why or unlike(it.call("app", TRIPS, "player", "--strict"), 1, None, "")


def takes_rows() -> str:
    with place() as it:
        it.put("map.txt", "Chronometer | TextView | text says 00:00 | android:textViewStyle | exact\n")
        why = unlike(it.call("app", TRIPS, "player", "--strict"), 1, None, "")
        why = why or unlike(it.call("app", TRIPS, "player", "--strict", "--map", "map.txt"), 0, None, "")
        rows = {
            "a | b": "map.txt:1: a row has 5 cells",
            "A | Button | direct | - | exact": "map.txt:1: 'Button' is none of View, TextView",
            "\nA | View | brdr | - | exact": "map.txt:2: there is no rule 'brdr'",
            "A | View | direct | x y | exact": "map.txt:1: 'x y' is no attribute of a theme",
            "A | View | direct a | - | exact": "map.txt:1: the rule 'direct' takes no further words: 'a'",
            "A | View | box 200 | - | exact": "map.txt:1: the rule 'box' takes a width and a height in dp",
            "A | View | linear up | - | exact": "map.txt:1: the rule 'linear' takes 'vertical', 'horizontal' or nothing",
        }
        for text, said in rows.items():
            it.put("map.txt", text)
            why = why or unlike(it.call("app", TRIPS, "home", "--map", "map.txt"), 2, b"", said)
        return why


def refuses_wrong_calls() -> str:
    with place() as it:
        it.put("a.apk", b"PK")
        os.mkdir(os.path.join(it.folder, "empty"))
        calls = {
            ("no.apk",): "no.apk cannot be read: No such file",
            ("a.apk",): "a.apk cannot be unpacked: it is no archive, or it is cut short",
            ("empty",): "empty has no resources",
            (TRIPS, "hom"): "the app has no layout 'hom'; did you mean 'home'?",
            (TRIPS, "home", "--config", "lnad"): "lnad",
            (TRIPS, "home", "--theme", "None"): "there is no theme 'None'",
            (TRIPS, "home", "--state", "pressed,foo"): "there is no state 'foo'; the states are accelerated, ",
            (TRIPS, "home", "--config", "night-de"): "is after one that it has to be before; in Android's order it is 'de-night'",
            (TRIPS, "home", "--config", "land-port"): "is after one that it has to be before; one thing is said twice",
            (TRIPS, "home", "--out", "/proc/x"): "the folder /proc/x cannot be made: ",
            (TRIPS, "--picture", "a.png"): "a picture or a page is that of one layout: name it",
            (TRIPS, "home", "--framework", "no.apk"): "no.apk cannot be read: No such file",
        }
        why = first(unlike(it.call("app", *words), 2, b"", said) for words, said in calls.items())
        return why or ("" if it.names() == ["a.apk", "empty"] else "files: %s" % it.names())


def takes_unpacked_and_split_apps() -> str:
    """A folder into which the app was unpacked, and one of split APKs, give the same."""
    with place() as it:
        plain = it.call("app", TRIPS)
        shutil.unpack_archive(TRIPS, os.path.join(it.folder, "unpacked"), "zip")
        os.mkdir(os.path.join(it.folder, "split"))
        shutil.copy(TRIPS, os.path.join(it.folder, "split", "base.apk"))
        why = unlike(it.call("app", "unpacked"), 0, plain[1], "")
        return why or unlike(it.call("app", "split"), 0, plain[1], "")


def can_be_interrupted() -> str:
    """Status and sentence, and nothing is written."""
    with place() as it:
        started = it.start("tools/app", SOURCE, "--out", "made")
        started.terminate()
        _, said = started.communicate(timeout=60)
        is_ended = started.returncode in (143, -15)
        return "" if is_ended and not os.path.exists(os.path.join(it.folder, "made")) else "%d: %r" % (started.returncode, said)


def apps() -> Iterator[str]:
    """The apps whose report is looked at."""
    yield TRIPS
    yield INBOX
    for folder in filter(None, os.environ.get("VINDAESK_APPS", "").split(":")):
        yield from sorted(glob.glob(os.path.join(folder, "**", "*.apk"), recursive=True))


def checks() -> Checks:
    for path in apps():
        yield "app: each attribute of %s" % os.path.basename(path), partial(has_each_attribute, path)
    yield "app: the report fits its schema", fits_schema
    yield "app: a folder of scripts", writes_a_folder
    yield "app: marks", marks_what_is_not_exact
    yield "app: a page names files of the app", names_files_of_the_app
    yield "app: lint", lint_names_the_source
    yield "app: check", check_names_the_source
    yield "app: configurations", takes_configurations
    yield "app: --strict", is_strict
    yield "app: rows of a table", takes_rows
    yield "app: wrong calls", refuses_wrong_calls
    yield "app: unpacked and split apps", takes_unpacked_and_split_apps
    yield "app: a signal", can_be_interrupted


