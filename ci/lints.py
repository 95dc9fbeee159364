"""Tries tools/lint, over scripts with and without faults."""
import os
import re
from typing import Dict, List, Tuple

from running import Checks, named
from tools import EXAMPLES, Place, first, place, unlike
from vindaesk.lint import rules

FAULTS = """window 320 200
add root FrameLayout match match
add v1 TextView 60 10
text v2 This text is cut off
add v1 View 50 60
answer v3 click
margins v3 310 0 0 0
add v1 View 60 60
answer v4 click
margins v4 0 20 0 0
add v1 View 60 60
answer v5 yes
margins v5 10 30 0 0
id v5 @7f050001
add v1 TextView 4 wrap
text v6 ab
frame
"""
ONLY = ("--only", "text-cut,outside,overlap,touch-target,no-size")
FOUND = """%s:3:1: warning text-cut: v2 TextView "This text is cut off": it is 10 dp high, and its text needs 16 (160 dpi, 320 dp)
%s:5:1: warning outside: v3 View: 40 dp beyond the right of v1, which is 320 by 200 dp (160 dpi, 320 dp)
%s:8:1: warning overlap: v4 View: 50 by 50 dp of it are under its sibling v5 View @7f050001 (160 dpi, 320 dp)
%s:15:1: warning text-cut: v6 TextView "ab": it is 4 dp wide, and one character needs 6 (160 dpi, 320 dp)
""".replace("%s", "standard input")
# nothing is wrong here: what is higher than a `ScrollView`, what is not seen, texts as high as their room, and siblings
# that touch only
RIGHT = """window 100 100
add root LinearLayout match match
orient v1 vertical
add v1 ScrollView match 30
add v2 RelativeLayout match wrap
add v3 TextView match wrap
id v4 @1
text v4 a\\nb\\nc
padding v4 4 4 4 4
add v3 TextView 30 64
text v5 d\\ne\\nf\\ng
rule v5 below @1
add v1 View 50 50
answer v6 click
add v1 View 50 48
answer v7 click
visible v7 gone
add v1 FrameLayout 0 0
visible v8 invisible
add v8 View 200 1
add v1 ScrollView 20 20
flag v10 fill yes
add v10 TextView match wrap
text v11 a
frame
"""
# texts in the ways of each class to limit a child
NARROW = {
    "a weight": "add v1 LinearLayout match 8\nadd v2 TextView 0 match\nweight v3 1\ntext v3 a\\nb\n",
    "rules": "add v1 RelativeLayout match 8\nadd v2 TextView 40 wrap\ntext v3 a\\nb\nrule v3 parent_top yes\n"
             "rule v3 parent_bottom yes\n",
    "padding": "add v1 TextView 40 10\ntext v2 a\npadding v2 0 4 0 4\n",
}
OWN = '''from vindaesk.lint import rule

@rule("no-id")
def no_id(view, page):
    """What answers touches has an id."""
    if view.view.is_touched() and not view.view.id:
        yield "it has no id"
'''


def finds() -> str:
    with place() as it:
        why = unlike(it.call("lint", "-", *ONLY, given=FAULTS), 1, FOUND.encode(), "")
        why = why or unlike(it.call("lint", "-", *ONLY, given=RIGHT), 0, b"", "")
        return why or unlike(it.call("lint", "-", *ONLY, "--density", "160,320", given=RIGHT), 1, b"standard input:13:1: warning "
                             b"touch-target: v6 View: 25 by 25 dp, below 48 by 48 (320 dpi, 100 dp)\n", "")


def measures_texts() -> str:
    with place() as it:
        for name, lines in NARROW.items():
            text = "window 100 100\nadd root FrameLayout match match\n" + lines + "frame\n"
            status, out, said = it.call("lint", "-", "--only", "text-cut", given=text)
            if (status, out.count(b"text-cut: v"), said) != (1, 1, ""):
                return "%s: status %d, %r, '%s'" % (name, status, out, said)
        hooked = FAULTS.replace("frame\n", "frame\nhook v1 size v2 60 10\n")
        return unlike(it.call("lint", "-", "--only", "text-cut", given=hooked), 0, b"", "")


def lays_out_a_matrix() -> str:
    """A finding has the configurations in which it holds, once where it is the same in dp."""
    with place() as it:
        with open(os.path.join(EXAMPLES, "margins.xml"), "rb") as file:
            it.put("margins.xml", file.read())
        it.put("a.script", "dpi 240\nwindow 300 150\ninflate margins.xml\nframe\n")
        calls: Dict[bytes, List[str]] = {
            b"240 dpi, 200 dp": [], b"160 dpi, 200 dp": ["--density", "160"], b"320 dpi, 64 dp": ["--dpi", "320", "--width", "64"],
            b"240 dpi, 200 dp, rtl": ["--rtl"],
        }
        for where, words in calls.items():
            status, out, said = it.call("lint", "a.script", "--only", "no-label,touch-target,off-window,outside", *words)
            if (status, said) != (1, "") or not any(b"(%s)" % where in line for line in out.splitlines()):
                return "%s: status %d, %r, '%s'" % (words, status, out, said)
        text = "window 4000 10\nadd root View 1 1\nframe\n"
        why = unlike(it.call("lint", "-", "--dpi", "320", given=text), 2, b"", "a window of 8000 by 20 pixels, at 320")
        # a line that is refused at one density alone
        large = "window 9 9\ndpi 160\nx\nframe\n"
        found = it.call("lint", "-", "--dpi", "160,320", given=large)
        return why or unlike(found, 1, b"", "standard input:3:1: 31 Syntax: no line begins with 'x'\n")


def takes_apps() -> str:
    """Straight from an app, its source, and a layout in this: at night a text is light, and from right to left the view
    is at the other side."""
    with place() as it:
        trips = os.path.join(EXAMPLES, "trips", "trips.apk")
        words = ("--layout", "settings", "--density", "480,320", "--width", "320,411", "--night", "--rtl", "--only", "touch-target")
        status, out, said = it.call("lint", trips, *words)
        wanted = ["%d dpi, %d dp%s%s" % (dpi, width, night, rtl) for dpi in (480, 320) for width in (320, 411)
                  for night in ("", ", night") for rtl in ("", ", rtl")]
        lines = out.decode().splitlines()
        if (status, said) != (1, "") or not all(line.endswith("(%s)" % "; ".join(wanted)) for line in lines) or not lines:
            return "status %d, %r, '%s'" % (status, out, said)
        if not all(line.startswith(trips + "!/res/layout/settings.xml:") for line in lines):
            return "%s" % lines
        source = os.path.join(EXAMPLES, "trips")
        of_source = it.call("lint", source, *words)[1].decode().splitlines()
        of_file = it.call("lint", os.path.join(source, "res", "layout", "settings.xml"), *words[2:])[1].decode().splitlines()
        starts = [re.match(r".*/res/layout/settings\.xml:\d+:\d+: warning", line) for line in of_source]
        if not all(starts) or len(of_source) != len(lines) or len(of_file) != len(lines):
            return "of a source: %s; of a file: %s" % (of_source, of_file)
        why = unlike(it.call("lint", trips, "--layout", "setting"), 2, b"", "did you mean 'settings'?")
        other = it.call("lint", trips, "--config", "night-de")
        return why or unlike(other, 2, b"", "in Android's order it is 'de-night'")


BROKEN = '''<LinearLayout xmlns:android="http://schemas.android.com/apk/res/android"
    android:layout_width="match_parent" android:layout_height="match_parent">
    <TextView android:layout_width="7xx" android:layout_height="wrap_content" android:text="@string/none" />
    <ImageView android:layout_width="48dp" android:contentDescription="@string/there" />
    <ImageView android:layout_width="48dp" android:layout_height="48dp" />
</LinearLayout>
'''
IN_BROKEN = [
    'res/layout/bad.xml:3:5: error wrong-value: v3 TextView: android:layout_width="7xx": its value is of a type that it cannot have',
    'res/layout/bad.xml:3:5: error missing-resource: v3 TextView: android:text="@string/none": the project has no such resource',
    "res/layout/bad.xml:4:5: error required-size: v4 ImageView: it has no android:layout_height, and Android refuses it",
]


# what aapt2 links, and refuses, with the resources of Android 10
FITTING = (
    'layout_width=" 10dp "', 'padding="-4dp"', 'background="#123"', 'layout_weight="1e2"', 'clipToPadding="TRUE"',
    'gravity="center"', 'gravity=""', 'layout_gravity=" "', 'minWidth="5in"', 'layout_margin=".5dp"', 'text=""',
    'layout_alignParentLeft="true"',
)
UNFIT = (
    'layout_width="10"', 'layout_width="10 dp"', 'padding="0"', 'background="#12"', 'background="red"', 'background=""',
    'textColor="#12"', 'layout_weight="1dp"', 'layout_weight=""', 'gravity="17"', 'orientation="1"', 'orientation=""',
    'visibility="2"', 'clipToPadding="1"', 'fillViewport="yes"', 'id="foo"', 'layout_toLeftOf="true"',
)
ONE_VIEW = '<TextView xmlns:android="http://schemas.android.com/apk/res/android"%s android:layout_height="8dp"\n    android:%s/>'


def finds_values_that_do_not_fit() -> str:
    """Values of the outermost element too are those of `aapt2`; a value by data binding may be any."""
    with place() as it:
        for written in (*FITTING, *UNFIT, 'text="@{a.b}"', 'background="?android:attr/colorAccent"'):
            size = "" if "layout_width" in written else ' android:layout_width="match_parent"'
            it.put("a.xml", ONE_VIEW % (size, written))
            status, out, said = it.call("lint", "a.xml", "--only", "wrong-value")
            wanted = b"wrong-value: v2 TextView: android:" + written.encode() if written in UNFIT else b""
            if (status, said) != (int(bool(wanted)), "") or wanted not in out or out.count(b"\n") != status:
                return "%s: status %d, %r, '%s'" % (written, status, out, said)
        return ""


def finds_broken_sources() -> str:
    """What aapt or Android refuses in a source is an error, in a project and of a file by itself, which has no
    resources; a view has the name of its element; and what is no XML has a place."""
    with place() as it:
        for folder in ("res", "res/layout", "res/values"):
            os.mkdir(os.path.join(it.folder, folder))
        it.put("res/values/texts.xml", '<resources><string name="there">There</string></resources>')
        for name in ("res/layout/bad.xml", "bad.xml"):
            it.put(name, BROKEN)
            status, out, _ = it.call("lint", name, "--severity", "error")
            found = [line.rpartition(" (")[0] for line in out.decode().splitlines()]
            wanted = [line for line in IN_BROKEN if "/" in name or "missing-resource" not in line]
            if (status, found) != (1, [line.replace("res/layout/bad.xml", name) for line in wanted]):
                return "%s: status %d, %s" % (name, status, found)
        out = it.call("lint", "bad.xml", "--only", "content-description")[1]
        why = "" if out.startswith(b"bad.xml:5:5: warning content-description: v5 ImageView: ") else "%r" % out
        it.put("broken.xml", '<View xmlns:android="x"')
        return why or unlike(it.call("lint", "broken.xml"), 1, b"", "lint: broken.xml:1:1: it is no XML: unclosed token\n")


ROW = "add v1 FrameLayout 10 10\n"
LEAF = (b"row.lines:1:1: warning useless-leaf: v2 FrameLayout: it has no child, no background and no id "
        b"(160 dpi, 320 dp)\n")


WAY = "app: references lead in a circle: app:dimen/a, app:dimen/b, app:dimen/a"
CIRCLE = 'app/res/layout/m.xml:2:5: error missing-resource: v3 View: android:layout_width="@dimen/a": ' + WAY


def names_circles() -> str:
    """References among values that lead in a circle: the report of the app and lint name all of them."""
    with place() as it:
        for folder in ("res/layout", "res/values"):
            os.makedirs(os.path.join(it.folder, "app", folder))
        dimens = '<dimen name="a">@dimen/b</dimen><dimen name="b">@dimen/a</dimen>'
        it.put("app/res/values/v.xml", "<resources>%s</resources>" % dimens)
        it.put("app/res/layout/m.xml", '<FrameLayout xmlns:android="http://schemas.android.com/apk/res/android" '
               'android:layout_width="match_parent" android:layout_height="match_parent">\n'
               '    <View android:layout_width="@dimen/a" android:layout_height="9dp" />\n</FrameLayout>\n')
        found = it.call("lint", "app", "--severity", "error")[1].decode().splitlines()
        report = it.call("app", "app", "m", "--report")[1].decode()
    if [line.rpartition(" (")[0] for line in found] != [CIRCLE]:
        return "%s" % found
    wanted = "View android:layout_width: left out (bounds): %s\n" % WAY
    return "" if wanted in report else report


def finds_once() -> str:
    """What scripts and layouts include is found once, where it is the same, also of one that includes it twice; and a
    line of it that is refused is said once."""
    start = "window %d 200\nadd root FrameLayout match match\n"
    with place() as it:
        it.put("row.lines", ROW)
        for name, lines in {"a": "", "b": "add v1 View 9 9\n"}.items():
            it.put(name + ".script", start % (320 + len(lines)) + lines + "include row.lines\nframe\n")
        words = ("--only", "useless-leaf")
        wanted = LEAF.replace(b")\n", b"; 160 dpi, 336 dp) [included by a.script:3]\n")
        why = unlike(it.call("lint", "a.script", "b.script", *words), 1, wanted, "")
        it.put("middle.lines", "# one more file\ninclude row.lines\n")
        it.put("c.script", start % 320 + "include middle.lines\nframe\n")
        wanted = LEAF.replace(b"\n", b" [included by middle.lines:2, c.script:3]\n")
        why = why or unlike(it.call("lint", "c.script", "a.script", *words), 1, wanted, "")
        it.put("b.script", start % 320 + "include row.lines\n" * 2 + "frame\n")
        twice = it.call("lint", "a.script", "b.script", *words)[1].count(b"row.lines:1:1: ")
        why = why or ("" if twice == 1 else "%d of a file that is included twice" % twice) or of_layouts(it)
        it.put("row.lines", ROW + "foo\n")
        refused = "row.lines:2:1: 31 Syntax: no line begins with 'foo'\n"
        for jobs in ("1", "2"):
            said = it.call("lint", "a.script", "b.script", *words, "--jobs", jobs)[2]
            of_check = it.call("check", "a.script", "b.script", "--quiet", "--jobs", jobs)[1].decode()
            why = why or ("" if (said, of_check) == ("lint: " + refused, refused) else "%r, %r" % (said, of_check))
        return why


def of_layouts(it: Place) -> str:
    """The same of a layout that is looked at by itself too."""
    root = '<LinearLayout xmlns:android="http://schemas.android.com/apk/res/android" android:orientation="vertical"\n' \
           '    android:layout_width="match_parent" android:layout_height="match_parent">\n%s</LinearLayout>\n'
    image = '    <ImageView android:layout_width="48dp" android:layout_height="48dp" android:src="@drawable/none" />\n'
    os.makedirs(os.path.join(it.folder, "app", "res", "layout"))
    it.put("app/res/layout/a.xml", root % ('    <include layout="@layout/b" />\n' * 2))
    it.put("app/res/layout/b.xml", (root % image).replace('height="match_parent"', 'height="wrap_content"'))
    found = [line.split(" v")[0] for line in it.call("lint", "app")[1].decode().splitlines()]
    b = "app/res/layout/b.xml:3:5: "
    return "" if found == [b + "error missing-resource:", b + "warning content-description:"] else "of layouts: %s" % found


def takes_folders_of_sources() -> str:
    """A folder of plain sources that is no app: what is XML and no layout is passed over, also what is none at all."""
    source = BROKEN.replace("7xx", "7dp").replace("@string/none", "@null")
    with place() as it:
        os.makedirs(os.path.join(it.folder, "all", "more"))
        vector = '<vector xmlns:android="http://schemas.android.com/apk/res/android" android:width="1dp"/>'
        for name, text in (("a.xml", source), ("more/b.xml", source), ("c.xml", "<a"), ("d.xml", "<resources/>"),
                           ("e.xml", vector)):
            it.put("all/" + name, text)
        status, out, said = it.call("lint", "all", "--only", "content-description")
        found = [line.partition(":")[0] for line in out.decode().splitlines()]
        is_right = (status, found, said) == (1, ["all/a.xml", "all/more/b.xml"], "")
        return "" if is_right else "%d, %r, '%s'" % (status, out, said)


def own_rules() -> str:
    with place() as it:
        it.put("own.py", OWN)
        it.put("broken.py", "def (")
        it.put("failing.py", OWN.replace('yield "it has no id"', "yield 1 // 0"))
        it.put("a.script", FAULTS)
        line = b"a.script:%d:1: warning no-id: v%d View: it has no id (160 dpi, 320 dp)\n"
        out = line % (5, 3) + line % (8, 4)
        calls: List[Tuple[Tuple[str, ...], int, bytes, str]] = [
            (("--rules", "own.py", "--only", "no-id"), 1, out, ""),
            (("--rules", "own.py", "--only", "no-id", "--skip", "no-id"), 0, b"", ""),
            (("--rules", "broken.py"), 2, b"", "the rules of broken.py cannot be loaded: SyntaxError"),
            (("--rules", "failing.py", "--only", "no-id"), 2, b"", "the rule no-id failed at v3: ZeroDivisionError"),
            (("--rules", "no.py"), 2, b"", "there is no file no.py"),
            (("--only", "other"), 2, b"", "there is no rule 'other'; the rules are outside, off-window"),
            (("--dpi", "160,x"), 2, b"", "'x' is no number from 40 to 1000"),
            (("--width", ""), 2, b"", "'' is no number from 1 to 16384"),
            (("--night", "--only", "outside"), 1, b"", "a script has no night of its own"),
        ]
        why = first(unlike(it.call("lint", "a.script", *words), status, out, said) for words, status, out, said in calls)
        # the tool ran in this process, where the rule is still
        rules.RULES.pop("no-id", None)
        return why


def wrong_scripts() -> str:
    with place() as it:
        os.mkdir(os.path.join(it.folder, "folder"))
        why = unlike(it.call("lint", "no.script"), 2, b"", "no.script cannot be read")
        why = why or unlike(it.call("lint", "folder"), 2, b"", "folder has no script, no layout and no app")
        why = why or unlike(it.call("lint", "-"), 1, b"", "there are no bounds: the script opens no window\n")
        refused = it.call("lint", "-", given="ad x\nwindow 9 9\nadd root View 1 1\nframe\n")
        why = why or unlike(refused, 1, b"", "lint: standard input:1:1: 31 Syntax: no line begins with 'ad'; did you mean 'add'?\n")
        killed = it.call("lint", "-", given=FAULTS, **it.stand_in("kill -9 $$"))
        why = why or unlike(killed, 137, b"", "ended by the signal SIGKILL")
        ended = it.call("lint", "-", given="add root FrameLayout 1 1\ninflate folder into v1\n")
        return why or unlike(ended, 6, b"", "status 6: a file could not be read")


def checks() -> Checks:
    yield from named("the lint", (
        finds, measures_texts, lays_out_a_matrix, takes_apps, finds_broken_sources, finds_values_that_do_not_fit, names_circles,
        finds_once, takes_folders_of_sources, own_rules, wrong_scripts,
    ))
