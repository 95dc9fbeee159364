"""Tries golden tests as people write them: names of ids, files that are included, configurations, and what runall does
with them."""
import json
import os

from running import TOP, Checks, named
from tools import Ended, Place, RED, first, place, unlike
from vindaesk.pictures import png

EXAMPLES = os.path.join(TOP, "examples")
IDS = "app:id/card = 0x7f080001\napp:id/reply = 0x7f080002\n"
NAMED = """window 100 50
add root FrameLayout match match
id v1 @id/card
add @id/card TextView wrap wrap
id v2 @id/reply
text @id/reply @id/reply
frame
bounds @id/reply
"""


def names_everywhere() -> str:
    """The same script by names as by numbers, and what shows the names."""
    with place() as it:
        it.put("a.script", NAMED)
        it.put("ids.txt", IDS)
        plain = NAMED.replace("@id/card", "@7f080001").replace("@id/reply", "@7f080002")
        plain = plain.replace("text @7f080002 @7f080002", "text @7f080002 @id/reply")
        tree = 'v1 FrameLayout @id/card 0 0 100 50\n  v2 TextView @id/reply "@id/reply" 0 0 54 8\n'
        why = unlike(it.call("tree", "a.script", "--expanded"), 0, plain.encode(), "")
        why = why or unlike(it.call("tree", "a.script"), 0, tree.encode(), "")
        why = why or unlike(it.call("lint", "a.script", "--only", "touch-target"), 0, b"", "")
        views = json.loads(it.call("tree", "a.script", "--json")[1].decode())["views"] if not why else []
        ids = [(view["id"], view["id_name"]) for view in views]
        why = why or ("" if ids == [("@7f080001", "@id/card"), ("@7f080002", "@id/reply")] else "ids: %s" % ids)
        it.put("other.txt", IDS.replace("reply", "answer"))
        why = why or unlike(it.call("tree", "a.script", "--ids", "other.txt"), 1, b"",
                            "a.script:5:7: @id/reply is not in other.txt; and 2 more names have no id\n")
        return why or unlike(it.call("tree", "a.script", "--ids", "no.txt"), 2, b"", "no.txt cannot be read: No such")


def escapes_texts() -> str:
    """lint shows a text as tree does, in which a quotation mark has a backslash."""
    with place() as it:
        text = "window 9 9\nadd root TextView 3 match\ntext v1 a \"b\" c\\\\d\nframe\n"
        shown = b'v1 TextView "a \\"b\\" c\\\\d"'
        found = it.call("lint", "-", "--only", "text-cut", given=text)[1], it.call("tree", "-", given=text)[1]
        return "" if all(shown in it for it in found) else "%r" % (found,)


def counts_what_follows() -> str:
    """Of a script whose root is refused the first line is reported, and how many follow; `check` is named as it is
    called."""
    text = "window 9 9\nadd root Viev 1 1\n" + "frame\n" * 3 + "id v7 @1\n"
    first_line = "%s: standard input:2:10: 31 Syntax: 'Viev' does not fit; did you mean 'View'?\n"
    more = "%s: 4 more lines are refused, by NoRoot, as may follow from that; %s lists all\n"
    none = "%s: there are no bounds: the tree has no root\n"
    with place() as it:
        tools_folder = os.path.join(TOP, "tools")
        wanted = first_line % "tree" + more % ("tree", os.path.join(tools_folder, "check")) + none % "tree"
        why = unlike(it.call("tree", "-", given=text), 1, b"", wanted)
        started = it.start("vindaesk", "tree", "-")
        _, said = started.communicate(text.encode())
        name = "vindaesk tree"
        wanted = first_line % name + more % (name, "vindaesk check") + none % name
        return why or ("" if said.decode() == wanted else "it says '%s'" % said.decode())


def unknown_names() -> str:
    with place() as it:
        it.put("a.script", "window 9 9\nadd root View 1 1\nid v1 @id/repli\nbounds @id/x @id/y\n")
        said = "a.script:3:7: @id/repli has no id, since there is no list ids.txt; --ids FILE names another one; and 2 "
        why = unlike(it.call("tree", "a.script"), 1, b"", said)
        it.put("ids.txt", IDS)
        said = "a.script:3:7: @id/repli is not in ids.txt; did you mean 'reply'?; and 2 more names have no id\n"
        for words in (("tree", "a.script"), ("page", "a.script", "a.html"), ("screenshot", "a.script", "a.png")):
            why = why or unlike(it.call(*words), 1, b"", said)
        checked = (b"a.script:3:7: 31 Syntax: @id/repli is not in ids.txt; did you mean 'reply'?\n"
                   b"a.script:4:8: 31 Syntax: @id/x is not in ids.txt\n")
        why = why or unlike(it.call("check", "a.script"), 1, checked, "")
        it.put("ids.txt", "x\n")
        why = why or unlike(it.call("tree", "a.script"), 2, b"", "ids.txt:1: this is not of the form")
        return why or ("" if it.names() == ["a.script", "ids.txt"] else "files: %s" % it.names())


def keeps_names() -> str:
    """An answer with names passes after each id has changed, and one with numbers as long as they are right."""
    with place() as it:
        it.put("a.script", NAMED.replace("frame\n", "add @id/card ScrollView 9 9\nid v3 @id/list\nframe\nsave\n"))
        it.put("ids.txt", IDS + "app:id/list = 0x7f080003\n")
        it.put("d.xml", open(os.path.join(EXAMPLES, "page.xml"), "rb").read())
        it.put("d.answer", "")
        why = unlike(it.call("runall", ".", "--accept"), 0, None, "")
        answer = it.read("a.answer").decode().splitlines()
        state = "state @id/list 0100000000 @id/reply 02090040" + "id/reply".encode().hex()
        why = why or ("" if answer[4] == state else "the state is %s" % answer[4])
        why = why or ("" if b"- 01 @7f" not in it.read("d.answer") else "no dump is asked for")
        moved = "app:id/a = 0x7f080001\napp:id/list = 0x7f080002\napp:id/reply = 0x7f080008\napp:id/card = 0x7f080009\n"
        it.put("ids.txt", moved)
        why = why or unlike(it.call("runall", "a.script"), 0, b"1 passed, 0 failed\n", "")
        it.put("a.script", "window 9 9\nadd root TextView 9 9\nid v1 @7f080002\nsave\n")
        plain = b"v1\nstate 5653020100" + bytes.fromhex("0200087f020000").hex().encode() + b"\n"
        it.put("a.answer", plain)
        why = why or unlike(it.call("runall", "a.script"), 0, b"1 passed, 0 failed\n", "")
        it.put("a.answer", plain.replace(b"087f", b"097f"))
        return why or unlike(it.call("runall", "a.script"), 1, None, "")


def includes_files() -> str:
    with place() as it:
        for folder in ("in", "in/deep"):
            os.mkdir(os.path.join(it.folder, folder))
        it.put("a.script", "window 9 9\ninclude in/b.lines\nframe\nbounds\nx\n")
        it.put("in/b.lines", "add root View 2 3\r\n  include  deep/c d.lines \r\nad v1")
        it.put("in/deep/c d.lines", "bg v1 #ff0000ff\nbg v2 #ff0000ff\n")
        said = ("tree: in/deep/c d.lines:2:4: 28 NoView: no view has this number or id\n"
                "tree: in/b.lines:3:1: 31 Syntax: no line begins with 'ad'; did you mean 'add'?\n"
                "tree: a.script:5:1: 31 Syntax: no line begins with 'x'\n")
        why = unlike(it.call("tree", "a.script"), 1, b"v1 View 0 0 2 3 bg #ff0000ff\n", said)
        lines = (b"window 9 9\nadd root View 2 3\r\nbg v1 #ff0000ff\nbg v2 #ff0000ff\nad v1\nframe\nbounds\nx\n")
        why = why or unlike(it.call("check", "a.script", "--expanded"), 0, lines, "")
        checked = it.call("check", "a.script", "--format", "github")[1].decode().splitlines()
        why = why or ("" if len(checked) == 3 and "file=in/deep/c d.lines,line=2,col=4" in checked[0] else "%s" % checked)
        it.call("runall", ".", "--accept")
        answer = (b"v1\nin/deep/c d.lines line 2: refused 28 NoView\nin/b.lines line 3: refused 31 Syntax\nsettled 0\n"
                  b"v1 0 0 2 3\nline 5: refused 31 Syntax\n")
        return why or ("" if it.read("a.answer") == answer else "the answer is %r" % it.read("a.answer"))


def refuses_includes() -> str:
    with place() as it:
        it.put("a.lines", "include b.lines\n")
        it.put("b.lines", "\ninclude a.lines\n")
        it.put("many.lines", "include none.lines\n" * 1001)
        it.put("none.lines", "")
        for number in range(20):
            it.put("deep%d" % number, "include deep%d\n" % (number + 1))
        os.mkfifo(os.path.join(it.folder, "pipe"))
        said = {
            "include a.lines": "b.lines:2: include: a.lines includes b.lines, which includes a.lines\n",
            "x\ninclude no": "standard input:2: include: there is no file no\n",
            "include /etc/passwd": "standard input:1: include: /etc/passwd is no path from the folder of this file\n",
            "include": "standard input:1: include: the name of a file is missing\n",
            "include .": "standard input:1: include: there is no file .\n",
            "include pipe": "standard input:1: include: there is no file pipe\n",
            "include many.lines": "many.lines:1000: include: files include others more than 16 deep, or 1000 times\n",
            "include deep0": "deep15:1: include: files include others more than 16 deep, or 1000 times\n",
        }
        why = first(unlike(it.call("tree", "-", given=text), 2, b"", "tree: " + what) for text, what in said.items())
        it.put("me.script", "include me.script")
        return why or unlike(it.call("tree", "me.script"), 2, b"", "me.script:1: include: me.script includes me.script\n")


MATRIX = """# two windows by two directions, and one more
picture = true
matrix = [["small", "large"], ["ltr", "rtl"]]

[small]
window = [40, 20]
[large]
window = [80, 20]
dpi = 320
[ltr]
[rtl]
direction = "rtl"
[night]
night = true
picture = false
"""
ROOT = "dpi 160\nadd root LinearLayout match match\nbg v1 #ff00ff00\nadd v1 View 10 10\nbg v2 #ffff0000\nframe\nbounds\n"


def tries_configurations() -> str:
    """What the configurations of a file make of a script: an answer and a picture each."""
    with place() as it:
        it.put("vindaesk.toml", MATRIX)
        it.put("a.script", "window 50 30\ninclude resources.lines\n" + ROOT)
        it.put("resources.lines", "res @7f010000 color #ffffffff\n")
        it.put("resources-night.lines", "res @7f010000 color #ff000000\nx\n")
        found = it.call("runall", ".", "--accept", "--jobs", "1")
        names = ["small-ltr", "small-rtl", "large-ltr", "large-rtl", "night"]
        accepted = "".join("accepted: ./a@%s\n" % name for name in names) + "5 passed, 0 failed\n"
        why = unlike(found, 0, accepted.encode(), "") or unlike(it.call("runall", "."), 0, b"5 passed, 0 failed\n", "")
        wanted = {
            "small-ltr": b"v2 0 0 10 10", "small-rtl": b"v2 30 0 40 10", "large-ltr": b"v2 0 0 10 10",
            "large-rtl": b"v2 150 0 160 10", "night": b"v1 0 0 50 30\nv2 0 0 10 10"}
        for name, line in wanted.items():
            answer = it.read("a@%s.answer" % name)
            why = why or ("" if line in answer else "%s: %r" % (name, answer))
        places = b"resources-night.lines line 2: refused 31 Syntax\n"
        why = why or ("" if it.read("a@night.answer").startswith(places) else "night: %r" % it.read("a@night.answer"))
        sizes = {name: png.parsed(it.read("a@%s.png" % name))[:2] for name in names[:4]}
        why = why or ("" if sizes == {"small-ltr": (40, 20), "small-rtl": (40, 20), "large-ltr": (160, 40),
                                      "large-rtl": (160, 40)} else "the pictures are %s" % sizes)
        lines = b"dpi 320\nwindow 160 40\nres @7f010000 color #ffffffff\ndpi 320\n"
        expanded = it.call("screenshot", "a.script", "--config", "large-rtl", "--expanded")[1]
        is_right = expanded.startswith(lines.split(b"\n", 1)[1]) or expanded.startswith(lines)
        why = why or ("" if is_right and b"match match\ndirection v1 rtl\n" in expanded else "%r" % expanded)
        why = why or ("" if not os.path.exists(os.path.join(it.folder, "a@night.png")) else "a picture is not asked for")
        os.unlink(os.path.join(it.folder, "a@small-rtl.png"))
        said = b"failed: ./a@small-rtl\nit has no a@small-rtl.png; --accept writes one\n4 passed, 1 failed\n"
        return why or unlike(it.call("runall", "."), 1, said, "")


def draws_configurations() -> str:
    """screenshot, page and tree in configurations."""
    with place() as it:
        it.put("a.toml", MATRIX)
        it.put("a.script", ROOT)
        it.put("resources-night.lines", "")
        calls = (("screenshot", "a.script", "x.png", "--config", "small-ltr,large-rtl"),
                 ("screenshot", "a.script", "y.png", "--config", "small-rtl"),
                 ("page", "a.script", "z.html", "--config", "small-rtl,small-ltr"))
        why = first(unlike(it.call(*words), 0, b"", "") for words in calls)
        made = {"x@small-ltr.png", "x@large-rtl.png", "y.png", "z@small-rtl.html", "z@small-ltr.html"}
        found = set(it.names()) - {"a.toml", "a.script", "resources-night.lines"}
        why = why or ("" if found == made else "files: %s" % found)
        tree = b"v1 LinearLayout 0 0 160 40 bg #ff00ff00\n  v2 View 150 0 160 10 bg #ffff0000\n"
        why = why or unlike(it.call("tree", "a.script", "--config", "large-rtl"), 0, tree, "")
        said = "--config takes one name here; a.script has small-ltr, small-rtl, large-ltr, large-rtl, night\n"
        why = why or unlike(it.call("tree", "a.script", "--config", "all"), 2, b"", said)
        said = "a.toml has no configuration 'small'; did you mean"
        why = why or unlike(it.call("tree", "a.script", "--config", "small"), 2, b"", said)
        it.put("b.script", RED)
        return why or unlike(it.call("tree", "b.script", "--config", "x"), 2, b"",
                             "b.script has no configurations: there is no b.toml beside it, and no vindaesk.toml\n")


def wrong_configurations() -> str:
    said = {
        "": "a.toml: it has no configuration, as [landscape] with window = [640, 360]\n",
        "[a]\nwindwo = [1, 2]": "a.toml:2: there is no key 'windwo'; did you mean 'window'?\n",
        "[a]\nwindow = [1]": "a.toml:2: window is width and height in dp, as [360, 640]\n",
        "[a]\nwindow = [0, 2]": "a.toml:2: window is width and height in dp",
        "[a]\nwindow = [true, 2]": "a.toml:2: window is width and height in dp",
        "[a]\ndpi = 39": "a.toml:2: dpi is a number from 40 to 1000\n",
        "[a]\ndirection = 'up'": 'a.toml:2: direction is "ltr" or "rtl"\n',
        "[a]\nnight = 1": "a.toml:2: night is true or false\n",
        "[a]\nlocale = 'd/e'": "a.toml:2: locale is a part of a file's name",
        "[a]\nvalues = []": "a.toml:2: values is a file",
        "[a]\nvalues = 'no.lines'": "a.toml:1: a: there is no file no.lines\n",
        "[a]\nnight = true": "a.toml:1: a: locale and night choose files of values, and there is no resources-night.lines\n",
        "[a]\nwindow = [4000, 9]\ndpi = 320": "a.toml:1: a: a window of 8000 by 18 pixels, at 320 dots an inch, is larger than 4096\n",
        "['a b']": "a.toml:1: 'a b' is no name: up to 64 letters",
        "matrix = [['a']]\n[b]": "a.toml:1: matrix: there is no table [a]\n",
        "matrix = 3\n[b]": "a.toml:1: matrix is an array of arrays of names",
        "matrix = [['a'], ['a']]\n[a]": "a.toml:1: matrix: 'a' is there twice\n",
        "matrix = [['a'], ['b']]\n[a]\ndpi = 160\n[b]\ndpi = 320": "a.toml:4: [a] and [b] both set dpi\n",
        "matrix = [['a'], ['b']]\n[a]\n[b]\n[a-b]": "a.toml:2: a-b: there are two of this name\n",
        "[a": "a.toml:1:3: ']' is expected\n",
    }
    with place() as it:
        it.put("a.script", "add root View 1 1\nframe\n")
        for text, what in said.items():
            it.put("a.toml", text)
            found = it.call("screenshot", "a.script", "a.png", "--config", "all")
            why = unlike(found, 2, b"", what)
            if why:
                return "%r: %s" % (text, why)
        return "" if it.names() == ["a.script", "a.toml"] else "files: %s" % it.names()


CARD = """window 60 40
add root FrameLayout match match
bg v1 #ffeceff1
add v1 TextView wrap wrap
id v2 @id/reply
text v2 %s
frame
bounds
"""


def put_cards(it: Place) -> None:
    """Three cases, of which two fail: one by its picture, one by both; and one that has no answer yet."""
    it.put("ids.txt", IDS)
    it.put("vindaesk.toml", "picture = true\n[small]\nwindow = [60, 40]\n[large]\nwindow = [80, 40]\n")
    for name in ("a", "b"):
        it.put(name + ".script", CARD % "Reply")
    it.call("runall", ".", "--accept")
    it.put("a.script", CARD % "Answer")
    it.put("b.toml", "picture = true\n[small]\nwindow = [60, 40]\n[large]\nwindow = [80, 40]\n[new]\ndpi = 160\n")
    it.put("b.script", CARD.replace("frame", "size v2 30 16\nframe") % "Reply")


def last_line(found: Ended) -> str:
    """The last line that a tool wrote."""
    return found[1].decode().rstrip("\n").split("\n")[-1]


def leaves_a_report() -> str:
    with place() as it:
        put_cards(it)
        found = it.call("runall", ".", "--report", "out", "--junit", "j.xml")
        why = unlike(found, 1, None, "out/index.html shows what failed\n")
        why = why or ("" if last_line(found) == "0 passed, 5 failed" else last_line(found))
        made = sorted(os.listdir(os.path.join(it.folder, "out")))
        wanted = ["a@large", "a@small"]
        names = [name + "." + kind + ".png" for name in wanted for kind in ("difference", "found", "wanted")]
        # only the answer is another one
        names += ["b@large.found.png", "b@large.wanted.png", "b@new.found.png", "b@small.found.png", "b@small.wanted.png"]
        names += ["failures.json", "index.html"]
        why = why or ("" if made == names else "files: %s" % made)
        rows = json.loads(it.read("out/failures.json"))
        regions = [row["regions"] for row in rows if row["name"] == "./a@small"][0]
        view = 'v2 TextView @id/reply "Answer"'
        why = why or ("" if regions and all(it["view"] == view for it in regions) else "regions: %s" % regions)
        junit = it.read("j.xml").decode()
        link = "[[ATTACHMENT|%s]]" % os.path.join(it.folder, "out/a@small.found.png")
        why = why or ("" if "out/index.html#a@small\n" in junit and link in junit else "JUnit has no link: %s" % junit)
        page = it.read("out/index.html").decode()
        why = why or ("" if page.count("data:image/png;base64,") == 11 else "the page has not all pictures")
        why = why or ("" if "runall . --accept ./a@small" in page else "the page does not show how to accept")
        it.call("runall", ".", "--accept")
        why = why or unlike(it.call("runall", ".", "--report", "out"), 0, b"5 passed, 0 failed\n", "")
        made = sorted(os.listdir(os.path.join(it.folder, "out")))
        why = why or ("" if made == ["failures.json", "index.html"] else "left of before: %s" % made)
        it.put("x.png", "")
        return why or unlike(it.call("runall", ".", "--report", "."), 2, b"", ". has files that are of no report\n")


def accepts_some() -> str:
    with place() as it:
        put_cards(it)
        calls = [
            (("--accept-new",), "1 passed, 4 failed"), (("--accept", "a@small"), "1 passed, 0 failed"),
            (("--accept", "./b@la*", "b@small"), "2 passed, 0 failed"), ((), "4 passed, 1 failed"),
            (("--failed",), "0 passed, 1 failed"), (("--accept", "--failed"), "1 passed, 0 failed"),
            (("--failed",), "0 passed, 0 failed"), ((), "5 passed, 0 failed"),
        ]
        home = {"XDG_CACHE_HOME": os.path.join(it.folder, "cache")}
        for words, wanted in calls:
            found = it.call("runall", ".", *words, **home)
            if last_line(found) != wanted:
                return "%s: it writes %r%s" % (words, found[1], found[2])
        it.put("a.script", CARD % "Other")
        why = unlike(it.call("runall", "--accept", ".", **home), 0, None, "")
        why = why or unlike(it.call("runall", ".", "--accept", "b@sml"), 2, b"", "no case is named 'b@sml'; did you mean 'b@small'?\n")
        listed = b"./a@large\n./b@large\n"
        why = why or unlike(it.call("runall", ".", "-k", "LARGE", "--list"), 0, listed, "")
        why = why or unlike(it.call("runall", ".", "-k", "x", "--list"), 2, b"", "no name of 5 cases has x\n")
        it.put("b@old.png", "")
        why = why or unlike(it.call("runall", ".", "--list"), 0, None, "b@old.png is of no configuration of its script\n")
        return why or unlike(it.call("runall"), 2, b"", "the following arguments are required: DIR")


def takes_configurations_of_the_call() -> str:
    with place() as it:
        it.put("a.script", ROOT)
        it.put("x.lines", "")
        words = ("--window", "40x20,80x20", "--dpi", "160", "--direction", "rtl", "--values", "x.lines", "--picture")
        names = ["a@40x20-160dpi-rtl-x", "a@80x20-160dpi-rtl-x"]
        accepted = "".join("accepted: ./%s\n" % name for name in names) + "2 passed, 0 failed\n"
        why = unlike(it.call("runall", ".", *words, "--accept", "--jobs", "1"), 0, accepted.encode(), "")
        why = why or ("" if b"v2 70 0 80 10" in it.read(names[1] + ".answer") else "another answer")
        said = {("--window", "9"): "'9' is no size in dp, as 360x640", ("--direction", "up"): "'up' is not ltr or rtl",
                ("--picture",): "--picture needs one of --window", ("--dpi", "9"): "'9' is no number from 40 to 1000"}
        return why or first(unlike(it.call("runall", ".", *more), 2, b"", what) for more, what in said.items())


def keeps_the_sum() -> str:
    """Places that cannot be written are known before the run, and pipes are no scripts."""
    with place() as it:
        it.put("a.script", RED)
        it.put("a.answer", "v1\nsettled 0\n")
        wrong = {("--junit", "no/x.xml"): "no/x.xml cannot be written: No such file", ("--junit", "-"): "--junit takes a file",
                ("--junit", "."): ". cannot be written: it is no file", ("--report", "a.script"): "a.script cannot be made: File exists"}
        why = first(unlike(it.call("runall", ".", *words), 2, b"", what) for words, what in wrong.items())
        os.mkfifo(os.path.join(it.folder, "b.script"))
        it.put("b.answer", "x")
        started = it.start("tools/runall", ".")
        out, said = started.communicate(timeout=20)
        wanted = b"failed: ./b.script\n./b.script is no file\n1 passed, 1 failed\n"
        why = why or ("" if (out, said, started.returncode) == (wanted, b"", 1) else "%r" % out)
        os.unlink(os.path.join(it.folder, "a.answer"))
        os.mkfifo(os.path.join(it.folder, "a.answer"))
        started = it.start("tools/runall", "a.script")
        out, _ = started.communicate(timeout=20)
        return why or ("" if b"a.answer is no file\n0 passed, 1 failed\n" in out else "%r" % out)


def finds_regions() -> str:
    with place() as it:
        it.put("ids.txt", IDS)
        it.put("a.script", CARD % "Reply")
        it.call("screenshot", "a.script", "a.png")
        changed = (CARD % "Reply").replace("frame", "add v1 View 4 4\nmargins v3 40 30 0 0\nbg v3 #ff0000ff\nbg v2 #ffffffff\nframe")
        it.put("b.script", changed)
        it.call("screenshot", "b.script", "b.png")
        before, after = (png.parsed(it.read(name)).rows for name in ("a.png", "b.png"))
        text = sum(before[y][3 * x : 3 * x + 3] != after[y][3 * x : 3 * x + 3] for y in range(8) for x in range(30))
        plain = [b"  0 0 30 8: %d pixels" % text, b"  40 30 44 34: 16 pixels"]
        views = [b' in v2 TextView @id/reply "Reply"', b" in v3 View"]
        found = it.call("picdiff", "a.png", "b.png")
        lines = found[1].split(b"\n")
        why = "" if lines[1:3] == plain and found[0] == 1 else "it writes %r" % found[1]
        found = it.call("picdiff", "a.png", "b.png", "--script", "b.script")
        lines = found[1].split(b"\n")
        why = why or ("" if lines[1:3] == [one + other for one, other in zip(plain, views)] else "it writes %r" % found[1])
        return why


def checks() -> Checks:
    yield from named("golden tests", (
        names_everywhere, counts_what_follows, escapes_texts, unknown_names, keeps_names, includes_files, refuses_includes, tries_configurations,
        draws_configurations, wrong_configurations, leaves_a_report, accepts_some, takes_configurations_of_the_call,
        keeps_the_sum, finds_regions
    ))
