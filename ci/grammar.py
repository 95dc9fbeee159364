"""The table of lines of tools/vindaesk/scripts/grammar.py: it has the forms of docs/SCRIPT.md with their words and
bounds, and finds no form, or a number outside its bounds, for exactly those lines that the program refuses for that.
And what tools/check says by it."""
import functools
import os
import random
import re
import tempfile
from typing import Dict, Iterator, List, Sequence, Tuple

from running import PROGRAM, TOP, Checks, named, run
from tools import place, unlike
from vindaesk.scripts import grammar, refusals

PAGE = os.path.join(TOP, "docs", "SCRIPT.md")
EXAMPLES = os.path.join(TOP, "examples")
# words of every kind, right and wrong
WORDS = (
    "0 1 -1 01 +1 -0 7 10 10dp 255 256 1000 1001 4095 4096 4097 65535 65536 1048575 1048576 1048577 8388608 16777215 "
    "16777216 -1048576 9999999999 -9999999999 12345678901 match wrap Match v1 v0 v01 v-1 v v12345678901 V1 @1 @0 @00 "
    "@7f050001 @123456789 @g @ #ff0000ff #FF0000Ff #ff00ff # left left|top left|right center|top none none|left top| "
    "|top start|bottom yes no Yes View view TextView ScrollView Button px dp dip a.xml .a a/b a-_.x é ; ;; ab abc AB "
    "down pdown up root into self kids clip fill split color dimen text horizontal vertical left_of center parent_left "
    "visible gone off click size min bg frame \\n \\\\ \\x a\\ a\tb a\rb"
).split(" ") + ["a" * 64, "a" * 65, "é" * 40]
COUNT = 40
# forms of which two numbers together have a bound too
JOINED = ("pixels", "weight", "weightsum")


def page_rows() -> Iterator[Tuple[List[str], str]]:
    """The forms of each row of the page's table, and its text."""
    with open(PAGE, encoding="utf-8") as file:
        text = file.read()
    table = text[text.index("|line|effect|reply|") :].split("\n\n")[0]
    for row in table.split("\n")[2:]:
        line, effect, _ = re.split(r"(?<!\\)\|", row.strip("|"), 2)
        yield re.findall(r"`([^`]+)`", line), effect.replace("\\|", "|")


def has_page_forms() -> str:
    wanted = [form for forms, _ in page_rows() for form in forms]
    found = list(dict.fromkeys(form.words for form in grammar.FORMS))
    return "" if found == wanted else "the page has %s, and the table %s" % (
        sorted(set(wanted) - set(found)), sorted(set(found) - set(wanted)))


def has_page_words() -> str:
    """The page has each word that may be in a place of a form in a row of forms that begin alike, and its bounds."""
    with open(PAGE, encoding="utf-8") as file:
        page = file.read()
    before = page[page.index("\n## Lines") : page.index("|line|effect|reply|")]
    whole = before + "".join(effect for _, effect in page_rows())
    texts: Dict[str, str] = {}
    for forms, effect in page_rows():
        word = forms[0].split(" ")[0]
        texts[word] = texts.get(word, before) + effect
    for form in grammar.FORMS:
        for slot in form.slots:
            words = [it for it in slot.kind.choices if it != slot.name]
            missing = [it for it in words if not re.search(r"\b%s\b" % it, texts[form.slots[0].name])]
            missing += [it for it in grammar.bounds_in(slot.kind) if it not in whole]
            if missing:
                return "the row '%s' has not %s" % (form.words, missing)
    return ""


@functools.lru_cache(None)
def fitting(slot: grammar.Slot) -> Sequence[str]:
    """The words that may be in a place."""
    return [it for it in WORDS if slot.kind.fits(it)] or WORDS


def sample(draw: random.Random, slot: grammar.Slot) -> str:
    """A word that may be in a place, or one that may not."""
    if slot.kind.choices and draw.random() < 0.7:
        return draw.choice(slot.kind.choices)
    return draw.choice(fitting(slot) if draw.random() < 0.9 else WORDS)


def lines(draw: random.Random) -> Iterator[str]:
    """Lines of each form, many of them with something wrong."""
    for form in grammar.FORMS * COUNT:
        words = [sample(draw, slot) for slot in form.slots]
        if form.slots[0].name == "hook":
            edits = [it for it in grammar.FORMS if it.slots[0].name in grammar.EDIT_WORDS]
            words.pop()
            for _ in range(draw.choice([1, 1, 2, 9])):
                words += [sample(draw, slot) for slot in draw.choice(edits).slots] + [";"]
            words.pop()
        change, at = draw.randrange(6), draw.randrange(len(words))
        if change == 0:
            words[at] = draw.choice(WORDS)
        elif change == 1:
            words.insert(at + 1, draw.choice(WORDS))
        elif change == 2 and len(words) > 1:
            del words[at]
        line = draw.choice([" ", " ", " ", "  "]).join(words)
        yield line if not line.startswith("#") else " " + line


def reads_as_the_program() -> str:
    draw = random.Random(20261128)
    made = list(lines(draw))
    with tempfile.TemporaryDirectory() as folder:
        written, _ = run([PROGRAM, "run"], "\n".join([*made, ""]).encode(), folder)
    refused = dict(re.findall(r"^line (\d+): refused (\d+)", written.decode("utf-8", "replace"), re.M))
    for number, line in enumerate(made, 1):
        reading, why = grammar.read(line), refused.get(str(number))
        is_out = grammar.out_of_bounds(reading) is not None
        is_joined = why == "30" and line.split(" ")[0] in JOINED
        found = "31" if reading.misfit else "30" if is_out or is_joined else why if why not in ("30", "31") else None
        if found != why:
            return "%r is refused by %s, and the table says %s" % (line, why, reading.misfit or ("no", is_out))
    counts = [sum(1 for it in refused.values() if it == number) for number in ("30", "31")]
    return "" if min(counts) > 100 else "too few lines are refused for what the table is about: %s" % counts


# what refuses a table of resources, and a line for a stack of windows
NO_LINES = {("42", "NotTable"), ("43", "NoPane")}


def has_page_refusals() -> str:
    """The refusals of both pages, less those that no line of `run` has."""
    named = set()
    for page in ("SCRIPT.md", "FORMATS.md"):
        with open(os.path.join(TOP, "docs", page), encoding="utf-8") as file:
            named |= set(re.findall(r"^\|(\d+)\|([A-Z]\w+)\|", file.read(), re.M))
    found = {(str(number), it.name) for number, it in refusals.REFUSALS.items()}
    return "" if found | NO_LINES == named else "they differ: %s" % sorted(found ^ named)


# each refused line begins with a question mark, and after | come its column and why it is refused; `>` goes on
LINES = r"""
?bounds|1: 33 NoWindow: no window is open yet
?windwo 9 9|1: 31 Syntax: no line begins with 'windwo'; did you mean 'window'?
window 100 50
?window 0 50|8: 30 Range: '0' is out of its bounds: W is a number of pixels, 1..4096
?frame|1: 34 NoRoot: the tree has no root
add root FrameLayout match match
?bounds|1: 37 NoFrame: no frame came since the window was opened
?dpi 240|1: 41 DpiLate: the tree has a root already
?add  root View 1 1|6: 35 HasRoot: the tree has a root already
?add v1 Viev 10 20|8: 31 Syntax: 'Viev' does not fit; did you mean 'View'?
?add v1 View 10dp 20|13: 31 Syntax: '10dp' does not fit: W is match, wrap or a number of pixels, 0..16777215
?add v1 View 10|15: 31 Syntax: a word is missing: H is match, wrap or a number of pixels, 0..16777215
?add v1 View 10 20 # small|19: 31 Syntax: '#' is one word too many; a comment is a line of its own
?add v7 View 10 20|5: 28 NoView: no view has this number or id
add v1 View 10 20
?add v2 View 1 1|5: 21 NotGroup: the view around it has no children
?frame#now|1: 31 Syntax: no line begins with 'frame#now'; did you mean 'frame'?
?frame	|1: 31 Syntax: no line begins with 'frame\t'; a tab is no space
?size é 1 1|6: 31 Syntax: 'é' does not fit: V is a view, as v3, or @7f050001 by its id
?gravity v2 slef left|12: 31 Syntax: 'slef' does not fit; did you mean 'self'?
?gravity v2 self left|rigth|22: 31 Syntax: 'rigth' does not fit; did you mean 'right'?
?gravity v1 kids left|9: 29 WrongClass: the view is no LinearLayout
?rule v2 parent_left @1|21: 31 Syntax: '@1' does not fit: X is yes or no
?text v2 a|6: 29 WrongClass: the view is no TextView
?intercept v1 none down|19: 31 Syntax: 'down' is one word too many
?weight v2 65535 1|1: 30 Range: N and K together are above 65535
?hook v1 size v2 1 1 ; size v2 1|32: 31 Syntax: a word is missing: H is match, wrap or a number of pixels, 0..16777215
?hook v1 size v2 1 1 ; text v2 a|23: 25 HookEdit: this may not be in a hook, or is a ninth edit
?hook v1 size v9 1 1|6: 28 NoView: a view of this line has a number or an id that there is not
?up 3|1: 37 NoFrame: no frame came since the window was opened
?inflate cut_shrt.xml into v1|9: 39 Missing: there is no file of this name; did you mean 'cut_short.xml'?
?inflate res/a.xml|9: 31 Syntax: 'res/a.xml' does not fit: 
>NAME is a file of the script's folder, 1 to 64 letters, digits, _, - and ., the first not a dot
frame
?up 3|4: 38 Pointer: the pointer is not down
?pixels 0 0 101 1|1: 30 Range: the part is not within the window, or has more than 65536 pixels
?restore 5653|13: 26 BadState: the saved state is cut short or wrong
?restore 563|9: 31 Syntax: '563' does not fit: HEX is an even number of hexadecimal digits
?in 0 |6: 31 Syntax: the line matches no command
""".replace("\n>", "").strip("\n").split("\n")


def places_of(lines: Sequence[str]) -> Tuple[str, str]:
    """The script of such lines, and what is written of it."""
    script, written = [], []
    for number, line in enumerate(lines, 1):
        text, _, said = line.rpartition("|") if line.startswith("?") else (line, "", "")
        script.append(text.lstrip("?"))
        if said:
            written.append("a.script:%d:%s" % (number, said))
    return "\n".join([*script, ""]), "\n".join([*written, ""])


def finds_refused_lines() -> str:
    script, written = places_of(LINES)
    with place() as it:
        for name in ("cut_short.xml", "a.xml"):
            it.copy(os.path.join(EXAMPLES, name))
        it.put("a.script", script)
        found = it.call("check", "a.script")
        wanted, lines = written.splitlines(), found[1].decode().splitlines()
        for had, has in zip(wanted, lines):
            if had != has:
                return "it writes '%s' in place of '%s'" % (has, had)
        why = unlike(found, 1, written.encode(), "")
        return why or unlike(it.call("check", "-", given="# one\n\n  \nwindow 1 1\r\n"), 0, b"", "")


LAYOUT = """<FrameLayout xmlns:android="http://schemas.android.com/apk/res/android"
    android:layout_width="match_parent" android:layout_height="match_parent">

    <%s android:layout_width="1px" %s
</FrameLayout>
"""
# an element of a layout, and why a script is refused that inflates it
ELEMENTS = (
    ("Buton", 'android:layout_height="1px" />', "23 UnknownClass: %s: Buton in line 4: no class has this name: there "
     "are View, TextView, FrameLayout, LinearLayout, RelativeLayout, ScrollView"),
    ("TxtView", 'android:layout_height="1px" />', "23 UnknownClass: %s: TxtView in line 4: no class has this name; did "
     "you mean 'TextView'?"),
    ("View", "/>", "17 NoSize: %s: View in line 4: the element has no android:layout_height"),
    ("View", 'android:layout_height="@7f010001" android:text="a" />', '12 Unresolved: %s: View in line 4: '
     'android:layout_height="@7f010001": this resource has no value; a line res gives it one'),
    ("View", 'android:layout_height="1px" android:background="?01010036" />', '13 ThemeRef: %s: View in line 4: '
     'android:background="?01010036": this is a value of a theme, and there are no themes'),
    ("View", 'android:layout_height="1px" android:background="@7f010002" />', '14 BadValue: %s: View in line 4: '
     'android:background="@7f010002": this resource is a dimension; here has to be a colour as #ff0080ff or a resource as '
     '@7f050001'),
    ("View", 'android:layout_height="-1px" android:background="@7f010002" />', '14 BadValue: %s: View in line 4: '
     'android:background="@7f010002": this resource is a dimension; here has to be a colour as #ff0080ff or a resource as '
     '@7f050001'),
    ("View", 'android:layout_height="1px"><View android:layout_width="1px" android:layout_height="1px" /></View>',
     "21 NotGroup: %s: View in line 4: the view around it has no children"),
)


def names_elements() -> str:
    with place() as it:
        for number, (kind, rest, said) in enumerate(ELEMENTS):
            name = "a%d.xml" % number
            why = unlike(it.call("axml", "-", name, given=LAYOUT % (kind, rest)), 0, b"", "")
            script = "window 9 9\nres @7f010002 dimen 1 px\nadd root FrameLayout 1 1\ninflate %s into v1\n" % name
            wanted = "-:4:9: %s\n" % (said % name)
            why = why or unlike(it.call("check", "-", given=script), 1, wanted.encode(), "")
            if why:
                return "%s %s: %s" % (kind, rest, why)
        it.put("a.xml", LAYOUT)
        said = "-:1:9: 5 NotXml: this is the source of a layout; %s compiles it\n" % os.path.join(TOP, "tools", "axml")
        return unlike(it.call("check", "-", given="inflate a.xml"), 1, said.encode(), "")


def writes_for_github() -> str:
    with place() as it:
        it.put("a,b%.script", "add root View 1 100%\n")
        wanted = (b"::error file=a%2Cb%25.script,line=1,col=17,title=31 Syntax::'100%25' does not fit: "
                  b"H is match, wrap or a number of pixels, 0..16777215\n")
        return unlike(it.call("check", "--format", "github", "./a,b%.script"), 1, wanted, "")


def finds_to_the_end() -> str:
    """What was found before the program ended, a long script, and bytes that are no text."""
    with place() as it:
        os.mkdir(os.path.join(it.folder, "folder"))
        found = it.call("check", "-", given="x\n" * 3000 + "inflate folder\nx\n")
        if found[1].count(b"\n") < 1024 or found[0] != 6:
            return "status %d, and it finds %d lines" % (found[0], found[1].count(b"\n"))
        it.put("a.script", "window 1 1\n" * 100000)
        why = unlike(it.call("check", "a.script"), 0, b"", "")
        it.put("b.script", bytes(range(1, 256)) + b"\nadd\xffroot\n")
        wanted = (b"b.script:1:1: 31 Syntax: no line begins with '\\x01\\x02\\x03\\x04\\x05\\x06\\x07\\x08\\t'; "
                  b"a tab is no space\n"
                  b"b.script:2:118: 31 Syntax: the byte 80 is no part of a text in UTF-8\n"
                  b"b.script:3:4: 31 Syntax: the byte ff is no part of a text in UTF-8\n")
        return why or unlike(it.call("check", "b.script"), 1, wanted, "")


def checks() -> Checks:
    yield from named("the forms of lines", (
        has_page_forms, has_page_words, has_page_refusals, reads_as_the_program, finds_refused_lines, names_elements,
        writes_for_github, finds_to_the_end
    ))
