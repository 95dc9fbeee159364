"""The forms of lines, and where a line does not fit them.

FORMS has the forms of the table of docs/SCRIPT.md, word for word, and what may be in the place of each word in
capitals. ci/grammar.py compares it with that page, and with what the program refuses: so that no tool has an opinion of
its own about which lines are refused.
"""
import difflib
import functools
import re
from typing import Iterator, List, NamedTuple, Optional, Sequence, Tuple

from . import sentences

# regular expressions of whole words; JavaScript reads them too, for docs/play
NUMBER = "0|-?[1-9][0-9]{0,9}"
ID = "@[0-9A-Fa-f]{1,8}"
VIEW = "v(?:0|[1-9][0-9]{0,9})|" + ID
COLOUR = "#[0-9A-Fa-f]{8}"
NAME = "[A-Za-z0-9_-][A-Za-z0-9_.-]{0,63}"
HEX = "(?:[0-9A-Fa-f]{2})+"
TEXT = r"(?:[^\\]|\\n|\\\\)*"
WORD = re.compile(r"[^ ]+")
MAX_EDITS = 8


class Kind(NamedTuple):
    """What may be in the place of a word of a form.

    `says` is that in words, and `choices` are the words that it may be, where these can be listed. A word that does not
    fit `form` has no form, and one that is not within has a number outside its bounds. A kind may be all the rest of a
    line, or one or more words. `culprit` finds the part of a word by which it does not fit, where that is not all of it.
    """

    says: str
    form: str
    choices: Tuple[str, ...] = ()
    bounds: Optional[Tuple[int, int]] = None
    is_rest: bool = False
    is_many: bool = False
    culprit: str = ""

    def fits(self, word: str) -> bool:
        """Whether a word has the form."""
        return matches(self.form, word)

    def is_within(self, word: str) -> bool:
        """Whether a number, or an id, is within the bounds; another word is."""
        number = int(word[1:], 16) if matches(ID, word) else int(word) if matches(NUMBER, word) else None
        return self.bounds is None or number is None or self.bounds[0] <= number <= self.bounds[1]

    def culprit_of(self, word: str) -> str:
        """The part of a word by which it does not fit."""
        found = re.match(self.culprit, word, re.DOTALL) if self.culprit else None
        return found[1] if found else word


def matches(form: str, word: str) -> bool:
    """Whether a whole word has a form."""
    return bool(re.fullmatch(form, word, re.DOTALL))


def number(least: int, most: int, what: str = "a number") -> Kind:
    """A whole number between two bounds."""
    return Kind("%s, %d..%d" % (what, least, most), NUMBER, bounds=(least, most))


def listed(words: Sequence[str]) -> str:
    """Words as a sentence lists them."""
    return " or ".join(filter(None, [", ".join(words[:-1]), words[-1]]))


def choice(text: str) -> Kind:
    """One of some words."""
    words = tuple(text.split(" "))
    return Kind(listed(words), "|".join(words), words)


def joined_gravities() -> str:
    """The form of `none`, or of words joined by `|`, at most one for each axis."""
    both, x, y = ("(?:%s)" % "|".join(it for it, axes in GRAVITIES.items() if axes == of) for of in ("xy", "x", "y"))
    return r"none|%s|%s(?:\|%s)?|%s(?:\|%s)?" % (both, x, y, y, x)


# the axes for which a word of a gravity counts
GRAVITIES = {
    "left": "x", "right": "x", "start": "x", "end": "x", "center_horizontal": "x", "top": "y", "bottom": "y",
    "center_vertical": "y", "center": "xy",
}
TOUCHES = ("none", "down", "up", "move", "cancel", "pdown", "pup")
CLASSES = "View TextView FrameLayout LinearLayout RelativeLayout ScrollView"
SIBLINGS = ("left_of right_of above below align_left align_top align_right align_bottom start_of end_of align_start "
            "align_end")
PARENTS = "parent_left parent_top parent_right parent_bottom parent_start parent_end center center_h center_v"

# the first part of a word that is no gravity, and the first backslash of a text that begins no escape, with what follows
UNKNOWN_GRAVITY = r"(?:(?:{0})\|)*?(?!(?:{0})(?:\||$))([^|]*)".format("|".join(GRAVITIES))
UNKNOWN_ESCAPE = TEXT + "(.{0,2})"

LENGTH = 16777215
view = Kind("a view, as v3, or @7f050001 by its id", VIEW)
an_id = Kind("an id, as @7f050001", ID)
an_id_of_a_resource = Kind("an id, as @7f050001, and not @0", ID, bounds=(1, 0xFFFFFFFF))
colour = Kind("a colour, alpha first, as #ff0080ff", COLOUR)
file_name = Kind("a file of the script's folder, 1 to 64 letters, digits, _, - and ., the first not a dot", NAME)
text = Kind("a text, in which \\n is a line feed, \\\\ a backslash, and nothing else follows a backslash", TEXT,
            is_rest=True, culprit=UNKNOWN_ESCAPE)
bytes_of_state = Kind("an even number of hexadecimal digits", HEX)
dimension = Kind("match, wrap or a number of pixels, 0..%d" % LENGTH, "match|wrap|" + NUMBER, ("match", "wrap"), (0, LENGTH))
gravity = Kind("none, or one word for each axis, joined by |: %s" % listed(list(GRAVITIES)), joined_gravities(),
               ("none", *GRAVITIES), culprit=UNKNOWN_GRAVITY)
yes_no = choice("yes no")
pixels = number(0, LENGTH, "a number of pixels")
length = number(0, 1048575, "a number of pixels")
margin = number(-1048575, 1048575, "a number of pixels")
place = number(-1048576, 1048576, "a number of pixels")
window_side = number(1, 4096, "a number of pixels")
whole = Kind("a number, 0 or more, and with K at most 65535", NUMBER, bounds=(0, 65535))
part = number(0, 255)
pointer = number(0, 31)
touches = Kind("none, or one or more of down, up, move, cancel, pdown and pup", "|".join(TOUCHES), TOUCHES, is_many=True)
edits = Kind("an edit: a line size, min, margins, padding, weight, gravity or bg", ".*", is_rest=True)


class Slot(NamedTuple):
    """A word of a form: its name there, and what may be in its place."""

    name: str
    kind: Kind


class Form:
    """A form of a line: its words as docs/SCRIPT.md has them. A word in small letters means itself."""

    def __init__(self, words: str, **kinds: Kind):
        self.words = words
        named = words.split(" ; ")[0].split(" ")
        self.slots = [
            Slot(word, kinds[word.lstrip("@")] if word.lstrip("@") in kinds else choice(word)) for word in named
        ]


FORMS = [
    Form("window W H", W=window_side, H=window_side),
    Form("dpi N", N=number(40, 1000)),
    Form("res @HEX color C", HEX=an_id_of_a_resource, C=colour),
    Form("res @HEX dimen N U", HEX=an_id_of_a_resource, N=number(-8388607, 8388607), U=choice("px dp sp pt in mm")),
    Form("res @HEX text T", HEX=an_id_of_a_resource, T=text),
    Form("inflate NAME", NAME=file_name),
    Form("inflate NAME into V", NAME=file_name, V=view),
    Form("add root C W H", C=choice(CLASSES), W=dimension, H=dimension),
    Form("add V C W H", V=view, C=choice(CLASSES), W=dimension, H=dimension),
    Form("remove V", V=view),
    Form("size V W H", V=view, W=dimension, H=dimension),
    Form("min V W H", V=view, W=pixels, H=pixels),
    Form("margins V L T R B", V=view, L=margin, T=margin, R=margin, B=margin),
    Form("padding V L T R B", V=view, L=length, T=length, R=length, B=length),
    Form("gravity V self G", V=view, G=gravity),
    Form("gravity V kids G", V=view, G=gravity),
    Form("orient V W", V=view, W=choice("horizontal vertical")),
    Form("direction V D", V=view, D=choice("ltr rtl inherit")),
    Form("weight V N", V=view, N=whole),
    Form("weight V N K", V=view, N=whole, K=part),
    Form("weightsum V N", V=view, N=whole),
    Form("weightsum V N K", V=view, N=whole, K=part),
    Form("text V T", V=view, T=text),
    Form("bg V C", V=view, C=colour),
    Form("ink V C", V=view, C=colour),
    Form("flag V clip B", V=view, B=yes_no),
    Form("rule V VERB X", V=view, VERB=choice(SIBLINGS), X=an_id),
    Form("rule V VERB X", V=view, VERB=choice(PARENTS), X=yes_no),
    Form("flag V fill B", V=view, B=yes_no),
    Form("scroll V Y", V=view, Y=pixels),
    Form("visible V S", V=view, S=choice("visible invisible gone")),
    Form("id V @HEX", V=view, HEX=an_id),
    Form("answer V A", V=view, A=choice("off yes click")),
    Form("intercept V L", V=view, L=touches),
    Form("disallow V B", V=view, B=yes_no),
    Form("flag V split B", V=view, B=yes_no),
    Form("down P X Y", P=pointer, X=place, Y=place),
    Form("move P X Y", P=pointer, X=place, Y=place),
    Form("up P", P=pointer),
    Form("cancel"),
    Form("frame"),
    Form("bounds"),
    Form("bounds V", V=view),
    Form("pixels X Y W H", X=number(0, 4095), Y=number(0, 4095), W=window_side, H=window_side),
    Form("digest"),
    Form("hook V E", V=view, E=edits),
    Form("hook V E ; E ..", V=view, E=edits),
    Form("save"),
    Form("restore"),
    Form("restore HEX", HEX=bytes_of_state),
]
FIRST_WORDS = tuple(dict.fromkeys(form.slots[0].name for form in FORMS))
EDIT_WORDS = ("size", "min", "margins", "padding", "weight", "gravity", "bg")


class Word(NamedTuple):
    """A word of a line: its column, counted from 1, and the word of the form, where that is known."""

    column: int
    text: str
    slot: Optional[Slot] = None


class Misfit(NamedTuple):
    """Where a line does not fit, and why."""

    column: int
    why: str


class Reading(NamedTuple):
    """The words of a line up to where they stop to fit a form, and where that is; nothing there if all fit."""

    words: List[Word]
    misfit: Optional[Misfit]


@functools.lru_cache(1024)
def guess(word: str, choices: Tuple[str, ...]) -> str:
    """What was meant, as the end of a sentence, where something is near: of two that differ by capitals alone the one
    that begins as the word does."""
    folded = {it.lower(): it for it in sorted(choices, key=lambda it: (it[:1] == word[:1], it)) if it != word}
    near = difflib.get_close_matches(word.lower(), folded, 1, 0.7)
    return sentences.GUESS % folded[near[0]] if near else ""


def expected(slots: Sequence[Slot]) -> str:
    """What may be at a place, by the words that some forms have there."""
    fixed = [slot.name for slot in slots if slot.kind.choices == (slot.name,)]
    others = [sentences.MEANS % (slot.name, slot.kind.says) for slot in slots if slot.name not in fixed]
    words = [sentences.EXPECTED % listed(["'%s'" % it for it in dict.fromkeys(fixed)])] if fixed else []
    return ", or ".join([*words, *dict.fromkeys(others)])


def shown(word: str) -> str:
    """A word as a message shows it."""
    plain = "".join(it if it.isprintable() else it.encode("unicode_escape").decode() for it in word[:64])
    return plain + (" .." if len(word) > 64 else "")


def is_tabbed(word: str) -> str:
    """What is to be said of a word that has a tab in it."""
    return sentences.TAB if "\t" in word else ""


def wrong(word: Word, slots: Sequence[Slot]) -> Misfit:
    """A word that may not be where it is."""
    if not slots:
        note = sentences.COMMENT if word.text.startswith("#") else is_tabbed(word.text)
        return Misfit(word.column, sentences.TOO_MANY % (shown(word.text), note))
    part = slots[0].kind.culprit_of(word.text)
    column = word.column + max(word.text.find(part), 0)
    note = is_tabbed(part) or guess(part, tuple(it for slot in slots for it in slot.kind.choices))
    return Misfit(column, sentences.MISFIT % (shown(part), note or ": " + expected(slots)))


def words_from(line: str, at: int = 0) -> Iterator[Word]:
    """The words of a line from a place on."""
    for found in WORD.finditer(line, at):
        yield Word(found.start() + 1, found[0])


def rest_of(line: str, words: List[Word], place: int) -> Optional[Word]:
    """All that follows the one space after the word before a place; nothing where that space is missing."""
    before = words[place - 1]
    end = before.column - 1 + len(before.text)
    return Word(end + 2, line[end + 1 :]) if end < len(line) else None


class Trial(NamedTuple):
    """How far a line fits a form: its words with their slots; and where it does not fit, the word there or nothing
    where one is missing, and the slot there or nothing where the form has ended."""

    words: List[Word]
    is_whole: bool
    word: Optional[Word]
    slot: Optional[Slot]


def tried(line: str, words: List[Word], form: Form) -> Trial:
    """How far a line fits a form."""
    read: List[Word] = []
    for place, slot in enumerate(form.slots):
        word = words[place] if place < len(words) else None
        if slot.kind.is_rest:
            word = rest_of(line, words, place)
            if word is None or not slot.kind.fits(word.text):
                return Trial(read, False, word, slot)
            return Trial([*read, word._replace(slot=slot)], True, word, slot)
        if word is None or not slot.kind.fits(word.text):
            return Trial(read, False, word, slot)
        read.append(word._replace(slot=slot))
    while len(read) < len(words) and slot.kind.is_many:
        word = words[len(read)]
        # `none` is for itself
        if not slot.kind.fits(word.text) or "none" in (word.text, read[-1].text):
            return Trial(read, False, word, slot if read[-1].text != "none" else None)
        read.append(word._replace(slot=slot))
    return Trial(read, len(read) == len(words), words[len(read)] if len(read) < len(words) else None, None)


def read_by(line: str, words: List[Word], forms: Sequence[Form]) -> Reading:
    """A line by the form among some that it fits, or that it fits longest."""
    trials = [tried(line, words, form) for form in forms]
    whole = next((it for it in trials if it.is_whole), None)
    if whole:
        return Reading(whole.words, None)
    most = max(len(it.words) for it in trials)
    best = [it for it in trials if len(it.words) == most]
    slots = [it.slot for it in best if it.slot]
    word = best[0].word
    if word is None:
        return Reading(best[0].words, Misfit(len(line) + 1, sentences.MISSING % expected(slots)))
    return Reading(best[0].words, wrong(word, slots))


def forms_of(word: str) -> List[Form]:
    """The forms that begin with a word."""
    return [form for form in FORMS if form.slots[0].name == word]


def read_hook(line: str, before: Reading) -> Reading:
    """A line `hook`, of which all up to its edits was read: each edit by its own form."""
    *words, rest = before.words
    given = list(words_from(line, rest.column - 1))
    found: List[Word] = []
    ends = [place for place, word in enumerate(given) if word.text == ";"] + [len(given)]
    begun = 0
    for count, end in enumerate(ends):
        edit = given[begun:end]
        if not edit:
            column = given[end].column if end < len(given) else len(line) + 1
            return Reading(words + found, Misfit(column, sentences.NO_EDIT))
        if edit[0].text not in FIRST_WORDS:
            return Reading(words + found, wrong(edit[0], [Slot("E", edits_by_word)]))
        if edit[0].text in EDIT_WORDS and count < MAX_EDITS:
            until = line[: given[end].column - 2] if end < len(given) else line
            reading = read_by(until.rstrip(" "), edit, forms_of(edit[0].text))
            found += reading.words
            if reading.misfit:
                return Reading(words + found, reading.misfit)
        begun = end + 1
    return Reading(words + found, None)


edits_by_word = Kind(edits.says, "|".join(FIRST_WORDS), EDIT_WORDS)


def read(line: str) -> Reading:
    """A line less its line feed and a carriage return before that; one without words fits nothing."""
    words = list(words_from(line))
    if not words:
        return Reading([], None)
    forms = forms_of(words[0].text)
    if not forms:
        first = words[0]
        why = sentences.NO_LINE % shown(first.text)
        return Reading([], Misfit(first.column, why + (is_tabbed(first.text) or guess(first.text, FIRST_WORDS))))
    reading = read_by(line, words, forms)
    return read_hook(line, reading) if words[0].text == "hook" and not reading.misfit else reading


def no_edit(line: str) -> Optional[Word]:
    """The first word of the first edit of a line `hook` that is none, or the ninth."""
    given = list(words_from(line))[2:]
    firsts = [word for before, word in zip([Word(0, ";"), *given], given) if before.text == ";"]
    return next((it for place, it in enumerate(firsts) if it.text not in EDIT_WORDS or place >= MAX_EDITS), None)


def out_of_bounds(reading: Reading) -> Optional[Misfit]:
    """The first word of a line that is outside its bounds, where it is so by itself."""
    for word in reading.words:
        if word.slot and not word.slot.kind.is_within(word.text):
            why = sentences.OUT_OF_BOUNDS % (word.text, word.slot.name, word.slot.kind.says)
            return Misfit(word.column, why)
    return None


def bounds_in(kind: Kind) -> List[str]:
    """The bounds of a kind, as a page writes them."""
    return re.findall(r"-?\d+\.\.\d+", kind.says)
