"""The refusals of lines and of files: their names, as docs/SCRIPT.md and docs/FORMATS.md have them, what each means,
and which word of a line it is about. ci/grammar.py compares numbers and names with these pages."""
from typing import Dict, NamedTuple, Sequence, Tuple

from . import sentences


class Refusal(NamedTuple):
    """A refusal: its name, the words of a line's form of which the first that is there is meant, and what it means."""

    name: str
    about: Tuple[str, ...]
    why: str


VIEW, FILE = ("V", "NAME"), ("NAME",)

REFUSALS: Dict[int, Refusal] = {
    1: Refusal("Truncated", FILE, "the file or a part of it is cut short"),
    2: Refusal("BadChunk", FILE, "the sizes of a part of the file contradict each other"),
    3: Refusal("BadPool", FILE, "the sizes of the file's string pool contradict each other"),
    4: Refusal("BadString", FILE, "a string of the file is broken"),
    5: Refusal("NotXml", FILE, "this is no compiled layout"),
    6: Refusal("BadRef", FILE, "the file names a string that it has not"),
    7: Refusal("Unbalanced", FILE, "an element of the file is not ended, or another one is"),
    8: Refusal("NoElement", FILE, "the file has no element"),
    9: Refusal("TwoRoots", FILE, "an element of the file begins after the outermost one"),
    10: Refusal("SecondPool", FILE, "the file has a second string pool"),
    11: Refusal("TooBig", FILE, "the file has too many strings, elements or attributes"),
    12: Refusal("Unresolved", FILE, "this resource has no value; a line res gives it one"),
    13: Refusal("ThemeRef", FILE, "this is a value of a theme, and there are no themes"),
    14: Refusal("BadValue", FILE, "the attribute cannot have this value"),
    15: Refusal("Full", ("@HEX",), "4096 other resources have a value"),
    16: Refusal("Duplicate", FILE, "the element has two attributes of this name"),
    17: Refusal("NoSize", FILE, "the element has no width or no height"),
    18: Refusal("Cycle", ("NAME", "X", "@HEX"), "children would name one another in a circle"),
    19: Refusal("Views", VIEW, "the tree would have more than 4096 views"),
    20: Refusal("Depth", VIEW, "a view would be 33 deep"),
    21: Refusal("NotGroup", VIEW, "the view around it has no children"),
    22: Refusal("ScrollFull", VIEW, "the ScrollView around it has a child already"),
    23: Refusal("UnknownClass", FILE, "no class has this name"),
    24: Refusal("Hooks", VIEW, "32 hooks are armed, and none of them is of this view"),
    25: Refusal("HookEdit", ("E",), "a hook has no such edit"),
    26: Refusal("BadState", ("HEX",), "the saved state is cut short or wrong"),
    27: Refusal("StateClass", ("HEX",), "a view has the id of an entry of the saved state, and no view that suits the entry has it"),
    28: Refusal("NoView", VIEW, "no view has this number or id"),
    29: Refusal("WrongClass", VIEW, "the view is of a class that has no such thing"),
    30: Refusal("Range", (), "a number is out of its bounds"),
    31: Refusal("Syntax", (), "the line matches no command"),
    32: Refusal("LongLine", (), "the line has more than 1024 bytes"),
    33: Refusal("NoWindow", (), "no window is open yet"),
    34: Refusal("NoRoot", (), "the tree has no root"),
    35: Refusal("HasRoot", ("root", "NAME"), "the tree has a root already"),
    36: Refusal("Unsettled", (), "the last frame has not settled"),
    37: Refusal("NoFrame", (), "no frame came since the window was opened"),
    38: Refusal("Pointer", ("P",), "no such pointer is down, or it is down already"),
    39: Refusal("Missing", FILE, "there is no file of this name"),
    40: Refusal("LongFile", FILE, "the file has more than 1048576 bytes"),
    41: Refusal("DpiLate", (), "the tree has a root already"),
}

# what a refusal means at lines that have these words, the first of which begins the line
AT_LINES: Dict[int, Dict[Tuple[str, ...], str]] = {
    29: {
        ("gravity", "kids"): "the view is no LinearLayout",
        ("hook",): "a view whose children an edit places is no LinearLayout",
        ("orient",): "the view is no LinearLayout",
        ("weightsum",): "the view is no LinearLayout",
        ("scroll",): "the view is no ScrollView",
        ("flag", "fill"): "the view is no ScrollView",
        ("text",): "the view is no TextView",
        ("ink",): "the view is no TextView",
        ("flag",): "the view has no children",
        ("intercept",): "the view has no children",
        ("disallow",): "the view has no children",
        ("answer",): "the view is a ScrollView",
    },
    30: {
        ("pixels",): "the part is not within the window, or has more than 65536 pixels",
        ("weight",): "N and K together are above 65535",
        ("weightsum",): "N and K together are above 65535",
        ("hook",): "N and K of a weight together are above 65535",
    },
    38: {
        ("down",): "the pointer is down already",
        ("move",): "the pointer is not down",
        ("up",): "the pointer is not down",
        ("cancel",): "no pointer is down",
    },
}


def why(number: int, words: Sequence[str]) -> str:
    """What a refusal means, at a line of these words."""
    for wanted, text in AT_LINES.get(number, {}).items():
        if wanted[0] == words[0] and set(wanted) <= set(words[:3]):
            return text
    return REFUSALS[number].why if number in REFUSALS else sentences.REFUSED
