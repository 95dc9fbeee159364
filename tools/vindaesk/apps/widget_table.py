"""The table of classes: by which class, which rule and which style each is mapped, and how exactly."""
import os
import re
from typing import Dict, List, NamedTuple, Optional

from ..common import files
from ..common.failures import NOT_RUN, Failure
from ..common.messages import printable

OWN = os.path.join(os.path.dirname(__file__), "widgets.txt")
SIX = ("View", "TextView", "FrameLayout", "LinearLayout", "RelativeLayout", "ScrollView")
EXACT = "exact"
CELLS = 5
MAX_TABLE = 1 << 20
# packages of which a class needs no package in the table, or in a layout
PACKAGES = ("android.", "androidx.", "com.google.android.material.", "com.android.internal.")
STYLE = re.compile(r"(android|app):\w+")
# what rules take after their names, as a pattern and in words; others take nothing
ARGUMENTS = {
    "box": (re.compile("[0-9]{1,4} +[0-9]{1,4}"), "a width and a height in dp, each 0 to 9999, as 'box 48 48'"),
    "linear": (re.compile("(vertical|horizontal)?"), "'vertical', 'horizontal' or nothing"),
    "text": (re.compile("(field|says .+)?"), "'field', 'says' with a text, or nothing"),
}


class Row(NamedTuple):
    """A row: the class as the table names it, the class that it becomes, the rule with its arguments, the attributes
    of a theme that have the style of the class, and why its bounds are not exact, or nothing."""

    name: str
    kind: str
    rule: str
    arguments: str
    styles: List[str]
    why: str


def check_arguments(rule: str, arguments: str, place: str) -> None:
    """Words that a rule does not take are a failure."""
    form, taken = ARGUMENTS.get(rule, (None, "no further words"))
    if (form.fullmatch(arguments) is None) if form else bool(arguments):
        had = ": '%s'" % printable(arguments) if arguments else ""
        raise Failure("%s: the rule '%s' takes %s%s" % (place, rule, taken, had), NOT_RUN)


def row_of(line: str, place: str, rules: List[str]) -> List[Row]:
    """The rows of a line, one for each class that it names."""
    cells = [it.strip() for it in line.split("|")]
    if len(cells) != CELLS or not all(cells):
        raise Failure("%s: a row has %d cells: classes | as | rule | style | bounds" % (place, CELLS), NOT_RUN)
    names, kind, whole, styles, bounds = cells
    rule, _, arguments = whole.partition(" ")
    if kind not in SIX:
        raise Failure("%s: '%s' is none of %s" % (place, kind, ", ".join(SIX)), NOT_RUN)
    if rule not in rules:
        raise Failure("%s: there is no rule '%s'; the rules are %s" % (place, rule, ", ".join(sorted(rules))), NOT_RUN)
    check_arguments(rule, arguments.strip(), place)
    wanted = [] if styles == "-" else [it.strip() for it in styles.split(",")]
    for it in wanted:
        if not STYLE.fullmatch(it):
            raise Failure("%s: '%s' is no attribute of a theme, as android:buttonStyle" % (place, it), NOT_RUN)
    why = "" if bounds == EXACT else bounds
    return [Row(it.strip(), kind, rule, arguments.strip(), wanted, why) for it in names.split(",")]


class Table:
    """The rows by the names of their classes."""

    def __init__(self, rules: List[str], paths: List[str]):
        self.rows: Dict[str, Row] = {}
        for path in [OWN, *paths]:
            text = files.read(path, MAX_TABLE).decode("utf-8", "replace")
            for number, line in enumerate(text.split("\n"), 1):
                if line.strip() and not line.lstrip().startswith("#"):
                    for row in row_of(line, "%s:%d" % (path, number), rules):
                        self.rows[row.name] = row

    def row(self, name: str) -> Optional[Row]:
        """The row of a class by its full name, or by its plain one if its package is one of Android's."""
        if name in self.rows:
            return self.rows[name]
        plain = name.rpartition(".")[2]
        is_known = "." not in name or name.startswith(PACKAGES)
        if not is_known:
            return None
        return self.rows.get(plain) or self.rows.get(plain.rpartition("$")[2])
