"""What is reported of a layout: of each element of its source which view it became, whether that is exact, and what
became of each of its attributes."""
from dataclasses import dataclass, field
from enum import Enum
from typing import Dict, FrozenSet, List, NamedTuple, Optional, Tuple

from ..resources.values import Value
from ..views.facts import Place
from .styles import Attributes


class Effect(Enum):
    """On what an attribute has an effect in Android. One on the size of a view's content is one on its bounds where
    it is as large as its content, and else one on the picture."""

    BOUNDS = "bounds"
    CONTENT = "content"
    TEXT = "text"
    PICTURE = "picture"
    TOUCH = "touch"
    NONE = "none"


class Fate(Enum):
    """What became of an attribute."""

    USED = "used"
    NO_EFFECT = "no effect"
    APPROXIMATED = "approximated"
    LEFT_OUT = "left out"


class Note(NamedTuple):
    """What is not exact of a view: the attribute, or nothing for the class; how; on what it has an effect; and why."""

    attribute: str
    fate: Fate
    effect: Effect
    reason: str


@dataclass
class Record:
    """The row of an element: its name, its file, and its line and column there, 0 where the file has none; the keys
    of its attributes; the class that it became, its view's number and those of views that were added for it; the row
    of the table by which it was mapped; of a ConstraintLayout the window for which it is
    solved, in pixels. For lint: the texts of its attributes in a source, what an `include` gives over them, the values
    that it has by them and by styles, the elements that include its file, from the innermost, and the rules that
    `tools:ignore` names."""

    element: str
    file: str
    line: int
    column: int
    keys: Tuple[str, ...]
    kind: str = ""
    row: str = ""
    number: int = 0
    added: List[int] = field(default_factory=list)
    why_no_view: str = ""
    solved_for: Optional[Tuple[int, int]] = None
    fates: Dict[str, Fate] = field(default_factory=dict)
    reasons: Dict[str, str] = field(default_factory=dict)
    notes: List[Note] = field(default_factory=list)
    written: Dict[str, str] = field(default_factory=dict)
    given: Dict[str, Value] = field(default_factory=dict)
    values: Optional[Attributes] = None
    includes: Tuple[Place, ...] = ()
    ignored: FrozenSet[str] = frozenset()

    def use(self, key: str) -> None:
        """The output has the attribute, or was made by it."""
        self.fates.setdefault(key, Fate.USED)

    def no_effect(self, key: str, why: str) -> None:
        """The attribute has no effect on bounds, picture and touches in Android either."""
        if self.fates.get(key) in (None, Fate.USED):
            self.fates[key] = Fate.NO_EFFECT
            self.reasons[key] = why

    def approximate(self, key: str, why: str, effect: Effect) -> None:
        """The output has something near it."""
        self.note(Note(key, Fate.APPROXIMATED, effect, why))

    def leave_out(self, key: str, why: str, effect: Effect) -> None:
        """The output has nothing of it."""
        self.note(Note(key, Fate.LEFT_OUT, effect, why))

    def note(self, note: Note) -> None:
        """Adds a note, once."""
        if note.attribute in self.keys:
            self.fates[note.attribute] = note.fate
        if note not in self.notes:
            self.notes.append(note)

    def settle(self, is_wrapped: bool) -> None:
        """Says of notes on the size of the content on what they have an effect."""
        effect = Effect.BOUNDS if is_wrapped else Effect.PICTURE
        self.notes = [it._replace(effect=effect) if it.effect is Effect.CONTENT else it for it in self.notes]

    def has_effect(self, effect: Effect) -> bool:
        """Whether something that is not exact has an effect on this."""
        return any(it.effect is effect for it in self.notes)

    @property
    def is_view(self) -> bool:
        """Whether the element became a view, or should have: one that is left out with an effect on bounds counts."""
        return not self.why_no_view or not self.is_exact

    @property
    def is_exact(self) -> bool:
        """Whether the bounds are by Android's rules, with texts in the cells of the profile."""
        return not self.has_effect(Effect.BOUNDS)


class Sums(NamedTuple):
    """How many views there are, how many of them are exact in their bounds, in these and with no text of another size,
    and in all."""

    views: int
    exact: int
    without_text: int
    whole: int


def sums_of(records: List[Record]) -> Sums:
    """The sums of rows."""
    views = [it for it in records if it.is_view]
    exact = [it for it in views if it.is_exact]
    plain = [it for it in exact if not it.has_effect(Effect.TEXT)]
    whole = [it for it in plain if not (it.has_effect(Effect.PICTURE) or it.has_effect(Effect.TOUCH))]
    return Sums(len(views), len(exact), len(plain), len(whole))


def place_of(record: Record) -> str:
    """File, line and column of an element."""
    parts: List[object] = [record.file, record.line]
    return ":".join(map(str, parts + ([record.column] if record.column else [])))


def lines_of(records: List[Record]) -> List[str]:
    """What is not exact, a line each."""
    found = []
    for record in records:
        for note in record.notes:
            what = "%s %s" % (record.element, note.attribute) if note.attribute else record.element
            how = "%s (%s)" % (note.fate.value, note.effect.value)
            found.append("%s: %s: %s: %s" % (place_of(record), what, how, note.reason))
    return found


def json_of(record: Record) -> Dict[str, object]:
    """A row as docs/app.schema.json has it."""
    made: Dict[str, object] = {
        "element": record.element, "file": record.file, "line": record.line, "column": record.column or None,
        "class": record.kind or None, "row": record.row or None, "view": record.number or None, "added": record.added,
        "exact": record.is_exact, "solved_for": record.solved_for, "no_view": record.why_no_view or None,
    }
    for name, fate in (("used", Fate.USED), ("no_effect", Fate.NO_EFFECT)):
        made[name] = [key for key in record.keys if record.fates.get(key) is fate]
    made["notes"] = [
        {"attribute": it.attribute or None, "fate": it.fate.value, "effect": it.effect.value, "reason": it.reason}
        for it in record.notes
    ]
    return made


def missing(records: List[Record]) -> List[Tuple[Record, str]]:
    """The attributes of which nothing is reported: there should be none."""
    return [(record, key) for record in records for key in record.keys if key not in record.fates]


