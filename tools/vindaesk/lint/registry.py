"""The rules by their names, and how one is made.

    @rule("touch-target", Severity.WARNING, "TouchTargetSizeCheck")
    def small_target(it, page):
        \"\"\"What answers touches is at least 48 by 48 dp.\"\"\"
        ...
"""
from enum import IntEnum
from typing import TYPE_CHECKING, Callable, Dict, FrozenSet, Iterable, Iterator, List, NamedTuple, Tuple

if TYPE_CHECKING:
    from .page import Page
    from .seen import Seen

Function = Callable[["Seen", "Page"], Iterator[str]]


class Severity(IntEnum):
    """How much a finding weighs, from the least."""

    NOTE, WARNING, ERROR = range(3)

    @property
    def word(self) -> str:
        """As findings and options write it."""
        return self.name.lower()


class Rule(NamedTuple):
    """A rule: its name, the function that yields a sentence for each finding at a view, the ids that Android's tools
    have for it, and whether it goes by bounds, which may not be exact."""

    name: str
    function: Function
    severity: Severity = Severity.WARNING
    android: Tuple[str, ...] = ()
    by_bounds: bool = False

    @property
    def says(self) -> str:
        """What is true where nothing is found, in one sentence."""
        return " ".join((self.function.__doc__ or self.name).split())

    @property
    def category(self) -> str:
        """What it looks at, as `text`: the beginning of its module's name; `own` for a rule of a user."""
        return self.function.__module__.rpartition(".")[2].partition("_")[0]

    def is_among(self, names: Iterable[str]) -> bool:
        """Whether its name, one of Android's ids, or `all` is among some names."""
        return not {self.name, "all", *self.android}.isdisjoint(names)


RULES: Dict[str, Rule] = {}


def rule(
    name: str, severity: Severity = Severity.WARNING, *android: str, by_bounds: bool = False
) -> Callable[[Function], Function]:
    """Makes a function the rule of this name."""

    def add(function: Function) -> Function:
        RULES[name] = Rule(name, function, severity, android, by_bounds)
        return function

    return add


def unknown(names: Iterable[str]) -> List[str]:
    """The names that no rule has."""
    return [it for it in names if not any(rule.is_among([it]) for rule in RULES.values())]


def passed_over(ignored: FrozenSet[str], it: Rule) -> bool:
    """Whether a view's `tools:ignore` names a rule."""
    return bool(ignored) and it.is_among(ignored)
