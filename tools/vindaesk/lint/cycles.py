"""Cycles of the rules of a `RelativeLayout`, for which the program refuses a line."""
import re
from typing import Iterator, Tuple

from ..views.facts import Place
from .findings import Finding
from .page import Page
from .registry import Severity, rule
from .seen import Seen
from .subjects import Laid, Subject

NAME = "cycle"
MEMBER = re.compile(rb" ([ev])([1-9][0-9]*)")
AXIS = re.compile(rb"Cycle (horizontal|vertical)")


@rule(NAME, Severity.ERROR)
def cycle(it: Seen, page: Page) -> Iterator[str]:
    """The children of a `RelativeLayout` have an order in which each comes after those that its rules name."""
    return iter(())


def found_in(laid: Laid, subject: Subject) -> Iterator[Finding]:
    """The cycles for which lines were refused. What is in one is named as the program does: `vN` for a view, and `eN`
    for the N-th element of the file."""
    for number, refusal in laid.cycles.items():
        members = [(kind.decode(), int(at)) for kind, at in MEMBER.findall(refusal.text)]
        axis = AXIS.search(refusal.text)
        sources = [laid.sources[at] for kind, at in members if kind == "e" and at in laid.sources]
        names = [it.element for it in sources] or ["%s%d" % it for it in members]
        sentence = "%s name one another in a circle: no %s order places them" % (
            ", ".join(names), axis[1].decode() if axis else "")
        places = sources[0].places if sources else line_of(subject, number)
        yield Finding(NAME, Severity.ERROR, 0, "RelativeLayout", "RelativeLayout", sentence, places, [])


def line_of(subject: Subject, number: int) -> Tuple[Place, ...]:
    """The place of a line of a script; of any other subject its file."""
    return (subject.place_of(number) or Place(subject.file, 1),)
