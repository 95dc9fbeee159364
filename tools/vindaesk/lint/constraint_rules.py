"""Rules on what places views. What has no effect is tried: the program lays the tree out without it."""
from typing import Iterator, Optional, Tuple

from ..views.element_facts import RULES
from ..views.view_tree import View
from .page import Page
from .registry import Severity, rule
from .seen import Seen
from .trials import anchor_of


ATTRIBUTES = {verb: name for name, verb in RULES.items()}


def without_effect(it: Seen, page: Page) -> Iterator[Tuple[str, Optional[View]]]:
    """The rules of a view without effect, as its source has them, each with the sibling that it names."""
    if it.view.parent is None or it.view.parent.kind != "RelativeLayout" or not it.view.rules:
        return
    for number, what in page.without_effect:
        verb = what[len("rule ") :]
        if number == it.view.number and what.startswith("rule "):
            key = "android:" + ATTRIBUTES[verb]
            written = it.written(key)
            name = it.view.rules[verb]
            said = "%s %s" % (key, written) if written else "rule %s %s" % (verb, name)
            yield said, anchor_of(it.view, name)


@rule("no-anchor", Severity.WARNING, "NotSibling", "UnknownIdInLayout")
def no_anchor(it: Seen, page: Page) -> Iterator[str]:
    """A rule of a `RelativeLayout` names a sibling."""
    for said, anchor in without_effect(it, page):
        if anchor is None:
            yield "its %s has no effect: no sibling has this id" % said


@rule("gone-anchor", Severity.NOTE)
def gone_anchor(it: Seen, page: Page) -> Iterator[str]:
    """A rule of a `RelativeLayout` that names a sibling which is gone has an effect."""
    for said, anchor in without_effect(it, page):
        if anchor is not None:
            yield "its %s has no effect while v%d is gone" % (said, anchor.number)


@rule("weight-match", Severity.WARNING, "InefficientWeight")
def weight_match(it: Seen, page: Page) -> Iterator[str]:
    """A weight beside a length that is as large as the parent has an effect."""
    weight = it.view.given.get("weight")
    if weight and float(weight) > 0 and (it.view.number, "weight") in page.without_effect:
        yield "its weight %s has no effect: it is as long as its LinearLayout already" % weight


@rule("no-gravity", Severity.WARNING, "ObsoleteLayoutParam")
def no_gravity(it: Seen, page: Page) -> Iterator[str]:
    """A gravity is in a parent that places by gravity; a `RelativeLayout` does not."""
    around = it.view.parent
    words = it.view.given.get("gravity")
    if words and around is not None and around.kind == "RelativeLayout" and not it.is_added:
        if (it.view.number, "gravity") in page.without_effect:
            yield "its gravity %s has no effect: v%d is a RelativeLayout" % (words, around.number)


@rule("foreign-rule", Severity.NOTE, "ObsoleteLayoutParam")
def foreign_rule(it: Seen, page: Page) -> Iterator[str]:
    """A rule of siblings or of the parent is in a `RelativeLayout`."""
    around = it.view.parent
    if it.view.rules and around is not None and around.kind != "RelativeLayout" and not it.is_added:
        yield "its rule %s has no effect: v%d is a %s" % (", ".join(it.view.rules), around.number, around.kind)
