"""The states in which drawables and lists of colours are, by their names."""
from typing import FrozenSet, Iterable, Union

from ..common.failures import NOT_RUN, Failure
from ..common.messages import printable
from .drawables import STATES

PREFIX = "state_"
# a view is enabled where nothing else is said
NAMES = frozenset(STATES | {"state_disabled"})


def named(words: Union[str, Iterable[str]]) -> FrozenSet[str]:
    """The states of names as `pressed,checked`, or of a list of names, with `state_` or without. Failure for one that
    is not known."""
    found = set()
    for word in words.split(",") if isinstance(words, str) else words:
        name = word.strip()
        if not name:
            continue
        found.add(name if name.startswith(PREFIX) else PREFIX + name)
        if not found <= NAMES:
            known = ", ".join(sorted(it[len(PREFIX):] for it in NAMES))
            raise Failure("there is no state '%s'; the states are %s" % (printable(name), known), NOT_RUN)
    return frozenset(found)
