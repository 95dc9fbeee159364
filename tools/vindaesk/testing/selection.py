"""Which cases are run, and of which the answers of today are accepted."""
import fnmatch
import os
from typing import List, Sequence

from ..common.failures import Failure, NOT_RUN
from ..scripts.grammar import guess
from .case import Case


def names_of(case: Case) -> List[str]:
    """The names by which a case can be meant: with its folder and without, and of a script also without its ending."""
    name = os.path.normpath(case.name())
    names = [name, os.path.basename(name)]
    return names if case.configuration else names + [os.path.splitext(it)[0] for it in names]


def is_meant(case: Case, pattern: str) -> bool:
    """Whether a name, or a pattern with `*` and `?`, means a case."""
    pattern = os.path.normpath(pattern)
    return any(name == pattern or fnmatch.fnmatchcase(name, pattern) for name in names_of(case))


def has_word(case: Case, words: Sequence[str]) -> bool:
    """Whether the name of a case has one of some words, where there are any; small and capital letters are the same."""
    name = case.name().lower()
    return not words or any(word.lower() in name for word in words)


def meant(cases: Sequence[Case], patterns: Sequence[str]) -> List[Case]:
    """The cases that some names mean; each has to mean one."""
    for pattern in patterns:
        if not any(is_meant(case, pattern) for case in cases):
            known = tuple(os.path.basename(case.name()) for case in cases)
            raise Failure("no case is named '%s'%s" % (pattern, guess(pattern, known)), NOT_RUN)
    return [case for case in cases if any(is_meant(case, pattern) for pattern in patterns)]
