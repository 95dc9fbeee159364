"""What each kind of cases has to know: how it is found, run and drawn, and on what its outcome depends.

A new kind is one module with a subclass of `Kind`, named in kinds.py. All else, as processes, reports, kept results and
configurations, is the same for each kind.
"""
import abc
import os
from typing import FrozenSet, List, NamedTuple, Optional, Sequence

from ..common.failures import Failure, NOT_RUN
from ..pictures.png import Picture
from ..scripts.script import Window
from ..views.placement import Placed
from .calls import Limits
from .case import PICTURE, Case, Written
from .configurations import Configuration


class Inputs(NamedTuple):
    """All on which what is written over a case depends, besides the program: bytes in an order, and the paths of files
    of its folder, which may be missing."""

    facts: Sequence[bytes]
    files: Sequence[str]


class Kind(abc.ABC):
    """The cases of one ending."""

    ENDING = ""

    @abc.abstractmethod
    def cases_of(self, path: str, given: Optional[List[Configuration]]) -> List[Case]:
        """The cases of a file with this ending: in its own configurations, or in those that are given."""

    @abc.abstractmethod
    def written(self, case: Case, limits: Limits) -> Written:
        """What the program writes over a case."""

    @abc.abstractmethod
    def inputs(self, case: Case, beside: FrozenSet[bytes]) -> Inputs:
        """On what that depends, where a folder has these files."""

    def has_picture(self, case: Case) -> bool:
        """Whether its picture is compared: it is there, or asked for."""
        return case.has(PICTURE) or bool(case.configuration and case.configuration.picture)

    def picture(self, case: Case, size: Optional[Window]) -> Picture:
        """The picture of a case, of the size of the stored one, if there is one."""
        raise Failure("%s has no picture" % case.name(), NOT_RUN)

    def views(self, case: Case) -> List[Placed]:
        """The views that a case ends with, or none, where it has no tree."""
        return []


def named_in(text: bytes, folder: str, beside: FrozenSet[bytes]) -> List[str]:
    """The files of a folder whose names are words of a text."""
    return [os.path.join(folder, os.fsdecode(name)) for name in sorted(beside.intersection(text.split()))]
