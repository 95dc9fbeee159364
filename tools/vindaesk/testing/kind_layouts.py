"""Cases that are layout files: NAME.xml with an answer, and nothing else of its name, is printed by `dump`."""
import os
from typing import FrozenSet, List, Optional

from ..common.failures import Failure, NOT_RUN
from ..scripts import names
from . import answers, calls
from .calls import Call, Limits
from .case import ANSWER, ARGUMENTS, Case, Written
from .configurations import Configuration
from .kind import Inputs, Kind
from .kind_scripts import SCRIPT, STACK

LAYOUT = ".xml"


class Layouts(Kind):
    """NAME.xml."""

    ENDING = LAYOUT

    def cases_of(self, path: str, given: Optional[List[Configuration]]) -> List[Case]:
        stem = path[: -len(LAYOUT)]
        is_beside = any(os.path.lexists(stem + it) for it in (SCRIPT, STACK, ARGUMENTS))
        if is_beside or not os.path.exists(stem + ANSWER):
            return []
        if not os.path.isfile(path):
            raise Failure("%s is no file" % path, NOT_RUN)
        return [Case(stem, LAYOUT)]

    def written(self, case: Case, limits: Limits) -> Written:
        folder = case.folder()
        plain, status = calls.answered(Call(["dump", os.path.basename(case.source())], b"", folder), limits)
        return Written(answers.of_dump(plain, names.beside(folder)), status, plain)

    def inputs(self, case: Case, beside: FrozenSet[bytes]) -> Inputs:
        words = b"dump " + os.fsencode(os.path.basename(case.source()))
        return Inputs((words,), (case.source(), os.path.join(case.folder(), names.LIST)))

    def has_picture(self, case: Case) -> bool:
        return False
