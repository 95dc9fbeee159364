"""Cases that are calls without a script: NAME.args with the words, as `lookup resources.arsc 7f010000` or `gen 5`."""
import os
from typing import FrozenSet, List, Optional

from ..common.failures import Failure, NOT_RUN
from ..scripts import names
from . import answers, calls
from .calls import Call, Limits
from .case import ARGUMENTS, Case, Written
from .configurations import Configuration
from .kind import Inputs, Kind, named_in
from .kind_scripts import SCRIPT, STACK, words_of


class Calls(Kind):
    """NAME.args."""

    ENDING = ARGUMENTS

    def cases_of(self, path: str, given: Optional[List[Configuration]]) -> List[Case]:
        stem = path[: -len(ARGUMENTS)]
        if any(os.path.lexists(stem + it) for it in (SCRIPT, STACK)):
            return []
        if not os.path.isfile(path):
            raise Failure("%s is no file" % path, NOT_RUN)
        words_of(stem, "")
        return [Case(stem, ARGUMENTS)]

    def written(self, case: Case, limits: Limits) -> Written:
        folder, words = case.folder(), words_of(case.stem, "")
        plain, status = calls.answered(Call(words, b"", folder), limits)
        is_dump = words[0] == "dump"
        return Written(answers.of_dump(plain, names.beside(folder)) if is_dump else plain, status, plain)

    def inputs(self, case: Case, beside: FrozenSet[bytes]) -> Inputs:
        folder = case.folder()
        words = os.fsencode("\0".join(words_of(case.stem, "")))
        named = named_in(words.replace(b"\0", b" "), folder, beside)
        return Inputs((words,), [*named, os.path.join(folder, names.LIST)])

    def has_picture(self, case: Case) -> bool:
        return False
