"""The kinds of cases, by the endings of what is run."""
import os
from typing import Dict, List, Optional

from .case import ANSWER, PICTURE, Case
from .configurations import Configuration
from .kind import Kind
from .kind_apps import Apps
from .kind_calls import Calls
from .kind_layouts import Layouts
from .kind_scripts import Scripts, Stacks

KINDS: Dict[str, Kind] = {kind.ENDING: kind for kind in (Scripts(), Stacks(), Layouts(), Calls(), Apps())}


def ending_of(path: str) -> Optional[str]:
    """The ending of a path by which it may be a case; the longest one, where several fit."""
    name = os.path.basename(path)
    fitting = [it for it in KINDS if name.endswith(it) and name != it]
    return max(fitting, key=len) if fitting else None


def of(case: Case) -> Kind:
    """The kind of a case."""
    return KINDS[case.ending]


def cases_of(path: str, given: Optional[List[Configuration]] = None) -> List[Case]:
    """The cases of a file: of a script one in each configuration, its own ones or those that are given; and itself,
    where it has none, or an answer of its own."""
    ending = ending_of(path)
    return KINDS[ending].cases_of(path, given) if ending else []


def is_new(case: Case) -> bool:
    """Whether one of the files that a case should have is not there yet."""
    if case.broken:
        return False
    return not case.has(ANSWER) or (of(case).has_picture(case) and not case.has(PICTURE))
