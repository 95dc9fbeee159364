"""The commit of which something is made: its date, and whether all is as it has it."""
import os
from typing import List

from ..common.failures import Failure, NOT_RUN
from ..common.places import TOP
from ..provenance import git


def lines_of_git(*words: str) -> List[str]:
    """What git prints of the checkout, or nothing where there is none."""
    return (git.lines(*words) or []) if os.path.exists(os.path.join(TOP, ".git")) else []


def uncommitted() -> List[str]:
    """The paths that are not as the commit has them."""
    return [it[3:] for it in lines_of_git("status", "--porcelain")]


def date(dated: str = "") -> int:
    """The date of what is made, in seconds since 1970: that of the variable SOURCE_DATE_EPOCH, or of the commit, or
    where there is no commit that of a file, if one is given."""
    found = os.environ.get("SOURCE_DATE_EPOCH") or "".join(lines_of_git("log", "-1", "--format=%ct"))
    if found.isascii() and found.isdigit():
        return int(found)
    if not dated:
        raise Failure("no commit has a date here: give one by SOURCE_DATE_EPOCH, in seconds since 1970", NOT_RUN)
    return int(os.path.getmtime(dated))
