"""The part of the cases that falls to one machine: by a hash of their names, so that a new case moves no other.

Bazel's test protocol has the part in variables; Buck2 and Pants set the same.
"""
import hashlib
import os
from typing import List, NamedTuple, Optional

from ..common.failures import Failure, NOT_RUN
from .case import Case

INDEX, TOTAL, TOUCHED = "TEST_SHARD_INDEX", "TEST_TOTAL_SHARDS", "TEST_SHARD_STATUS_FILE"
REPORT, FOLDER, ONLY = "XML_OUTPUT_FILE", "TEST_TMPDIR", "TESTBRIDGE_TEST_ONLY"


class Part(NamedTuple):
    """The part of this number, from 0, of a number of parts."""

    place: int
    of: int

    def has(self, case: Case) -> bool:
        """Whether a case falls to it."""
        return self.of == 1 or self.place == number_of(case.below) % self.of


WHOLE = Part(0, 1)


class Asked(NamedTuple):
    """What the variables of Bazel's protocol ask for: the part, the report, a folder for what is only for this run, and
    the name, or the pattern, of what is to be run; nothing is empty."""

    part: Optional[Part]
    report: str
    folder: str
    only: str


def number_of(name: str) -> int:
    """The hash of a name, the same everywhere."""
    return int.from_bytes(hashlib.sha256(os.fsencode(name)).digest()[:8], "big")


def by_variables() -> Asked:
    """What the variables ask for. A file is touched, which says that the part is known."""
    found = os.environ.get
    part = None
    if found(TOTAL):
        numbers = [found(INDEX, ""), found(TOTAL, "")]
        if not all(it.isascii() and it.isdigit() for it in numbers) or int(numbers[0]) >= int(numbers[1]):
            raise Failure("%s=%s and %s=%s are no part" % (INDEX, numbers[0], TOTAL, numbers[1]), NOT_RUN)
        part = Part(*map(int, numbers))
    touched = found(TOUCHED)
    if touched:
        with open(touched, "a", encoding="utf-8"):
            pass
    return Asked(part, found(REPORT, ""), found(FOLDER, ""), found(ONLY, ""))


def of_part(cases: List[Case], part: Part) -> List[Case]:
    """The cases of a part."""
    return [case for case in cases if part.has(case)]
