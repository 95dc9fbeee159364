"""A case: something that is run, and the files beside it that say what it should write."""
import os
from typing import NamedTuple, Optional

from ..common import files
from ..common.failures import Failure, NOT_RUN
from ..pictures.png import Picture
from .configurations import Configuration

# the words of the call, where they are not those that the ending of the source says
ARGUMENTS = ".args"
ANSWER, STATUS, PICTURE = ENDINGS = (".answer", ".status", ".png")


class Case(NamedTuple):
    """A case: its path without the ending, the ending of what is run, its configuration, where it has one; its path
    below the folder that was named in the call, which is the same on each machine; and why it cannot be run."""

    stem: str
    ending: str
    configuration: Optional[Configuration] = None
    below: str = ""
    broken: str = ""

    def file(self, ending: str) -> str:
        """One of its files."""
        of = "@" + self.configuration.name if self.configuration else ""
        return self.stem + of + ending

    def has(self, ending: str) -> bool:
        """Whether it has this file."""
        return os.path.exists(self.file(ending))

    def source(self) -> str:
        """What is run."""
        return self.stem + self.ending

    def folder(self) -> str:
        """The folder in which it is run."""
        return os.path.dirname(os.path.abspath(self.stem))

    def name(self) -> str:
        """What messages call it: its source, or NAME@CONFIGURATION."""
        return self.file("") if self.configuration else self.source()


class Written(NamedTuple):
    """What the program writes over a case today, as answers are kept, and its status; and the same in numbers alone."""

    answer: bytes
    status: int
    plain: bytes


class Pictures(NamedTuple):
    """The stored picture of a case and that of today; None where there is none, and then why."""

    wanted: Optional[Picture]
    found: Optional[Picture]
    why: str


def stored(path: str) -> bytes:
    """The bytes of a file of a case. One that is a pipe or a device might never end."""
    if os.path.exists(path) and not os.path.isfile(path):
        raise Failure("%s is no file" % path, NOT_RUN)
    return files.read(path)


def written_status(case: Case) -> int:
    """The status that a case should end with."""
    text = stored(case.file(STATUS)) if case.has(STATUS) else b"0"
    if not text.strip().isdigit():
        raise Failure("%s has no number" % case.file(STATUS), NOT_RUN)
    return int(text)
