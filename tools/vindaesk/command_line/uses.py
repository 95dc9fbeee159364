"""What a command is for, as `vindaesk help` lists it. A module of this folder is a command if it has `USE`."""
import enum
from typing import NamedTuple


class Purpose(enum.Enum):
    """What one wants to do, in the order of the help."""

    RUN = "Run a script"
    LOOK = "Look at what it makes"
    CHECK = "Find what is wrong"
    READ = "Read layouts, apps and resources"
    PROJECT = "Vindaesk itself"


class Use(NamedTuple):
    """The use of a command: an example, which is a line of a shell in a folder with the files of examples/, and what
    the command does, as it follows its name."""

    purpose: Purpose
    example: str
    summary: str
