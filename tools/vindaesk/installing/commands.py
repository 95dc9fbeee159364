"""A command as its manual page and its completions show it, read from the parser of its arguments."""
import argparse
import enum
import re
from dataclasses import dataclass
from typing import List, Tuple

from ..common.failures import Failure, NOT_RUN


class Kind(enum.Enum):
    """What an argument takes, which decides what a shell offers there."""

    NOTHING = "nothing"
    FILE = "file"
    FOLDER = "folder"
    TEXT = "text"


# the kinds of the values that help texts name; NAME.ending is a file too, and what ends with `,..` a list of texts
KINDS = {
    **dict.fromkeys(("SCRIPT", "FILE", "FILE,..", "NAME", "APP", "APK", "PATH"), Kind.FILE),
    **dict.fromkeys(("DIR", "PREFIX"), Kind.FOLDER),
    **dict.fromkeys(("N", "S", "I/N", "WxH", "TEXT", "ID", "SIDE", "V", "WORD", "CASE"), Kind.TEXT),
    **dict.fromkeys(("LAYOUT", "QUALIFIERS", "ADDRESS"), Kind.TEXT),
}
LIST = ",.."
FILE_NAME = re.compile(r"[A-Za-z]+\.[a-z]+")


@dataclass(frozen=True)
class Argument:
    """An option with its names, or a word without names."""

    names: Tuple[str, ...]
    value: str
    text: str
    kind: Kind
    choices: Tuple[str, ...] = ()
    is_needed: bool = False
    is_repeated: bool = False


@dataclass(frozen=True)
class Command:
    """A command: `vindaesk` with an empty name and with the commands that are its parts, or one of these."""

    name: str
    summary: str
    text: str
    arguments: Tuple[Argument, ...]
    parts: Tuple["Command", ...] = ()

    def called(self) -> str:
        """The name of its file: `vindaesk`, which has no name of its own, or `vindaesk-NAME`."""
        return "-".join(["vindaesk", self.name]).rstrip("-")

    def options(self) -> List[Argument]:
        """The options, in their order."""
        return [it for it in self.arguments if it.names]

    def words(self) -> List[Argument]:
        """What is no option, in its order."""
        return [it for it in self.arguments if not it.names]


def is_known(value: str) -> bool:
    """Whether a value has a kind by its name."""
    return value in KINDS or value.endswith(LIST) or FILE_NAME.fullmatch(value) is not None


def kind_of(value: str) -> Kind:
    """The kind of a value by its name in the help text; one that is not known is a text."""
    if not value:
        return Kind.NOTHING
    return KINDS.get(value, Kind.FILE if FILE_NAME.fullmatch(value) else Kind.TEXT)


def argument_of(action: argparse.Action, text: str, name: str) -> Argument:
    """What the parser of a command does, as an argument with its help text."""
    if isinstance(action.metavar, tuple):
        raise Failure("vindaesk %s: the argument %s has more than one value" % (name, action.dest), NOT_RUN)
    choices = tuple(str(it) for it in action.choices or ())
    value = "" if action.nargs == 0 else action.metavar or ("" if choices else action.dest.upper())
    kind = Kind.TEXT if choices else kind_of(value)
    is_word = not action.option_strings
    return Argument(
        tuple(action.option_strings), value, text, kind, choices,
        is_needed=action.nargs not in ("?", "*") if is_word else action.required,
        is_repeated=action.nargs in ("+", "*"),
    )


def command_of(name: str, summary: str, parser: argparse.ArgumentParser) -> Command:
    """The command of a parser whose description is the tool's docstring."""
    form = argparse.HelpFormatter(parser.prog)
    found = []
    # argparse has no public list of what a parser knows, nor a public way to put values into help texts
    for it in parser._actions:
        if it.help is not argparse.SUPPRESS:
            found.append(argument_of(it, form._expand_help(it) if it.help else "", name))
    return Command(name, summary, (parser.description or "").strip(), tuple(found))
