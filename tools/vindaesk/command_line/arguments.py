"""The arguments of a tool."""
import argparse
import io
import os
import sys
from typing import Any, Callable, List, NamedTuple, NoReturn, Optional, Sequence

from ..common import files
from ..common.failures import Failure, NOT_RUN
from ..common.places import version
from ..program.statuses import MAX_SCRIPT
from ..scripts import others, script
from ..scripts.script import Script

# where there is no terminal
WIDTH = 80


class ShowVersion(argparse.Action):
    """Prints the version and ends."""

    def __call__(self, parser: argparse.ArgumentParser, *_: object) -> None:
        print(version())
        parser.exit()


class Formatter(argparse.RawDescriptionHelpFormatter):
    """Writes a docstring as it is. argparse makes one for each argument that is added, and loads `shutil` for the width
    of the terminal, which takes a tenth of a start."""

    def __init__(self, prog: str, **others: Any):
        super().__init__(prog, **{"width": columns() - 2, **others})


def columns() -> int:
    """The width of the terminal, as `shutil` finds it."""
    given = os.environ.get("COLUMNS", "")
    if given.isascii() and given.isdigit() and int(given):
        return int(given)
    try:
        return (sys.__stdout__ and os.get_terminal_size(sys.__stdout__.fileno()).columns) or WIDTH
    except (OSError, ValueError):
        return WIDTH


class Parser(argparse.ArgumentParser):
    """A parser for which a standard output that cannot be written is an error, as it is for what a tool writes."""

    def print_help(self, file: Any = None) -> None:
        """Prints the help. That of argparse passes over errors."""
        (file or sys.stdout).write(self.format_help())

    def exit(self, status: int = 0, message: Optional[str] = None) -> NoReturn:
        """Ends the process, after what was printed is written."""
        if status == 0:
            sys.stdout.flush()
        super().exit(status, message)


def parser(doc: str) -> argparse.ArgumentParser:
    """A parser whose help is a tool's docstring, and which knows `--version`."""
    found = Parser(description=doc, formatter_class=Formatter)
    found.add_argument("--version", action=ShowVersion, nargs=0, help="prints the version")
    return found


def parsed(parser: argparse.ArgumentParser, words: Optional[Sequence[str]]) -> argparse.Namespace:
    """The arguments of a call, in which options may be between the others. A call without that is read by itself, since
    the other way takes a tenth of a start."""
    given, others = parser.parse_known_args(words)
    return parser.parse_intermixed_args(words) if others else given


def add_script(found: argparse.ArgumentParser) -> None:
    """The arguments of a tool that takes a script."""
    found.add_argument("script", metavar="SCRIPT", help="the script, or - for standard input")
    add_of_script(found)


def add_of_script(found: argparse.ArgumentParser) -> None:
    """The options of such a tool."""
    found.add_argument("--ids", metavar="FILE", help="the list of ids by names; ids.txt beside the script without it")
    found.add_argument("--config", metavar="CONFIGURATION,..", type=names, default=[],
                       help="in this configuration of NAME.toml or vindaesk.toml beside the script")
    found.add_argument("--expanded", action="store_true",
                       help="prints the script that the program is given, with ids and included lines, and ends")


def names(word: str) -> List[str]:
    """Names joined by commas."""
    return word.split(",")


class Adapted(NamedTuple):
    """A script in a configuration, whose name is empty where there is none."""

    name: str
    script: Script


def text_of(given: argparse.Namespace) -> bytes:
    """The text of the script of a call; what is likely no script is a failure that names the tool for it."""
    text = files.read(given.script, MAX_SCRIPT)
    why = others.what_else(given.script, text, bool(getattr(given, "stack", None)))
    if why:
        raise Failure(why, NOT_RUN)
    return text


def scripts(given: argparse.Namespace, is_strict: bool = True) -> List[Adapted]:
    """The script of a call in each configuration that is asked for; without one as it is. Names without an id stay, if
    the call is not strict."""
    if not given.config:
        made = script.named(script.written_in(given.script, text_of(given)), given.script, given.ids, is_strict)
        return [Adapted("", made)]
    from ..testing import configurations

    found = configurations.chosen(given.script, given.config)
    return [Adapted(it.name, configurations.read(given.script, it, given.ids, is_strict)) for it in found]


def configurations_of(given: argparse.Namespace) -> List[str]:
    """The names of the configurations of a call; one empty name without any."""
    if not given.config:
        return [""]
    from ..testing import configurations

    return [it.name for it in configurations.chosen(given.script, given.config)]


def single(given: argparse.Namespace, is_strict: bool = True) -> Script:
    """The same for a tool that takes one configuration."""
    found = scripts(given, is_strict)
    if len(found) != 1:
        raise Failure("--config takes one name here; %s has %s" % (
            given.script, ", ".join(it.name for it in found)), NOT_RUN)
    return found[0].script


def out_of(path: str, name: str, given: argparse.Namespace) -> str:
    """Where the outcome of a configuration goes: with its name, where there may be several."""
    if not name or (given.config == [name] and "all" not in given.config):
        return path
    if path == "-":
        raise Failure("several configurations need a file", NOT_RUN)
    stem, ending = os.path.splitext(path)
    return "%s@%s%s" % (stem, name, ending)


def show_expanded(given: argparse.Namespace, made: Script) -> bool:
    """Prints what the program is given, where that was asked for."""
    if given.expanded:
        files.write("-", b"".join(line + b"\n" for line in made.lines))
    return bool(given.expanded)


def count(least: int, most: int) -> Callable[[str], int]:
    """A reader of whole numbers between two limits."""

    def read(word: str) -> int:
        if not (word.isascii() and word.isdigit() and least <= int(word[:9]) <= most and len(word) <= 9):
            raise argparse.ArgumentTypeError("'%s' is no number from %d to %d" % (word, least, most))
        return int(word)

    return read


def counts(least: int, most: int) -> Callable[[str], List[int]]:
    """A reader of such numbers, joined by commas; each is taken once."""

    def read(word: str) -> List[int]:
        return list(dict.fromkeys(map(count(least, most), word.split(","))))

    return read


def write_any_text() -> None:
    """Has standard output take any text, in UTF-8, also where the locale has another encoding."""
    if isinstance(sys.stdout, io.TextIOWrapper):
        sys.stdout.reconfigure(encoding="utf-8", errors="backslashreplace")
