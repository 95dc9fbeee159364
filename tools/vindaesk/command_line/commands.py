"""All words that may follow `vindaesk`: those of the program, and the modules of this folder that have a `USE`."""
import argparse
import enum
import functools
import importlib
import os
import pkgutil
from typing import Callable, Dict, List, NamedTuple, Optional, Tuple

from ..common.ending import Main
from ..common.places import TOP
from ..program import calls
from .uses import Purpose, Use


class Kind(enum.Enum):
    """Who carries a command out: the program, this package alone, or a tool, which is a file of tools/ too."""

    PROGRAM = "program"
    OWN = "own"
    TOOL = "tool"


class Command(NamedTuple):
    """A command. The program's have no `main`, since main.py passes them on."""

    name: str
    kind: Kind
    use: Use
    reader: Callable[[], argparse.ArgumentParser]
    main: Optional[Main] = None


class Form(NamedTuple):
    """A call of the program: its use, more about it, and its words with what each is."""

    use: Use
    more: str
    words: Tuple[Tuple[str, str], ...] = ()


NAME = ("NAME", "a file of the current folder: 1 to 64 letters, digits, _, - and ., of which the first is no dot")
VIEW = ("V", "the view that has it: vN by its number, or @ and its id")
FORMS: Dict[str, Form] = {
    "run": Form(
        Use(Purpose.RUN, "vindaesk run < first.script", "carries out the script on standard input"),
        "The reply of each line is written as soon as the line is carried out. docs/SCRIPT.md has all lines."),
    "stack": Form(
        Use(Purpose.RUN, "vindaesk stack < dialog.stack", "carries out a script for a stack of up to eight windows"),
        "The script is on standard input. docs/STACK.md has the lines for windows."),
    "focus": Form(
        Use(Purpose.RUN, "vindaesk focus right v2 < focus.script",
            "carries out a script, and prints which view gets the focus"),
        "The script is on standard input. docs/FOCUS.md has the rules by which the focus moves.",
        (("SIDE", "where the focus moves to"), VIEW)),
    "gen": Form(
        Use(Purpose.PROJECT, "vindaesk gen 1", "runs a load of a size, for measurements"),
        "It prints how many lines the load has, and the digest of its page.", (("N", "the size, from 1 to 100"),)),
    "dump": Form(
        Use(Purpose.READ, "vindaesk dump page.xml", "prints a compiled layout file"),
        "docs/FORMATS.md has the form of layout files, and of what is printed.", (NAME,)),
    "lookup": Form(
        Use(Purpose.READ, "cd app && vindaesk lookup resources.arsc 7f050000",
            "prints what resources hold in a compiled table"),
        "docs/FORMATS.md has the form of resource tables, and of what is printed.",
        (NAME, ("ID", "the number of a resource, 8 hex digits; up to 64"))),
}


def reader_of(name: str) -> argparse.ArgumentParser:
    """The arguments of a call of the program. It reads them itself (calls.py): this is for pages and completions."""
    form = FORMS[name]
    text = "%s%s.\n\n%s" % (form.use.summary[0].upper(), form.use.summary[1:], form.more)
    raw = argparse.RawDescriptionHelpFormatter
    found = argparse.ArgumentParser("vindaesk " + name, description=text, formatter_class=raw)
    for word, what in form.words:
        choices = calls.SIDES if word == "SIDE" else None
        added = found.add_argument(word.lower(), metavar=word, help=what, choices=choices)
        if word == "ID":
            added.nargs = "+"
    return found


def called(name: str, reader: Callable[[], argparse.ArgumentParser]) -> Callable[[], argparse.ArgumentParser]:
    """A reader whose parser has the name of a command, whatever this process is called."""

    def read() -> argparse.ArgumentParser:
        found = reader()
        found.prog = "vindaesk " + name
        return found

    return read


def file_of(name: str) -> str:
    """The name of the module of a command."""
    return name.replace("-", "_")


def of_module(name: str) -> Optional[Command]:
    """The command of a module of this folder, if it is one."""
    module = importlib.import_module("." + file_of(name), __package__)
    use = getattr(module, "USE", None)
    if not isinstance(use, Use):
        return None
    kind = Kind.TOOL if os.path.exists(os.path.join(TOP, "tools", name)) else Kind.OWN
    return Command(name, kind, use, called(name, module.reader), module.main)


def names_of_modules() -> List[str]:
    """What the modules of this folder are called as words."""
    package = importlib.import_module(__package__)
    return sorted(it.name.replace("_", "-") for it in pkgutil.iter_modules(package.__path__))


def named(name: str) -> Optional[Command]:
    """The command of a name, if there is one."""
    if name in FORMS:
        return Command(name, Kind.PROGRAM, FORMS[name].use, functools.partial(reader_of, name))
    return of_module(name) if name in names_of_modules() else None


def every() -> List[Command]:
    """All commands, in the order of the help."""
    found = [it for it in map(named, [*FORMS, *names_of_modules()]) if it is not None]
    return sorted(found, key=lambda it: list(Purpose).index(it.use.purpose))


def prefix_options() -> argparse.ArgumentParser:
    """What may be in the place of a command, or before it."""
    found = argparse.ArgumentParser("vindaesk", description="Runs Android layouts without a device.", add_help=False)
    found.add_argument("-h", "--help", action="store_true", help="lists the commands")
    found.add_argument("--version", action="store_true", help="prints version, replies, commit, program and kit")
    found.add_argument("--prove", action="store_true",
                       help="before a command: passes over dist/, and builds the program from the sources if needed")
    return found
