"""Manual pages in the language of man(7), made of what commands know of themselves."""
import re
import textwrap
import time
from typing import List, Tuple

from ..common import places
from .commands import Argument, Command

WIDTH = 76
ESCAPES = {"\\": "\\e", "-": "\\-", "'": "\\(aq", "`": "\\(ga", "^": "\\(ha", "~": "\\(ti"}
# words are not broken, and lines are not filled up
LEFT = ".nh\n.ad l\n"
QUOTED = re.compile(r"`([^`\n]+)`")


def escaped(text: str) -> str:
    """A text in which no character has a meaning of its own."""
    return "".join(ESCAPES.get(it, it) for it in text)


def bold(text: str) -> str:
    """A text in bold."""
    return "\\fB%s\\fR" % escaped(text)


def italic(text: str) -> str:
    """A text in italics, as values have."""
    return "\\fI%s\\fR" % escaped(text)


def line_of(text: str) -> str:
    """A line whose first character is no control character."""
    return "\\&" + text if text.startswith(".") else text


def prose(text: str) -> str:
    """A paragraph, in which words between backquotes are bold."""
    body = "".join(bold(it) if k % 2 else escaped(it) for k, it in enumerate(QUOTED.split(text)))
    wrapped = textwrap.wrap(body, WIDTH, break_long_words=False, break_on_hyphens=False)
    return "\n".join(map(line_of, wrapped)) + "\n"


def verbatim(text: str) -> str:
    """Lines that stay as they are."""
    lines = textwrap.dedent(text).strip("\n").split("\n")
    return ".RS 4\n.nf\n%s\n.fi\n.RE\n" % "\n".join(line_of(escaped(it.rstrip())) for it in lines)


def paragraphs(text: str) -> str:
    """A text: its paragraphs, and those that are indented, as examples are, as they are."""
    blocks = [it for it in re.split(r"\n\s*\n", text.strip("\n")) if it.strip()]
    return ".PP\n".join(verbatim(it) if it.startswith("    ") else prose(it) for it in blocks)


def shown(argument: Argument) -> str:
    """An argument as the list of arguments begins with it."""
    value = italic(argument.value) if argument.value else "|".join(map(bold, argument.choices))
    if not argument.names:
        return value
    return ", ".join(map(bold, argument.names)) + (" " + value if value else "")


def in_synopsis(argument: Argument) -> str:
    """An argument as a call has it."""
    one = shown(argument).split(", ")[-1]
    one += " ..." if argument.is_repeated else ""
    return one if argument.is_needed else "[%s]" % one


def synopsis(command: Command) -> str:
    """How a command is called."""
    known = [it for it in command.arguments if "--help" not in it.names and "--version" not in it.names]
    parts = [in_synopsis(it) for it in sorted(known, key=lambda it: not it.names)]
    return "\n".join([bold(" ".join(["vindaesk", command.name]).strip()), *parts]) + "\n"


def listed(arguments: List[Argument]) -> str:
    """A list of arguments with what each means."""
    found = []
    for it in arguments:
        one_of = "one of " + ", ".join(it.choices) if it.choices and it.value else ""
        text = "; ".join(filter(None, (it.text, one_of))) or "see above"
        found.append(".TP\n%s\n%s" % (line_of(shown(it)), prose(text)))
    return "".join(found)


def section(title: str, body: str) -> str:
    """A section, or nothing where it has nothing."""
    return ".SH %s\n%s" % (title, body) if body else ""


def parts_of(command: Command) -> str:
    """The commands of a command."""
    found = []
    for it in command.parts:
        words = " ".join([bold(it.name), *map(in_synopsis, it.words())])
        found.append(".TP\n%s\n%s" % (words, prose(it.summary + ".")))
    return "".join(found)


def split(command: Command) -> Tuple[str, str]:
    """What a command does, and the paragraphs on its status."""
    blocks = re.split(r"\n\s*\n", command.text.strip("\n"))
    status = [it for it in blocks if it.startswith("The status is")]
    return "\n\n".join(it for it in blocks if it not in status), "\n\n".join(status)


def see_also(command: Command, commands: List[Command]) -> str:
    """The pages of the tools on that of `vindaesk`, and this one on theirs."""
    found = [it for it in commands if bool(it.name) != bool(command.name)]
    return " ,\n".join(".BR %s (1)" % escaped(it.called()) for it in found) + "\n"


def page(command: Command, commands: List[Command], date: int) -> str:
    """The page of one of these commands. The date is in seconds since 1970."""
    does, status = split(command)
    day = time.strftime("%Y-%m-%d", time.gmtime(date))
    return "".join([
        '.TH %s 1 "%s" "%s" "Vindaesk"\n' % (command.called().upper(), day, places.version()), LEFT,
        section("NAME", prose("%s - %s" % (command.called(), command.summary))),
        section("SYNOPSIS", synopsis(command)),
        section("DESCRIPTION", paragraphs(does)),
        section("COMMANDS", parts_of(command)),
        section("ARGUMENTS", listed(command.words())),
        section("OPTIONS", listed(command.options())),
        section("EXIT STATUS", paragraphs(status)),
        section("SEE ALSO", see_also(command, commands)),
    ])
