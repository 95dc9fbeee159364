"""The words that may follow `vindaesk`: each is in the help with an example that runs, and each tool is one of them."""
import os
import re
import shutil
import subprocess
import tempfile
from typing import Callable, Iterator, Tuple

from running import SECONDS, TOP
from vindaesk.command_line import commands

# commands that run these checks, or go on until they are ended
ENDLESS = ("test", "preview", "serve")
# commands whose example finds what is wrong, or ends without a goodbye
FOUND = {"check": 1, "language": 1, "lint": 1}
# words that are near another one
NEAR = {"tre": "tree", "screenshoot": "screenshot", "lnt": "lint", "Run": "run", "lokup": "lookup", "vers": "version"}


def call(words: str, folder: str = TOP) -> Tuple[int, str, str]:
    """Status, standard output and standard error of a line of a shell, in which `vindaesk` is on PATH."""
    with tempfile.TemporaryDirectory() as place:
        os.symlink(os.path.join(TOP, "vindaesk"), os.path.join(place, "vindaesk"))
        ended = subprocess.run(
            ["bash", "-c", words], cwd=folder, stdin=subprocess.DEVNULL, stdout=subprocess.PIPE, timeout=SECONDS,
            stderr=subprocess.PIPE, env={**os.environ, "PATH": "%s:%s" % (place, os.environ["PATH"]), "COLUMNS": "100"}
        )
    return ended.returncode, ended.stdout.decode(), ended.stderr.decode()


def examples_run() -> str:
    """Each example of the help, except that of `test`, which runs these very checks, and those of `preview` and
    `serve`, which go on until they are ended."""
    for it in commands.every():
        with tempfile.TemporaryDirectory() as place:
            folder = shutil.copytree(os.path.join(TOP, "examples"), os.path.join(place, "examples"))
            if "vindaesk %s" % it.name not in it.use.example:
                return "the example of %s is '%s'" % (it.name, it.use.example)
            status, _, said = call(it.use.example, folder) if it.name not in ENDLESS else (0, "", "")
            if status != FOUND.get(it.name, 0) or "Traceback" in said or "error:" in said:
                return "%s: status %d, '%s'" % (it.use.example, status, said)
    return ""


def all_are_in_the_help() -> str:
    """`vindaesk help`, and `vindaesk --help`, list each command with its example."""
    said = call("vindaesk help")[1]
    for it in commands.every():
        if "\n  %-12s%s\n      %s\n" % (it.name, it.use.summary, it.use.example) not in said:
            return "%s is not in it" % it.name
    return "" if call("vindaesk --help") == (0, said, "") else "help and --help print other things"


def tools_are_commands() -> str:
    """Each file of tools/ is a command, and each module of command_line that has an example has a file there if it is a
    tool."""
    folder = os.path.join(TOP, "tools")
    files = {it for it in os.listdir(folder) if "." not in it and os.path.isfile(os.path.join(folder, it))}
    found = {it.name for it in commands.every() if it.kind is commands.Kind.TOOL}
    own = {it.name for it in commands.every() if it.kind is commands.Kind.OWN}
    if own != {"explain", "help", "test", "version"}:
        return "without a file in tools/ there are %s" % sorted(own)
    return "" if files == found else "%s are not on both sides" % sorted(files ^ found)


def each_helps() -> str:
    """`vindaesk WORD --help` and `vindaesk help WORD` print the same, which begins with the name of the command."""
    for it in commands.every():
        one, other = call("vindaesk %s --help" % it.name), call("vindaesk help %s" % it.name)
        if one != other or one[0] or one[2] or not one[1].startswith("usage: vindaesk %s " % it.name):
            return "%s: %r and %r" % (it.name, one, other)
    return ""


def help_on_a_full_disk() -> str:
    """What help and versions print is lost with a sentence and the status 4, whether Python holds it back or not."""
    for words in ("help", "help tree", "tree --help", "tree --version", "version"):
        for buffered in ("", "PYTHONUNBUFFERED=1"):
            status, _, said = call("%s vindaesk %s > /dev/full" % (buffered, words))
            if status != 4 or not re.fullmatch("vindaesk( [a-z]+)?: standard output: .*\n", said):
                return "%s: status %d, '%s'" % (words, status, said)
    return ""


def near_words_are_asked_for() -> str:
    """A word that is none is reported with the one that is near."""
    for word, meant in NEAR.items():
        wanted = (2, "", "vindaesk: there is no '%s'; did you mean '%s'? See vindaesk --help\n" % (word, meant))
        if call("vindaesk " + word) != wanted:
            return "%s: %r" % (word, call("vindaesk " + word))
    return ""


def checks() -> Iterator[Tuple[str, Callable[[], str]]]:
    """The checks of this file."""
    for check in (examples_run, all_are_in_the_help, tools_are_commands, each_helps, help_on_a_full_disk,
                  near_words_are_asked_for):
        yield "the commands: " + check.__name__.replace("_", " "), check
