"""Tries the completions in bash, zsh and fish themselves: what a line is after the key Tab."""
import os
import pty
import re
import select
import signal
import subprocess
import tempfile
import time
from typing import Sequence

from running import SECONDS, Checks, named, need
from vindaesk.command_line import catalogue
from vindaesk.installing import contents

# a line as it is typed, and what it is after Tab, in a folder with the files of FILES
LINES = [
    ("vindaesk tr", "vindaesk tree "),
    ("vindaesk --prove tr", "vindaesk --prove tree "),
    ("vindaesk --vers", "vindaesk --version "),
    ("vindaesk tree --js", "vindaesk tree --json "),
    ("vindaesk-tree --js", "vindaesk-tree --json "),
    ("vindaesk check --format g", "vindaesk check --format github "),
    ("vindaesk-check --format=g", "vindaesk-check --format=github "),
    ("vindaesk focus le", "vindaesk focus left "),
    ("vindaesk tree som", "vindaesk tree some.script "),
    ("vindaesk tree --json som", "vindaesk tree --json some.script "),
    ("vindaesk-lint --dpi 160 som", "vindaesk-lint --dpi 160 some.script "),
    ("vindaesk lint --dpi som", "vindaesk lint --dpi som"),
    ("vindaesk lint --rules som", "vindaesk lint --rules some.script "),
    ("vindaesk unpack x.apk som", "vindaesk unpack x.apk som"),
    ("vindaesk unpack x.apk wh", "vindaesk unpack x.apk where/"),
    ("vindaesk run som", "vindaesk run som"),
]
FILES = ("some.script", "where/inside")
# what a shell is started by, and what it reads first: its completions, and a key that prints the line
BASH = ("--norc", "--noprofile", "-i")
BASH_SETUP = r"""PS1='' PS2=''; bind 'set bell-style none'; bind -x '"\C-t": printf "<%s>\n" "$READLINE_LINE"'
for it in made/share/bash-completion/completions/*; do source "$it"; done; cd files; printf '<%s>\n' ready
"""
ZSH = ("-f", "-i")
ZSH_SETUP = r"""PS1='' PS2='' RPS1=''; unsetopt prompt_cr prompt_sp beep
fpath=($PWD/made/share/zsh/site-functions $fpath)
autoload -Uz compinit; compinit -u -D; shown() { print -r -- "<$BUFFER>" }; zle -N shown; bindkey '^T' shown
cd files; print -r -- '<ready>'
"""
FISH = "cd files; complete -C '%s'"
PRINTED = re.compile(rb"<([^<>%]*)>\r?\n")


def put_files(folder: str) -> None:
    """Puts the commands with their completions and the files of the lines into a folder."""
    commands = catalogue.every()
    made = {**contents.scripts(commands, contents.ANY_PYTHON), **contents.help_files(commands, 0)}
    contents.write(made, os.path.join(folder, "made"))
    contents.write({path: contents.File(b"") for path in FILES}, os.path.join(folder, "files"))


class Shell:
    """A shell on a terminal."""

    def __init__(self, words: Sequence[str], setup: str, folder: str):
        self.number, self.terminal = pty.fork()
        if self.number == 0:
            os.chdir(folder)
            variables = {"PATH": os.environ["PATH"], "HOME": folder, "TERM": "dumb", "LC_ALL": "C.UTF-8"}
            os.execve(words[0], list(words), variables)
        self.seen = b""
        os.write(self.terminal, setup.encode())
        self.printed("ready")

    def printed(self, wanted: str = "") -> str:
        """What is printed between angles next, or where a text is wanted, that one."""
        until = time.monotonic() + SECONDS
        while time.monotonic() < until:
            for found in PRINTED.finditer(self.seen):
                if not wanted or found.group(1) == wanted.encode():
                    self.seen = self.seen[found.end() :]
                    return found.group(1).decode()
            if select.select([self.terminal], [], [], 1)[0]:
                self.seen += os.read(self.terminal, 65536)
        raise TimeoutError("the shell prints %r" % self.seen[-400:])

    def completed(self, line: str) -> str:
        """A line after Tab."""
        os.write(self.terminal, line.encode() + b"\t\x14")
        found = self.printed()
        os.write(self.terminal, b"\x15")
        return found

    def end(self) -> None:
        """Ends it."""
        os.kill(self.number, signal.SIGKILL)
        os.waitpid(self.number, 0)
        os.close(self.terminal)


def wrong_line(words: Sequence[str], setup: str) -> str:
    """A line that a shell does not complete as it should."""
    with tempfile.TemporaryDirectory() as folder:
        put_files(folder)
        shell = Shell(words, setup, folder)
        try:
            for line, wanted in LINES:
                found = shell.completed(line)
                if found != wanted:
                    return "'%s' and Tab give '%s' in place of '%s'" % (line, found, wanted)
        finally:
            shell.end()
    return ""


def completes_in_bash() -> str:
    return wrong_line([need("bash"), *BASH], BASH_SETUP)


def completes_in_zsh() -> str:
    return wrong_line([need("zsh"), *ZSH], ZSH_SETUP)


def completes_in_fish() -> str:
    """By the list that fish has of what a line could be."""
    fish = need("fish")
    with tempfile.TemporaryDirectory() as folder:
        put_files(folder)
        variables = {"HOME": folder, "XDG_DATA_DIRS": os.path.join(folder, "made", "share"), "LC_ALL": "C.UTF-8",
                     "PATH": "%s:%s" % (os.path.join(folder, "made", "bin"), os.environ["PATH"])}
        for line, wanted in LINES:
            ended = subprocess.run([fish, "-c", FISH % line], stdout=subprocess.PIPE, cwd=folder, env=variables)
            listed = [it.split("\t")[0] for it in ended.stdout.decode().splitlines()]
            whole = [line[: line.rindex(" ") + 1] + it for it in listed]
            if whole != ([] if wanted == line else [wanted.rstrip(" ")]):
                return "'%s' and Tab give %s in place of '%s'" % (line, whole, wanted)
    return ""


def checks() -> Checks:
    yield from named("completions", (completes_in_bash, completes_in_zsh, completes_in_fish))
