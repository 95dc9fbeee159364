"""The commands that packages have, as their manual pages and completions show them."""
import dataclasses
from typing import List

from ..installing.commands import Command, command_of
from . import commands

SUMMARY = "run Android layouts without a device or an emulator"
TEXT = """Carries out scripts that build, lay out, paint and touch trees of Android's views, and prints exact bounds,
touch dispatch and pixels.

The program that does it is proved correct: whatever work it saves from frame to frame, its output is that of laying
out and painting everything anew. Each command below has its own --help, and those that are tools have a manual page of
their own, as vindaesk-tree."""
# what is done from a checkout alone, and is in no package
CHECKOUT_ALONE = ("install", "release")


def parts() -> List[Command]:
    """All that may follow the word `vindaesk`."""
    return [command_of(it.name, it.use.summary, it.reader()) for it in commands.every() if it.name not in CHECKOUT_ALONE]


def tools() -> List[Command]:
    """Those that have a file of their own, as `vindaesk-tree`."""
    names = {it.name for it in commands.every() if it.kind is commands.Kind.TOOL}
    return [it for it in parts() if it.name in names]


def every() -> List[Command]:
    """`vindaesk`, and then its tools."""
    front = command_of("", SUMMARY, commands.prefix_options())
    return [dataclasses.replace(front, text=TEXT, parts=tuple(parts())), *tools()]
