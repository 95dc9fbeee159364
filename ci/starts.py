"""What a start of `tools/tree` or `tools/check` loads: a module more than these costs each call some milliseconds."""
import os
import subprocess
import sys
from typing import List, Set

from running import SECONDS, TOP, Checks, named

# modules of Python, each with its parts; those of other versions than 3.11 are among them
OF_PYTHON = frozenset(
    "__future__ _ast _collections _colorize _compat_pickle _functools _locale _opcode _operator _posixsubprocess "
    "_sre _struct _typing _weakrefset annotationlib argparse ast collections contextlib copyreg enum errno fcntl "
    "functools gettext heapq importlib io itertools keyword locale math msvcrt operator os re reprlib select selectors signal "
    "sre_compile sre_constants sre_parse subprocess sys threading time types typing warnings".split(" "))
# modules of the package, beside the packages that they are in
OWN = frozenset(
    "command_line.arguments command_line.many command_line.uses common.ending common.failures "
    "common.files common.messages common.places common.progress program.process program.statuses provenance.built "
    "provenance.choice provenance.dist provenance.memory provenance.sources scripts.names scripts.others "
    "scripts.replies scripts.resource_names scripts.script views.facts".split(" "))
# those of each tool beside them
OF_TOOLS = {
    "tree": ("command_line.tree", "views.placement", "views.view_tree"),
    "check": ("command_line.check", "lint", "lint.github", "lint.refused_lines", "lint.registry"),
}


def loaded(*words: str) -> List[str]:
    """The modules that Python loads for some words, in their order."""
    ended = subprocess.run([sys.executable, "-X", "importtime", *words], stdout=subprocess.DEVNULL, stderr=subprocess.PIPE,
                           cwd=TOP, timeout=SECONDS, check=True)
    return [line.rpartition("|")[2].strip() for line in ended.stderr.decode().splitlines() if line.count("|") == 2][1:]


def may_be_loaded(name: str, tool: str, packages: Set[str]) -> bool:
    """Whether a start of a tool may load a module."""
    first, _, rest = name.partition(".")
    if first == "vindaesk":
        return not rest or rest in OWN or rest in OF_TOOLS[tool] or rest in packages
    return first in OF_PYTHON or name == "entry"


def a_start_loads_no_more() -> str:
    packages = {it.split(".")[0] for it in OWN}
    # what a sitecustomize or a folder of packages loads at any start is not meant
    own = set(loaded("-c", "pass"))
    for tool, last in (("tree", "views.placement"), ("check", "lint.refused_lines")):
        words = (os.path.join("tools", tool), os.path.join("examples", "card.script"))
        # the first start keeps which sources there are, for those that follow
        found = [loaded(*words) for _ in range(2)][-1]
        if "vindaesk." + last not in found:
            return "it does not show what is loaded: %s" % found
        more = [it for it in found if it not in own and not may_be_loaded(it, tool, packages)]
        if more:
            return "a start of %s loads %s" % (tool, ", ".join(more))
    return ""


def checks() -> Checks:
    yield from named("starts", (a_start_loads_no_more,))
