"""All checks by their names: what the modules of checks yield, and the unit tests of ci/tests/."""
import importlib
import os
from typing import Dict, Iterator, List, Sequence, Tuple

import unit_tests
from running import TOP, Check, Checks

# each has a function `checks`
MODULES = (
    "examples", "pictures", "pages", "names", "promises", "layers", "broken", "limits", "tables", "launcher", "commands", "gate", "itself",
    "tools", "starts", "many", "golden", "hostile", "plugin", "grammar", "apps", "apps_report", "app_goldens",
    "fuzz_apps", "resources", "fuzz_resources", "driving", "facts", "serving", "lints", "lint_rules", "lint_formats",
    "browser", "previews", "languages", "farms", "installed", "packages", "shells", "release_checks", "package",
    "house", "edits", "additions", "words", "spelling", "stored", "native", "native_sessions",
    "web_module", "play", "play_use",
)
# those that are run only where they are asked for
ON_REQUEST = ("memory", "peaks", "out_of_memory", "engines")
# what takes longest, by its name: ci/checks --slowest 40 | sed -n 's/^[0-9.]* seconds: //p' > ci/slow.txt
SLOW = os.path.join(TOP, "ci", "slow.txt")


def of_module(name: str) -> Checks:
    """The checks of a module; one that cannot be loaded is a check that fails."""
    try:
        yield from importlib.import_module(name).checks()
    except Exception as error:
        yield "ci/%s.py" % name, ("its checks cannot be loaded: %s: %s" % (type(error).__name__, error)).format


def every(modules: Sequence[str]) -> Iterator[Tuple[str, Check]]:
    """The checks of some modules, and the unit tests."""
    for module in modules:
        yield from of_module(module)
    yield from unit_tests.checks()


def has_word(name: str, words: Sequence[str]) -> bool:
    """Whether a name has one of the words, where there are any."""
    return not words or any(word in name for word in words)


def found(words: Sequence[str] = ()) -> Dict[str, Check]:
    """The checks whose name has one of the words; without words all except those that are run on request. Two of one
    name are an error."""
    made: Dict[str, Check] = {}
    for name, check in every(MODULES + ON_REQUEST if words else MODULES):
        if name in made:
            raise ValueError("two checks have the name '%s'" % name)
        made[name] = check
    return {name: check for name, check in made.items() if has_word(name, words)}


def slowest_first(names: Sequence[str]) -> List[str]:
    """The names in the order in which they are best begun: those of slow.txt first."""
    with open(SLOW, encoding="utf-8") as file:
        rank = {name: number for number, name in enumerate(file.read().splitlines())}
    return sorted(names, key=lambda name: rank.get(name, len(rank)))
