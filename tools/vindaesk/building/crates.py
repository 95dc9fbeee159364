"""The crates of a checkout: what each uses, and how much time and memory its proof is likely to take."""
import os
import re
from typing import Dict, List, NamedTuple, Tuple

from ..common.failures import Failure, NOT_BUILT

# the folders of a crate that a proof reads
READ = ("src", "specs", "proofs")
ROW = re.compile(r"([a-z][a-z0-9_]*)[^:]*:(.*)")


class Crate(NamedTuple):
    """A crate: its line of crates.txt, the crates of the checkout that it uses itself, and how many lines of code, and
    of definitions and proofs, it has."""

    name: str
    row: str
    uses: Tuple[str, ...]
    code: int
    proofs: int


def lines_in(folder: str, ending: str) -> int:
    """How many lines those files below a folder have whose names end so."""
    count = 0
    for at, _, names in os.walk(folder):
        for name in names:
            if name.endswith(ending):
                with open(os.path.join(at, name), "rb") as file:
                    count += file.read().count(b"\n")
    return count


def read(top: str) -> Dict[str, Crate]:
    """The crates that crates.txt lists, by their names."""
    with open(os.path.join(top, "crates.txt")) as file:
        rows = [it for it in map(ROW.fullmatch, file.read().splitlines()) if it]
    found = {}
    for row in rows:
        folders = [os.path.join(top, "crates", row[1], part) for part in READ]
        code, proofs = (sum(lines_in(it, ending) for it in folders) for ending in (".rt", ".antt"))
        uses = tuple(other[1] for other in rows if other[1] in row[2].split())
        found[row[1]] = Crate(row[1], row[0], uses, code, proofs)
    return found


def below(known: Dict[str, Crate], name: str, above: Tuple[str, ...] = ()) -> List[str]:
    """The crates that a crate uses, each after those that it uses itself."""
    if name in above:
        raise Failure("crates.txt names crates that use one another in a circle: " + ", ".join(above), NOT_BUILT)
    found: Dict[str, None] = {}
    for used in known[name].uses:
        found.update(dict.fromkeys([*below(known, used, (*above, name)), used]))
    return list(found)


def time(crate: Crate) -> float:
    """How long a proof takes, as a number to compare."""
    return 40 + crate.code + crate.proofs / 4


def chains(known: Dict[str, Crate], order: List[str]) -> Dict[str, float]:
    """The time of each of some crates, in their order, together with the longest chain of those that wait for it."""
    found = dict.fromkeys(order, 0.0)
    for name in reversed(order):
        found[name] += time(known[name])
        for used in known[name].uses:
            found[used] = max(found[used], found[name])
    return found


def memory(known: Dict[str, Crate], name: str, jobs: int = 1) -> float:
    """How many GB a proof by as many processes takes at most."""
    crate = known[name]
    libraries = sum(known[it].code + known[it].proofs for it in below(known, name))
    return (0.9 + crate.code / 2000 + crate.proofs / 10000 + libraries / 60000) * (0.7 + 0.3 * jobs)
