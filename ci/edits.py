"""The edits that must fail, crates/*/must-fail/*.edit: each says what a user would see were it taken (`# why:`), and
most say where the prover has to refuse it (`# clause:`). `ci/edits` prints where it refused each, from what `rt ci`
printed, and writes the lines `# clause:`.

A place is the file, its function, and the clause, as `src/links.rt unlink kept`; or the file of a law, and the law.
Where a function is refused for another reason than a clause with a name, the last word is the kind of the goal:
`returns` for what it promises, `requires` for what a call asks, `loop`, `invariant_of` for a type, `overflow_sub`. An
edit that is refused at several places has a line for each, since `rt ci` prints one of them. A line without a last word
is met by each goal of the function."""
import glob
import os
import re
from typing import Dict, Iterator, List, NamedTuple, Tuple

from running import TOP, Checks, Skipped

WHY = "# why: "
CLAUSE = "# clause: "
# the variable that names the file with what `rt ci` printed, which `.ci/run` sets
LOG = "VINDAESK_PROOFS_LOG"
# what `rt ci` prints of an edit: its crate, its name, and where it was refused
REFUSED = re.compile(
    r"must-fail (\w+)/([\w.-]+)\.edit: refused, as it must be(?: \([^)]*\))?: (?:note: )?(?:\./)?(\S+?):(\d+):\d+: (.*)"
)
FUNCTION = re.compile(r"\s*(?:pub(?:\([a-z]+\))? )?(?:const )?fn (\w+)")
# a goal, or a law, an example or another item of a file of definitions or proofs, as a message names it. `rt` cuts a
# message, so it may end before
GOAL = re.compile(r"\(`([^`]+)`\)")
ITEM = re.compile(r"(?:error: )?`([^`]+)`: ")
# what the name of a goal has of the clause, or of the kind; between them are the branches on the way to it
CLAUSE_OF_GOAL = re.compile(r"-clause-(\w+)$")
KIND_OF_GOAL = re.compile(r"(returns|requires|loop|invariant_of|overflow_[a-z]+)(?![a-z_])")


class Edit(NamedTuple):
    """An edit: its crate, its name without `.edit`, and its lines."""

    crate: str
    name: str
    lines: List[str]

    def said(self, mark: str) -> List[str]:
        """What its lines say that begin with a mark."""
        return [line[len(mark):].strip() for line in self.lines if line.startswith(mark)]

    def with_clauses(self, *clauses: str) -> List[str]:
        """Its lines with these lines `# clause:`, after the one that says why."""
        lines = [line for line in self.lines if not line.startswith(CLAUSE)]
        after = next((number for number, line in enumerate(lines, 1) if line.startswith(WHY)), 0)
        return [*lines[:after], *(CLAUSE + it for it in clauses), *lines[after:]]

    def names(self, place: str) -> bool:
        """Whether it has a line for a place. Where a message was cut, the place lacks its last word."""
        return any(all(map(str.__eq__, it.split(), place.split())) for it in self.said(CLAUSE))


def path_of(crate: str, name: str) -> str:
    return os.path.join(TOP, "crates", crate, "must-fail", name + ".edit")


def edits() -> Iterator[Edit]:
    """The edits of all crates, by crate and name."""
    for path in sorted(glob.glob(path_of("*", "*"))):
        with open(path, encoding="utf-8") as file:
            yield Edit(path.split(os.sep)[-3], os.path.basename(path)[: -len(".edit")], file.read().splitlines())


def function_at(crate: str, path: str, number: int) -> str:
    """The function of a file of sources that has a line, by the line's number from 1, or that has this line as one of
    its attributes."""
    with open(os.path.join(TOP, "crates", crate, path), encoding="utf-8") as file:
        lines = file.read().splitlines()
    is_before = lines[number - 1].lstrip().startswith("#[")
    found = map(FUNCTION.match, lines[number:] if is_before else lines[number - 1::-1])
    return next((it[1] for it in found if it), "")


def of_goal(name: str) -> str:
    """What of a goal's name stays when the code has other branches: its clause, or its kind; of a law the name."""
    found = CLAUSE_OF_GOAL.search(name) or KIND_OF_GOAL.search(name)
    return found[1] if found else name


def place(crate: str, path: str, number: int, message: str) -> str:
    """Where an edit was refused, in words that stay when lines move."""
    is_source = path.startswith("src/")
    found = GOAL.search(message) if is_source else ITEM.match(message)
    words = [path, function_at(crate, path, number) if is_source else "", of_goal(found[1]) if found else ""]
    return " ".join(word for word in words if word)


def refusals(log: str) -> Dict[Tuple[str, str], str]:
    """Where each edit was refused, by its crate and its name, as a log says it."""
    found = [REFUSED.search(line) for line in log.splitlines()]
    return {(it[1], it[2]): place(it[1], it[3], int(it[4]), it[5]) for it in found if it}


def unexplained() -> str:
    """Names the edits that have not just one line that says why, or nothing."""
    wrong = ["%s/%s" % (it.crate, it.name) for it in edits() if [bool(text) for text in it.said(WHY)] != [True]]
    return "not one line '%s..': %s" % (WHY, " ".join(wrong)) if wrong else ""


def refused_elsewhere(places: Dict[Tuple[str, str], str]) -> str:
    """Names the edits that were not refused at the clause that they name, or nothing."""
    wrong = []
    for it in edits():
        place = places.get((it.crate, it.name), "nowhere that the log says")
        if it.said(CLAUSE) and not it.names(place):
            wrong.append("%s/%s: refused at %s, not at %s" % (it.crate, it.name, place, " or ".join(it.said(CLAUSE))))
    return "; ".join(wrong)


def read_log(path: str) -> Dict[Tuple[str, str], str]:
    """Where each edit was refused, by the file with what `rt ci` printed."""
    with open(path, encoding="utf-8", errors="replace") as file:
        return refusals(file.read())


def refused_at_their_clauses() -> str:
    """Which edits were not refused where they say, in the run of `rt ci` that the variable names."""
    path = os.environ.get(LOG, "")
    if not path:
        raise Skipped(LOG, "%s names no file with what rt ci printed; .ci/run sets it" % LOG)
    return refused_elsewhere(read_log(path))


def checks() -> Checks:
    yield "edits: each has its line 'why'", unexplained
    yield "edits: each is refused at the clause that it names", refused_at_their_clauses
