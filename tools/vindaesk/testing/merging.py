"""Makes one report of those of several parts, and finds what is in none of them, or in more than one."""
import os
import xml.etree.ElementTree as ElementTree
from typing import Dict, List, NamedTuple, Sequence, Set
from xml.etree.ElementTree import Element

from ..common import files
from ..common.failures import Failure
from . import junit
from .case import Case
from .problems import Sort

# what a report begins with
SUITES = ("testsuite", "testsuites")
NOWHERE = "no report has it: was its part run to its end?"


class Merged(NamedTuple):
    """The testcases of all reports, each once; the cases that none has; the names of those that several have, and of
    those that are not among the cases; and what is wrong with the reports."""

    testcases: List[Element]
    missing: List[Case]
    twice: List[str]
    others: List[str]
    wrong: List[str]


def name_of(testcase: Element) -> str:
    """The path of a case, as its run has named it."""
    return os.path.normpath(os.path.join(testcase.get("classname", ""), testcase.get("name", "")))


def is_passed(testcase: Element) -> bool:
    """Whether a case passed."""
    return testcase.find("error") is None and testcase.find("failure") is None


def rank(testcase: Element) -> int:
    """How much a testcase says: one that was run more than one that was not, and a failure more than none."""
    error = testcase.find("error")
    if error is not None and error.get("type") == Sort.NOT_RUN.value:
        return 0
    return 1 if is_passed(testcase) else 2


def parts_missing(parts: Set[str]) -> List[str]:
    """The parts, of those that belong together, that no report is of."""
    numbers = {tuple(map(int, it.split("/"))) for it in parts if it.replace("/", "").isdigit()}
    totals = {of for _, of in numbers}
    return ["there is no report of part %d of %d" % (place, of) for of in sorted(totals)
            for place in range(1, of + 1) if (place, of) not in numbers]


def merged(paths: Sequence[str], cases: Sequence[Case]) -> Merged:
    """The reports of some paths together, beside the cases that they should have."""
    found: Dict[str, Element] = {}
    twice: List[str] = []
    wrong: List[str] = []
    parts: Set[str] = set()
    for path in paths:
        try:
            suite = ElementTree.fromstring(files.read(path))
        except (Failure, ElementTree.ParseError) as error:
            wrong.append(str(error) if isinstance(error, Failure) else "%s is no whole report: %s" % (path, error))
            continue
        if suite.tag not in SUITES:
            wrong.append("%s is no report of JUnit: it begins with <%s>" % (path, suite.tag))
            continue
        parts |= {it.get("value", "") for it in suite.iter("property") if it.get("name") == junit.PART}
        for testcase in suite.iter("testcase"):
            name = name_of(testcase)
            twice += [name] if name in found else []
            found[name] = max(found.get(name, testcase), testcase, key=rank)
    known = {os.path.normpath(junit.plain(case.name())): case for case in cases}
    missing = [case for name, case in known.items() if name not in found]
    others = [name for name in found if name not in known]
    whole = [found[name] if name in found else not_run(case) for name, case in known.items()]
    whole += [found[name] for name in others]
    return Merged(whole, missing, sorted(set(twice)), others, wrong + parts_missing(parts))


def not_run(case: Case) -> Element:
    """The testcase of a case that no report has."""
    made = junit.named(case.name())
    made.set("time", "0.000")
    junit.add_problem(made, Sort.NOT_RUN, NOWHERE, NOWHERE)
    return made


def seconds(of: Merged) -> float:
    """How long all cases took together, in seconds."""
    found = 0.0
    for testcase in of.testcases:
        try:
            found += float(testcase.get("time") or 0)
        except ValueError:
            continue
    return found
