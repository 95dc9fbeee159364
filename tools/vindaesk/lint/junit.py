"""Findings as a report in the form of JUnit, which servers that run tests read."""
import re
from typing import Dict, List, Sequence
from xml.etree.ElementTree import Element, SubElement, tostring

from ..common.messages import printable
from .findings import Finding
from .formats import Rules, line_of

# what XML cannot have
FORBIDDEN = re.compile("[^\t\n\u0020-\ud7ff\ue000-\ufffd\U00010000-\U0010ffff]")


def plain(whole: str) -> str:
    """A text that XML can have."""
    return FORBIDDEN.sub("\ufffd", whole)


def case(suite: Element, rule: str, file: str, found: List[Finding]) -> None:
    """Adds the test of a rule and a file, which fails where something is found."""
    made = SubElement(suite, "testcase", classname=rule, name=plain(file or "nothing is found"), time="0")
    if found:
        message = "%d finding%s" % (len(found), "s" if len(found) > 1 else "")
        failure = SubElement(made, "failure", type=found[0].severity.word, message=message)
        failure.text = plain("".join(line_of(it) + "\n" for it in found))


def failed_case(suite: Element, number: int, why: str) -> None:
    """Adds the error of something that could not be looked at."""
    made = SubElement(suite, "testcase", classname="lint", name="failure %d" % number, time="0")
    SubElement(made, "error", message=plain(printable(why)))


def written(found: Sequence[Finding], rules: Rules, failed: Sequence[str] = ()) -> str:
    """A report in the form of JUnit: each rule with each file in which it finds something is a test that fails, each
    rule that finds nothing one that passes, and what could not be looked at an error."""
    by_rule: Dict[str, Dict[str, List[Finding]]] = {name: {} for name in rules}
    for it in found:
        by_rule[it.rule].setdefault(it.place.file, []).append(it)
    suite = Element("testsuite", name="lint")
    for name, by_file in by_rule.items():
        for file, at in by_file.items():
            case(suite, name, file, at)
        if not by_file:
            case(suite, name, "", [])
    for number, why in enumerate(failed, 1):
        failed_case(suite, number, why)
    count = sum(map(len, by_rule.values()))
    counts = {"tests": len(suite), "failures": count, "errors": len(failed), "skipped": 0, "time": 0}
    suite.attrib.update({name: str(at) for name, at in counts.items()})
    return '<?xml version="1.0" encoding="utf-8"?>\n' + tostring(suite, encoding="unicode") + "\n"
