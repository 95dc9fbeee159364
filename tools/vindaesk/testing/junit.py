"""Reports in the form of JUnit, which servers that run tests read.

A testcase has its path as `file` and its pictures in `system-out`, as GitLab, CircleCI and Jenkins read them; pytest
calls this family of reports xunit1. The strict one, xunit2, has no `file`, as the schema junit-10.xsd of Jenkins.
"""
import os
import re
import socket
import time
import xml.etree.ElementTree as ElementTree
from typing import Dict, Iterable, List, NamedTuple
from xml.etree.ElementTree import Element, SubElement

from . import report
from .problems import Sort
from .trials import Result

# the characters that XML cannot have
FORBIDDEN = re.compile("[^\t\n\u0020-\ud7ff\ue000-\ufffd\U00010000-\U0010ffff]")
FAMILIES = ("xunit1", "xunit2")
NAME = "vindaesk"
# the property with the part that a report is of, as 2/10
PART = "vindaesk.part"


class About(NamedTuple):
    """What a report says of the whole run: when it began, in seconds since 1970; how long it took, in seconds; and its
    properties."""

    begun: float
    seconds: float
    properties: Dict[str, str]


def plain(text: str) -> str:
    """A text that XML can have."""
    return FORBIDDEN.sub("?", text)


def attachments(result: Result) -> List[str]:
    """The page and the pictures of a failure, in the form in which servers show files beside it."""
    of = result.evidence
    if of is None:
        return []
    return [report.link(of), *("[[ATTACHMENT|%s]]" % os.path.abspath(of.path + ending) for ending in of.endings)]


def named(path: str) -> Element:
    """A testcase without anything."""
    folder, name = os.path.split(path)
    return Element("testcase", {"classname": plain(folder or "."), "name": plain(name)})


def add_problem(to: Element, sort: Sort, sentence: str, text: str) -> None:
    """Says why a case did not pass."""
    tag = "error" if sort.is_error() else "failure"
    SubElement(to, tag, {"type": sort.value, "message": plain(sentence)}).text = plain(text)


def case_of(result: Result, family: str) -> Element:
    """One case, with what failed."""
    made = named(result.case.name())
    made.set("time", "%.3f" % result.seconds)
    if family == "xunit1":
        made.set("file", plain(result.case.source()))
    if result.problem:
        add_problem(made, result.problem.sort, result.problem.sentence(), result.problem.text)
    rows = attachments(result)
    if rows:
        SubElement(made, "system-out").text = plain("\n".join(rows))
    return made


def count(cases: Iterable[Element], tag: str) -> str:
    """How many cases have an element."""
    return "%d" % sum(it.find(tag) is not None for it in cases)


def suite_of(cases: List[Element], about: About) -> bytes:
    """The whole report."""
    begun = time.strftime("%Y-%m-%dT%H:%M:%S", time.gmtime(about.begun))
    suite = Element("testsuite", {
        "name": NAME, "tests": "%d" % len(cases), "failures": count(cases, "failure"), "errors": count(cases, "error"),
        "skipped": count(cases, "skipped"), "time": "%.3f" % about.seconds, "timestamp": begun,
        "hostname": plain(socket.gethostname()) or "localhost",
    })
    properties = SubElement(suite, "properties")
    for name, value in about.properties.items():
        SubElement(properties, "property", {"name": name, "value": plain(value)})
    suite.extend(cases)
    SubElement(suite, "system-out")
    SubElement(suite, "system-err")
    for it in [properties, *cases]:
        it.tail = "\n  "
    suite.text = "\n  "
    suite[-1].tail = "\n"
    body: bytes = ElementTree.tostring(suite, "utf-8")
    return b'<?xml version="1.0" encoding="UTF-8"?>\n' + body[body.index(b"<testsuite") :] + b"\n"


def written(results: Iterable[Result], about: About, family: str) -> bytes:
    """The report of a run."""
    return suite_of([case_of(it, family) for it in results], about)
