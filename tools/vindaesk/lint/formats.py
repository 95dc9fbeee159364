"""Findings as text, JSON and GitHub's commands; sarif.py and junit.py have two further forms."""
import json
from typing import Callable, Dict, Sequence

from ..common import messages
from ..views.facts import Place
from . import github
from .findings import Finding
from .registry import Rule, Severity

# of the form that `--format json` writes
JSON_VERSION = 1
LEVELS = {Severity.ERROR: "error", Severity.WARNING: "warning", Severity.NOTE: "notice"}

Rules = Dict[str, Rule]
# what is found by which rules, and why something could not be looked at, a sentence each
Written = Callable[[Sequence[Finding], Rules, Sequence[str]], str]


def line_of(it: Finding) -> str:
    """A finding as compilers write theirs, which editors jump to."""
    around = " [included by %s]" % it.included if it.included else ""
    return messages.printable("%s: %s %s: %s%s" % (it.place, it.severity.word, it.rule, it.message, around))


def text(found: Sequence[Finding], rules: Rules, failed: Sequence[str] = ()) -> str:
    """A line for each; what failed is on standard error."""
    return "".join(line_of(it) + "\n" for it in found)


def place_record(it: Place) -> Dict[str, object]:
    """A place; the column is null where there is none."""
    return {"file": it.file, "line": it.line, "column": it.column or None}


def record(it: Finding) -> Dict[str, object]:
    """A finding."""
    made = place_record(it.place)
    made.update(
        severity=it.severity.word, rule=it.rule, view=it.number or None, name=it.name, sentence=it.sentence,
        configurations=it.configurations, included=[place_record(at) for at in it.places[1:]])
    return made


def as_json(found: Sequence[Finding], rules: Rules, failed: Sequence[str] = ()) -> str:
    """One object, a finding a line."""
    lines = ",\n".join("  " + json.dumps(record(it), ensure_ascii=False) for it in found)
    why = json.dumps(list(failed), ensure_ascii=False)
    return '{"version": %d, "failures": %s, "findings": [\n%s\n]}\n' % (JSON_VERSION, why, lines)


def commands(found: Sequence[Finding], rules: Rules, failed: Sequence[str] = ()) -> str:
    """A workflow command of GitHub for each."""
    lines = [github.command("error", None, "lint", it) for it in failed]
    lines += [github.command(LEVELS[it.severity], it.place, it.rule, it.message) for it in found]
    return "".join(it + "\n" for it in lines)


def as_sarif(found: Sequence[Finding], rules: Rules, failed: Sequence[str] = ()) -> str:
    """A log of SARIF."""
    from . import sarif

    return sarif.written(found, rules, failed)


def as_junit(found: Sequence[Finding], rules: Rules, failed: Sequence[str] = ()) -> str:
    """A report in the form of JUnit."""
    from . import junit

    return junit.written(found, rules, failed)


# those of which a module of their own is loaded where they are asked for
FORMATS: Dict[str, Written] = {
    "text": text, "json": as_json, "sarif": as_sarif, "github": commands, "junit": as_junit,
}
