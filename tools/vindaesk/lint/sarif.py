"""Findings as SARIF 2.1.0 (OASIS), the form that code hosts and editors read. Section numbers are those of the
standard."""
import hashlib
import json
import os
from typing import Dict, List, Sequence
from urllib.parse import quote

from ..common.places import version
from ..views.facts import Place
from . import baseline, sections
from .findings import Finding
from .registry import Rule, Severity
from .sections import Section

SCHEMA = "https://docs.oasis-open.org/sarif/sarif/v2.1.0/errata01/os/schemas/sarif-schema-2.1.0.json"
# 3.27.10
LEVELS = {Severity.ERROR: "error", Severity.WARNING: "warning", Severity.NOTE: "note"}
# 3.27.17: the name says the version of how it is made
FINGERPRINT = "vindaesk/v1"

# 3.14.14: what relative paths start from, by the name that code hosts have for it
BASE = "%SRCROOT%"
BASES = {BASE: {"description": {"text": "the folder in which lint was called"}}}

Record = Dict[str, object]


def uri(path: str) -> str:
    """A path as a relative reference below the folder of the call, or else as a URI (3.4.3)."""
    plain = os.path.normpath(path)
    if plain.startswith(os.pardir + os.sep):
        plain = os.path.abspath(plain)
    quoted = quote(plain.replace(os.sep, "/"), safe="/!@")
    return "file://" + quoted if os.path.isabs(plain) else quoted


def artifact(path: str) -> Record:
    """A file (3.4); a relative reference has its base."""
    made = uri(path)
    return {"uri": made} if made.startswith("file://") else {"uri": made, "uriBaseId": BASE}


def location(it: Place) -> Record:
    """A place in a file (3.28, 3.29, 3.30)."""
    physical: Record = {"artifactLocation": artifact(it.file)}
    if it.line:
        physical["region"] = {"startLine": it.line, **({"startColumn": it.column} if it.column else {})}
    return {"physicalLocation": physical}


def fingerprint(it: Finding) -> str:
    """A word that is the same for the same finding in another run."""
    return hashlib.sha256("\0".join(baseline.key_of(it)).encode("utf-8", "surrogatepass")).hexdigest()[:32]


def related(it: Place, number: int) -> Record:
    """A place that includes the file of a finding."""
    made = location(it)
    made.update(id=number, message={"text": "it includes the file"})
    return made


def result(it: Finding, index: int) -> Record:
    """A finding (3.27)."""
    where = location(it.place)
    where["logicalLocations"] = [{"name": it.name, "fullyQualifiedName": it.stable_name, "kind": "element"}]
    made: Record = {
        "ruleId": it.rule, "ruleIndex": index, "level": LEVELS[it.severity], "message": {"text": it.message},
        "locations": [where],
        "partialFingerprints": {FINGERPRINT: fingerprint(it)},
        "properties": {"configurations": it.configurations},
    }
    if it.places[1:]:
        made["relatedLocations"] = [related(place, number) for number, place in enumerate(it.places[1:], 1)]
    return made


def rule(it: Rule, known: Dict[str, Section]) -> Record:
    """A rule (3.49), with what its section says."""
    made: Record = {"id": it.name, "shortDescription": {"text": it.says},
                    "defaultConfiguration": {"level": LEVELS[it.severity]}}
    section = known.get(it.name)
    if section:
        made["fullDescription"] = {"text": section.meaning}
    if it.android:
        made["properties"] = {"android": list(it.android)}
    return made


def invocation(failed: Sequence[str]) -> Record:
    """How the run ended (3.20), with what could not be looked at (3.58)."""
    made: Record = {"executionSuccessful": not failed}
    if failed:
        made["toolExecutionNotifications"] = [{"level": "error", "message": {"text": it}} for it in failed]
    return made


def written(found: Sequence[Finding], rules: Dict[str, Rule], failed: Sequence[str] = ()) -> str:
    """The whole log (3.13)."""
    places = {name: number for number, name in enumerate(rules)}
    results: List[Record] = [result(it, places[it.rule]) for it in found]
    known = sections.read()
    driver: Record = {"name": "vindaesk-lint", "version": version().rpartition(" ")[2],
                      "rules": [rule(it, known) for it in rules.values()]}
    run: Record = {"tool": {"driver": driver}, "columnKind": "unicodeCodePoints", "results": results,
                   "originalUriBaseIds": BASES,
                   "invocations": [invocation(failed)]}
    return json.dumps({"$schema": SCHEMA, "version": "2.1.0", "runs": [run]}, indent=1, ensure_ascii=False) + "\n"
