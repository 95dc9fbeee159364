"""The objects of SARIF 2.1.0 that tools/lint writes, by the standard (OASIS, 2020): for each section the properties
that an object may have, those that it has to have, and what their values are.

A value is a type of JSON, a tuple of the words that are allowed, the name of another object, or a list of one of these.
"""
from typing import Any, Dict, FrozenSet, List, NamedTuple, Tuple, Union

Kind = Union[type, str, Tuple[str, ...], List[Any]]
LEVEL = ("none", "note", "warning", "error")


class Form(NamedTuple):
    """An object: its section, the properties that it has to have, those of which the values are known, and others that
    it may have."""

    section: str
    required: FrozenSet[str]
    known: Dict[str, Kind]
    others: FrozenSet[str] = frozenset()


def form(section: str, required: str, known: Dict[str, Kind], others: str = "") -> Form:
    """The same of names between spaces."""
    return Form(section, frozenset(required.split()), known, frozenset(others.split()))


FORMS = {
    "sarifLog": form("3.13", "version runs", {"version": ("2.1.0",), "$schema": str, "runs": ["run"]},
                     "inlineExternalProperties properties"),
    "run": form(
        "3.14", "tool", {"tool": "tool", "results": ["result"], "columnKind": ("utf16CodeUnits", "unicodeCodePoints"),
                         "originalUriBaseIds": dict},
        "invocations conversion language versionControlProvenance artifacts logicalLocations graphs "
        "automationDetails runAggregates baselineGuid redactionTokens defaultEncoding defaultSourceLanguage "
        "newlineSequences externalPropertyFileReferences threadFlowLocations taxonomies addresses translations policies "
        "webRequests webResponses specialLocations properties"),
    "tool": form("3.18", "driver", {"driver": "toolComponent"}, "extensions properties"),
    "toolComponent": form(
        "3.19", "name", {"name": str, "version": str, "rules": ["reportingDescriptor"]},
        "guid organization product productSuite shortDescription fullDescription fullName semanticVersion "
        "dottedQuadFileVersion releaseDateUtc downloadUri informationUri globalMessageStrings notifications taxa locations "
        "language contents isComprehensive localizedDataSemanticVersion minimumRequiredLocalizedDataSemanticVersion "
        "associatedComponent translationMetadata supportedTaxonomies properties"),
    "reportingDescriptor": form(
        "3.49", "id", {"id": str, "shortDescription": "multiformatMessageString",
                       "fullDescription": "multiformatMessageString",
                       "defaultConfiguration": "reportingConfiguration", "properties": dict},
        "deprecatedIds guid deprecatedGuids name deprecatedNames messageStrings helpUri help relationships"),
    "multiformatMessageString": form("3.12", "text", {"text": str}, "markdown properties"),
    "reportingConfiguration": form("3.50", "", {"level": LEVEL}, "enabled rank parameters properties"),
    "result": form(
        "3.27", "message", {"ruleId": str, "ruleIndex": int, "level": LEVEL, "message": "message", "locations": ["location"],
                            "partialFingerprints": dict, "relatedLocations": ["location"], "properties": dict},
        "rule kind guid correlationGuid occurrenceCount analysisTarget fingerprints stacks codeFlows graphs graphTraversals "
        "suppressions baselineState rank attachments hostedViewerUri workItemUris provenance fixes taxa webRequest "
        "webResponse"),
    "message": form("3.11", "", {"text": str}, "markdown id arguments properties"),
    "location": form(
        "3.28", "", {"id": int, "physicalLocation": "physicalLocation", "logicalLocations": ["logicalLocation"],
                     "message": "message"}, "annotations relationships properties"),
    "physicalLocation": form("3.29", "", {"artifactLocation": "artifactLocation", "region": "region"},
                             "address contextRegion properties"),
    "artifactLocation": form("3.4", "", {"uri": str, "uriBaseId": str}, "index description properties"),
    "region": form("3.30", "", {"startLine": int, "startColumn": int},
                   "endLine endColumn charOffset charLength byteOffset byteLength snippet message sourceLanguage properties"),
    "logicalLocation": form("3.33", "", {"name": str, "fullyQualifiedName": str, "kind": str},
                            "index decoratedName parentIndex properties"),
}
# whole numbers count from 1, except these, and no number is negative
FROM_ZERO = ("ruleIndex", "id")


def unfit(value: Any, kind: Kind, where: str = "sarifLog") -> str:
    """Where a value is not of a kind; nothing where it is."""
    if isinstance(kind, list):
        inner = (unfit(it, kind[0], "%s[%d]" % (where, at)) for at, it in enumerate(value))
        return next(filter(None, inner), "") if isinstance(value, list) else "%s is no array" % where
    if isinstance(kind, tuple):
        return "" if value in kind else "%s is %r" % (where, value)
    if isinstance(kind, str):
        return unfit_object(value, kind, where)
    if kind is int:
        least = 0 if where.endswith(FROM_ZERO) else 1
        return "" if type(value) is int and value >= least else "%s is %r" % (where, value)
    return "" if isinstance(value, kind) else "%s is %r" % (where, value)


def unfit_object(value: Any, name: str, where: str) -> str:
    """The same of an object."""
    of = FORMS[name]
    if not isinstance(value, dict):
        return "%s is no object" % where
    if not of.required <= set(value) or not set(value) <= of.others | set(of.known):
        return "%s (%s) has %s" % (where, of.section, sorted(value))
    found = (unfit(value[it], kind, "%s.%s" % (where, it)) for it, kind in of.known.items() if it in value)
    return next(filter(None, found), "")
