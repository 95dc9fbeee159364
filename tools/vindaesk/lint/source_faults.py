"""What is broken in sources of layouts, by the report of how they were made: values that do not fit, sizes and
resources that are missing. Only what an element itself writes counts: what a style of a library has is not known."""
from typing import FrozenSet, Iterator, List, NamedTuple, Tuple

from ..apps import boxes, draft
from ..apps.report import Note, Record
from ..apps.source_tree import SourceTree
from ..apps.source_xml import REFERENCE
from ..layouts import attributes, documents, values
from ..scripts.resource_names import Names
from ..views.facts import Place
from . import registry
from .findings import Finding
from .registry import Severity
from .source_rules import MISSING_RESOURCE, REQUIRED_SIZE, WRONG_VALUE

NO_SIZE = {boxes.NO_SIZE % name: "android:" + name for name in draft.SIZES}
# in the reason of a note on references that have no end
CIRCLE = "references lead in a circle"
# how names of resources of Android's libraries begin, which a project has without a file of its own
OF_LIBRARIES = ("abc_", "appbar_", "mtrl_", "m3_", "material_", "design_", "compat_", "notification_")


class Fault(NamedTuple):
    """What is broken at an element: the rule, the attribute, empty for the element, and why."""

    rule: str
    key: str
    why: str


def of_note(record: Record, note: Note) -> Iterator[Fault]:
    """What a note of the report says is broken."""
    if note.reason == draft.UNFIT and note.attribute in record.written:
        yield Fault(WRONG_VALUE, note.attribute, note.reason)
    if CIRCLE in note.reason and note.attribute in record.written:
        yield Fault(MISSING_RESOURCE, note.attribute, note.reason)
    key = NO_SIZE.get(note.reason)
    if key and not {key, "style"} & set(record.keys):
        yield Fault(REQUIRED_SIZE, "", "it has no %s, and Android refuses it" % key)


def unfit_in(record: Record) -> Iterator[Fault]:
    """The attributes of docs/FORMATS.md whose value, as an element has it, `aapt2` refuses. A value that is the name of
    a resource, or that data binding has, is not looked at."""
    for key, text in record.written.items():
        prefix, _, name = key.partition(":")
        if prefix != "android" or text.lstrip().startswith(("@", "?")):
            continue
        try:
            values.read(text, attributes.form_of(documents.ANDROID, name), Names())
        except values.Unfit:
            yield Fault(WRONG_VALUE, key, draft.UNFIT)


def missing_in(record: Record, trees: List[SourceTree]) -> Iterator[Fault]:
    """The resources that an element names, and that its project does not have. Styles may be those of libraries."""
    for key, text in record.written.items():
        found = REFERENCE.fullmatch(text.strip())
        if not found or found[1] or found[3] in ("style", "id") or key.startswith("tools:"):
            continue
        name = "%s/%s" % (found[3], found[4])
        is_missing = not found[2] and any(name in it.missing_ids for it in trees)
        if is_missing and not found[4].startswith(OF_LIBRARIES):
            yield Fault(MISSING_RESOURCE, key, "the project has no such resource")


def faults_of(record: Record, trees: List[SourceTree]) -> Iterator[Fault]:
    """What is broken at an element."""
    for note in record.notes:
        yield from of_note(record, note)
    yield from unfit_in(record)
    yield from missing_in(record, trees)


def finding_of(fault: Fault, record: Record, places: Tuple[Place, ...]) -> Finding:
    """A fault as other rules have what they find."""
    name = "v%d %s" % (record.number, record.element) if record.number else record.element
    written = '%s="%s": ' % (fault.key, record.written[fault.key]) if fault.key else ""
    stable = ("%s %s" % (record.element, fault.key)).rstrip()
    return Finding(fault.rule, Severity.ERROR, record.number, name, stable, written + fault.why, places, [])


def found_in(record: Record, places: Tuple[Place, ...], trees: List[SourceTree], ignored: FrozenSet[str]) -> Iterator[Finding]:
    """The findings at an element. `trees` are the sources of its project, none where it is a file by itself; `ignored`
    the rules that it has passed over."""
    for fault in dict.fromkeys(faults_of(record, trees)):
        if not registry.passed_over(ignored, registry.RULES[fault.rule]):
            yield finding_of(fault, record, places)
