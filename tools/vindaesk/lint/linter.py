"""What rules find in a subject, in each configuration."""
import importlib.machinery
import os
import types
from typing import Dict, FrozenSet, Iterable, Iterator, List, Sequence, Tuple

from ..common.failures import Failure, NOT_RUN
from ..scripts.replies import Refused
from ..scripts.script import Script
from ..views.facts import Place
from ..views.screens import Screen
from . import cycles, findings, registry, subjects
from .findings import Finding
from .matrix import Configuration
from .page import Page
from .registry import Rule
from .seen import Seen
from .subjects import Subject

# what is added where bounds may be others on a device
NOT_EXACT = " (its bounds are not exact)"


def said_by(rule: Rule, it: Seen, page: Page) -> Iterator[str]:
    """The sentences of a rule at a view."""
    try:
        yield from map(str, rule.function(it, page))
    except Exception as error:
        if isinstance(error, Failure):
            raise
        why = "the rule %s failed at v%d: %s: %s" % (rule.name, it.view.number, type(error).__name__, error)
        raise Failure(why, NOT_RUN)


def laid_out(made: Script, screen: Screen, refused: Refused) -> Tuple[Page, str]:
    """What a script leaves on a screen, and the screen in words."""
    found = subjects.run_of(made, Configuration(screen.dpi, screen.width), refused)
    if found.page is None:
        raise Failure("there is no tree: %s" % refused.first())
    return found.page, found.name


def places_of(it: Seen, file: str) -> Tuple[Place, ...]:
    """Where a view is written; the file alone where it has no element."""
    return it.source.places if it.source else (Place(file, 1),)


def findings_of(page: Page, chosen: Dict[str, Rule], file: str = "-") -> Iterator[Finding]:
    """What rules find on a page, by the views in preorder. `file` is where views are that have no element."""
    for it in page.views.values():
        ignored: FrozenSet[str] = it.source.ignored if it.source else frozenset()
        for name, rule in chosen.items():
            if registry.passed_over(ignored, rule):
                continue
            note = NOT_EXACT if rule.by_bounds and it.source and not it.source.has_exact_bounds else ""
            for sentence in said_by(rule, it, page):
                yield Finding(name, rule.severity, it.view.number, it.name(), findings.stable_name(it.view), sentence + note,
                              places_of(it, file), [])


def add(known: Dict[Tuple[object, ...], Finding], found: Iterable[Finding], configuration: str) -> None:
    """Adds findings of a configuration; those that were found in another one have one more."""
    for it in found:
        kept = known.setdefault((it.rule, it.places, it.number, it.sentence), it)
        if configuration not in kept.configurations:
            kept.configurations.append(configuration)


def found_in(subject: Subject, configurations: Sequence[Configuration], chosen: Dict[str, Rule]) -> List[Finding]:
    """What rules find in a subject, by its views in preorder, each with the configurations in which it holds."""
    known: Dict[Tuple[object, ...], Finding] = {}
    for wanted in configurations:
        with subject.laid_out(wanted) as laid:
            for it in laid.page.placed if laid.page else ():
                it.view.known_source = laid.sources.get(it.view.number, it.view.known_source)
            if cycles.NAME in chosen:
                add(known, cycles.found_in(laid, subject), laid.name)
            add(known, (it for it in laid.broken if it.rule in chosen), laid.name)
            if laid.page:
                add(known, findings_of(laid.page, chosen, subject.file), laid.name)
    return sorted(known.values(), key=lambda it: it.number)


def load(path: str) -> None:
    """Adds the rules of a file in Python."""
    if not os.path.isfile(path):
        raise Failure("there is no file %s" % path, NOT_RUN)
    loader = importlib.machinery.SourceFileLoader("own_rules", path)
    try:
        loader.exec_module(types.ModuleType(loader.name))
    except Exception as error:
        raise Failure("the rules of %s cannot be loaded: %s: %s" % (path, type(error).__name__, error), NOT_RUN)
