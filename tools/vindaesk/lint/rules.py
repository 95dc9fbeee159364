"""The rules of `tools/lint`, in the order in which pages list them: each module adds its own to the registry."""
from . import (
    constraint_rules, cycles, direction_rules, length_rules, picture_rules, placement_rules, source_rules, structure_rules,
    text_rules, touch_rules,
)
from .registry import RULES, Rule, Severity, rule

MODULES = (
    placement_rules, text_rules, touch_rules, picture_rules, structure_rules, constraint_rules, cycles, direction_rules,
    length_rules, source_rules,
)
__all__ = ["MODULES", "RULES", "Rule", "Severity", "rule"]

# modules use one another, so that they are not loaded in this order
PLACES = {it.__name__: place for place, it in enumerate(MODULES)}
ORDERED = sorted(RULES.values(), key=lambda it: PLACES.get(it.function.__module__, len(PLACES)))
RULES.clear()
RULES.update((it.name, it) for it in ORDERED)
