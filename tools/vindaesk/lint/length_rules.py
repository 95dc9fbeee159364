"""Rules on lengths."""
from typing import Iterator

from .page import Page
from .registry import Severity, rule
from .seen import Seen
from .text_rules import LENGTH

UNITS = {"px": "PxUsage", "in": "InOrMmUsage", "mm": "InOrMmUsage", "pt": "PxUsage"}


@rule("fixed-unit", Severity.WARNING, "PxUsage", "InOrMmUsage")
def fixed_unit(it: Seen, page: Page) -> Iterator[str]:
    """A length is in dp, which is as large on each screen; one pixel is a line."""
    source = it.source
    for key, at in source.attributes.items() if source and not it.is_added else ():
        found = LENGTH.fullmatch(at.written) if at.origin == "element" else None
        if found and found[2] in UNITS and abs(float(found[1])) > (1 if found[2] == "px" else 0):
            yield "%s is %s: in dp it is as large on each screen" % (key, found[0])
