"""Rules on sources of layouts; source_faults.py, which is loaded where there is an app, has what they find."""
from typing import Iterator

from .page import Page
from .registry import Severity, rule
from .seen import Seen

WRONG_VALUE, REQUIRED_SIZE, MISSING_RESOURCE = "wrong-value", "required-size", "missing-resource"


@rule(WRONG_VALUE, Severity.ERROR)
def wrong_value(it: Seen, page: Page) -> Iterator[str]:
    """An attribute of a source has a value of a type that it can have."""
    return iter(())


@rule(REQUIRED_SIZE, Severity.ERROR, "RequiredSize")
def required_size(it: Seen, page: Page) -> Iterator[str]:
    """An element has a width and a height, by itself or by its style."""
    return iter(())


@rule(MISSING_RESOURCE, Severity.ERROR)
def missing_resource(it: Seen, page: Page) -> Iterator[str]:
    """The project has a value for each resource that a source names."""
    return iter(())
