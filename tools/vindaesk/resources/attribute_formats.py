"""What an attribute takes, as the bag of its definition says it: `attr` resources."""
from dataclasses import dataclass
from enum import IntFlag
from typing import Dict, Mapping, Optional

from .values import Value


class Takes(IntFlag):
    """The kinds of values that an attribute takes."""

    REFERENCE = 1
    STRING = 2
    INTEGER = 4
    BOOLEAN = 8
    COLOR = 0x10
    FLOAT = 0x20
    DIMENSION = 0x40
    FRACTION = 0x80
    ENUM = 0x10000
    FLAGS = 0x20000


# the keys of a definition's own items; the others are the ids of words
TYPE, MINIMUM, MAXIMUM, L10N = 0x01000000, 0x01000001, 0x01000002, 0x01000003


@dataclass(frozen=True)
class AttributeFormat:
    """The kinds of values (`Takes`), the numbers of the words of an enum or of flags by the ids of the words, and
    limits."""

    takes: int
    words: Dict[int, int]
    minimum: Optional[int]
    maximum: Optional[int]

    @property
    def is_flags(self) -> bool:
        """Whether several of the words can be taken together."""
        return bool(self.takes & Takes.FLAGS)


def attribute_format(items: Mapping[int, Value]) -> AttributeFormat:
    """The format that the items of a definition say."""
    limit = {key: it.number() for key, it in items.items() if key in (MINIMUM, MAXIMUM)}
    words = {key: it.data for key, it in items.items() if key & 0xFF0000}
    kinds = items[TYPE].data if TYPE in items else 0
    return AttributeFormat(kinds, words, limit.get(MINIMUM), limit.get(MAXIMUM))
