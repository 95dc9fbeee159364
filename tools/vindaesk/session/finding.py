"""Views by what is seen of them, in the words of UI Automator's `By`."""
from dataclasses import dataclass, fields
from typing import Dict, List, Optional, Sequence

from ..scripts.grammar import guess
from . import checked
from .errors import NotFound
from .results import Node

PACKAGES = ("android.widget.", "android.view.")


@dataclass(frozen=True)
class By:
    """What a view has to be; None where it may be anything. `id` is `@id/send`, `@7f080002` or only `send`; `cls` a
    class with its package or without; `below` the name of a view around it, as `v3`."""

    text: Optional[str] = None
    text_contains: Optional[str] = None
    id: Optional[str] = None
    cls: Optional[str] = None
    clickable: Optional[bool] = None
    below: Optional[str] = None

    def __post_init__(self) -> None:
        for name in ("text", "text_contains", "id", "cls"):
            checked.text(name, getattr(self, name))
        checked.flag("clickable", self.clickable)

    def matches(self, it: Node) -> bool:
        """Whether a view is so, except where it is."""
        return (
            self.text in (None, it.text)
            and (self.text_contains is None or self.text_contains in (it.text or ""))
            and (self.id is None or has_id(it, self.id))
            and (self.cls is None or plain_class(self.cls) == it.kind)
            and self.clickable in (None, it.clickable)
        )

    def __str__(self) -> str:
        given = ((it.name, getattr(self, it.name)) for it in fields(self))
        return " and ".join("%s %r" % pair for pair in given if pair[1] is not None) or "anything"


def has_id(it: Node, wanted: str) -> bool:
    """Whether a view has this id."""
    if wanted[:1] != "@":
        return it.id_name is not None and it.id_name.rpartition("/")[2] == wanted
    return wanted == it.id_name or (it.id is not None and wanted.lower() == it.id)


def plain_class(name: str) -> str:
    """A class without Android's package."""
    return next((name[len(it) :] for it in PACKAGES if name.startswith(it)), name)


def found(nodes: Sequence[Node], by: By) -> List[Node]:
    """The views of a tree that are seen and match, in preorder."""
    inside: Dict[str, bool] = {}
    for it in nodes:
        inside[it.name] = by.below is None or it.parent == by.below or (it.parent is not None and inside[it.parent])
    return [it for it in nodes if it.seen and inside[it.name] and by.matches(it)]


def missing(nodes: Sequence[Node], by: By) -> NotFound:
    """Why no view matches."""
    seen = [it for it in nodes if it.seen]
    hint = ""
    if by.text is not None:
        hint = guess(by.text, tuple(it.text for it in seen if it.text))
    elif by.id is not None:
        names = tuple(it.id_name for it in seen if it.id_name)
        hint = guess(by.id, names if by.id[:1] == "@" else tuple(it.rpartition("/")[2] for it in names))
    hidden = any(by.matches(it) for it in nodes if not it.seen)
    return NotFound("no view that is seen has %s%s%s" % (by, "; one that is not seen has" if hidden else "", hint))
