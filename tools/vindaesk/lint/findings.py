"""What a rule finds at a view."""
from typing import List, NamedTuple, Tuple

from ..views.facts import Place
from ..views.view_tree import View
from .registry import Severity


class Finding(NamedTuple):
    """What a rule says of a view: the rule; how much that weighs; the view's number and its name, as messages have it,
    and as it is in each run; the sentence; the place of the view's element, and of those that include its file; and the
    configurations in which it holds."""

    rule: str
    severity: Severity
    number: int
    name: str
    stable_name: str
    sentence: str
    places: Tuple[Place, ...]
    configurations: List[str]

    @property
    def place(self) -> Place:
        """Where it is shown."""
        return self.places[0]

    @property
    def message(self) -> str:
        """The view, the sentence and the configurations."""
        where = "; ".join(self.configurations)
        return "%s: %s%s" % (self.name, self.sentence, " (%s)" % where if where else "")

    @property
    def included(self) -> str:
        """The places that include the file, from the innermost; nothing where none does."""
        return ", ".join(map(str, self.places[1:]))


def stable_name(view: View) -> str:
    """A name of a view that an edit elsewhere does not change: its class with its id, else the way to it from the
    nearest view with an id, or from the root: `@id/list LinearLayout[2] TextView[1]`."""
    if view.id:
        return "%s %s" % (view.kind, view.id_name or "@%x" % view.id)
    if view.parent is None:
        return view.kind
    same = [it for it in view.parent.children.values() if it.kind == view.kind]
    return "%s %s[%d]" % (stable_name(view.parent), view.kind, same.index(view) + 1)
