"""A view that is laid out and visible, as rules see it."""
from typing import Iterator, NamedTuple, Optional

from ..views import placement
from ..views.facts import Source
from ..views.placement import Box
from ..views.view_tree import View

# how many characters of a text a message has
MOST_TEXT = 40


class Seen(NamedTuple):
    """A view that is laid out and visible, as all around it: its bounds in its parent and in the window, in pixels, and
    how far its child is moved up, where it scrolls."""

    view: View
    bounds: Box
    window: Box
    scroll: Optional[int]

    @property
    def width(self) -> int:
        """In pixels."""
        return self.bounds[2] - self.bounds[0]

    @property
    def height(self) -> int:
        """In pixels."""
        return self.bounds[3] - self.bounds[1]

    @property
    def source(self) -> Optional[Source]:
        """The element or the line that made it."""
        return self.view.source

    @property
    def element(self) -> str:
        """The last part of its element's name in the source, as `ImageView`; its class where it has no element."""
        return self.source.element.rpartition(".")[2] if self.source else self.view.kind

    @property
    def is_added(self) -> bool:
        """Whether it was added for an element whose view is another one, as the label of a button."""
        return self.source is not None and self.source.is_added

    def attribute(self, key: str) -> Optional[str]:
        """The text of an attribute of its own element or its styles, as `android:text`, through all resources."""
        found = self.source.attributes.get(key) if self.source and not self.is_added else None
        return found.resolved if found else None

    def written(self, key: str) -> Optional[str]:
        """The text of an attribute as its own element has it; None where it is of a style."""
        found = self.source.attributes.get(key) if self.source and not self.is_added else None
        return found.written if found and found.origin in ("element", "include") else None

    def below(self) -> Iterator[View]:
        """All views in it, in preorder."""
        found = self.view.and_below()
        next(found)
        return found

    def name(self) -> str:
        """Number, element, id and text of the view, as messages have them."""
        return placement.title(self.view, MOST_TEXT, self.element)
