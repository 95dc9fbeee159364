"""An element of a resource file: its attributes by their names, the elements below it, and where it is in its
source."""
from dataclasses import dataclass, field
from typing import Dict, Iterator, List

from ..common.failures import NOT_RUN, Failure
from ..common.messages import printable
from ..layouts.documents import ANDROID
from ..resources.values import Value

TOOLS = "http://schemas.android.com/tools"
# other namespaces of attributes: `res-auto`, and `apk/res/PACKAGE` of older apps and of libraries
OF_APPS = "http://schemas.android.com/apk/"
DATA_BINDING = "http://schemas.android.com/apk/distribution"
PREFIXES = {ANDROID: "android", TOOLS: "tools", "": ""}
# what a file may have: more than the 4096 views, 32 deep, that the program takes
MAX_ELEMENTS = 16384
MAX_DEPTH = 100
MAX_ATTRIBUTES = 1024


@dataclass
class Element:
    """An element. Its attributes have keys as `android:text`, `app:srcCompat`, `tools:text`, or `style` where they
    have no namespace. Lines and columns count from 1; a column is 0 in a compiled file, which has none. Of a source,
    `written` are the texts of its attributes, `bound` those with a value by data binding, `unbound` those without a
    default, and the text is kept where it is asked for."""

    name: str
    line: int
    column: int = 0
    attributes: Dict[str, Value] = field(default_factory=dict)
    repeated: List[str] = field(default_factory=list)
    children: List["Element"] = field(default_factory=list)
    written: Dict[str, str] = field(default_factory=dict)
    bound: List[str] = field(default_factory=list)
    unbound: List[str] = field(default_factory=list)
    text: str = ""

    def walk(self) -> Iterator["Element"]:
        """This element and all below it, in the order in which they begin."""
        left = [self]
        while left:
            it = left.pop()
            yield it
            left.extend(reversed(it.children))

    def put(self, key: str, value: Value) -> None:
        """Adds an attribute; of two with one key the first counts, as in Android."""
        if key in self.attributes:
            self.repeated.append(key)
        else:
            self.attributes[key] = value


def key_of(address: str, name: str) -> str:
    """The key of an attribute of a namespace."""
    prefix = PREFIXES.get(address, "app" if address.startswith(OF_APPS) else address)
    return "%s:%s" % (prefix, name) if prefix else name


def refusal(file: str, why: str) -> Failure:
    """Why a resource file cannot be read."""
    return Failure("%s cannot be read: %s" % (printable(file), printable(why)), NOT_RUN)


class Builder:
    """Makes elements of the events of a reader, within the limits."""

    def __init__(self, file: str):
        self.file = file
        self.root: List[Element] = []
        self.open: List[Element] = []
        self.count = 0

    def start(self, element: Element) -> None:
        """An element begins."""
        self.count += 1
        if self.count > MAX_ELEMENTS:
            raise refusal(self.file, "it has more than %d elements" % MAX_ELEMENTS)
        if len(self.open) >= MAX_DEPTH:
            raise refusal(self.file, "its elements are more than %d deep" % MAX_DEPTH)
        if not self.open and self.root:
            raise refusal(self.file, "it has two outermost elements")
        (self.open[-1].children if self.open else self.root).append(element)
        self.open.append(element)

    def end(self) -> None:
        """The innermost element ends."""
        if not self.open:
            raise refusal(self.file, "an element ends that did not begin")
        self.open.pop()

    def done(self) -> Element:
        """The outermost element."""
        if self.open or not self.root:
            raise refusal(self.file, "an element does not end" if self.open else "it has no element")
        return self.root[0]
