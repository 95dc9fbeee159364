"""Rules on texts."""
import re
from typing import Iterator, Optional

from .page import Page
from .registry import Severity, rule
from .seen import Seen

# sizes below this are too small to read, in sp, as Android's lint has it
LEAST_SIZE = 11
LENGTH = re.compile(r"(-?[0-9.]+)(px|dip|dp|sp|pt|in|mm)")
# attributes with a text that a user reads
SHOWN = ("android:text", "android:hint", "android:contentDescription", "android:textOn", "android:textOff", "app:title")


@rule("text-cut", by_bounds=True)
def text_cut(it: Seen, page: Page) -> Iterator[str]:
    """A text has the room that it needs in its width, and at least that of one character a line."""
    if not it.view.text:
        return
    need = page.needs.get(it.view.number)
    if need and need.width > it.width:
        yield "it is %g dp wide, and one character needs %g" % (page.dp(it.width), page.dp(need.width))
    elif need and need.height > it.height:
        yield "it is %g dp high, and its text needs %g" % (page.dp(it.height), page.dp(need.height))


def amount(text: Optional[str], unit: str) -> Optional[float]:
    """The number of a length in some unit."""
    found = LENGTH.fullmatch(text or "")
    return float(found[1]) if found and found[2] == unit else None


@rule("small-text", Severity.WARNING, "SmallSp")
def small_text(it: Seen, page: Page) -> Iterator[str]:
    """A text has letters of at least 11 sp."""
    size = amount(it.attribute("android:textSize"), "sp")
    if size is not None and 0 < size < LEAST_SIZE and it.view.kind in ("TextView", "FrameLayout"):
        yield "its letters have %g sp, below %d" % (size, LEAST_SIZE)


@rule("text-unit", Severity.WARNING, "SpUsage")
def text_unit(it: Seen, page: Page) -> Iterator[str]:
    """The size of letters is in sp, so that it follows the user's setting."""
    found = LENGTH.fullmatch(it.written("android:textSize") or "")
    if found and found[2] != "sp" and float(found[1]):
        yield "android:textSize is %s: with sp it follows the size that the user sets" % found[0]


@rule("hard-coded-text", Severity.WARNING, "HardcodedText")
def hard_coded_text(it: Seen, page: Page) -> Iterator[str]:
    """A text that is read is a resource, so that it can be translated."""
    for key in SHOWN:
        text = it.written(key)
        if text and not text.startswith(("@", "?", "\\@", "\\?")) and any(letter.isalpha() for letter in text):
            yield '%s is "%s", and no resource: it cannot be translated' % (key, text if len(text) < 40 else text[:37] + "..")


@rule("edit-label", Severity.WARNING, "LabelFor", "EditableContentDescCheck")
def edit_label(it: Seen, page: Page) -> Iterator[str]:
    """A field for text has a hint, or a view that is its label by `labelFor`."""
    is_field = it.element.endswith(("EditText", "AutoCompleteTextView")) and not it.is_added
    if not is_field or it.attribute("android:hint"):
        return
    own = it.attribute("android:id")
    labels = {other.attribute("android:labelFor") for other in page.views.values()}
    parent = page.parent(it)
    is_in_layout = any(around.element == "TextInputLayout" and around.attribute("android:hint") for around in page.around(it))
    if parent is not None and not is_in_layout and (own is None or bare(own) not in {bare(label) for label in labels if label}):
        yield "it has no android:hint, and no view has an android:labelFor with its id"


def bare(name: str) -> str:
    """The name of an id without what makes it new."""
    return name.replace("@+", "@")
