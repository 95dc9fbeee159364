"""Rules on touches and keys."""
from typing import Iterator

from .page import Page
from .registry import Severity, rule
from .seen import Seen

# the least side of what is touched, in dp
LEAST_TARGET = 48
PICTURES = ("ImageView", "ImageButton")
DESCRIPTION = "android:contentDescription"


@rule("touch-target", Severity.WARNING, "TouchTargetSizeCheck", by_bounds=True)
def touch_target(it: Seen, page: Page) -> Iterator[str]:
    """What answers touches is at least 48 by 48 dp."""
    if it.view.is_touched() and min(page.dp(it.width), page.dp(it.height)) < LEAST_TARGET:
        yield "%s, below %d by %d" % (page.size(it.width, it.height), LEAST_TARGET, LEAST_TARGET)


@rule("content-description", Severity.WARNING, "ContentDescription")
def content_description(it: Seen, page: Page) -> Iterator[str]:
    """A picture has a text that is read out in its place, or says that it needs none."""
    if it.is_added or it.source is None or not it.element.endswith(PICTURES):
        return
    hidden = it.attribute("android:importantForAccessibility") in ("no", "noHideDescendants", "2", "4")
    if it.attribute(DESCRIPTION) is None and not hidden:
        yield "it has no android:contentDescription; @null says that it needs none"


@rule("no-label", Severity.WARNING, "SpeakableTextPresentCheck")
def no_label(it: Seen, page: Page) -> Iterator[str]:
    """What answers clicks has a text or a description, or something in it has; a text with an id may get one later."""
    if it.view.answer != "click" or it.is_added or it.element.endswith(PICTURES):
        return
    if it.view.kind == "TextView" and it.view.id:
        return
    has_text = it.view.text or it.attribute("android:hint") or it.attribute("android:text")
    if has_text or it.attribute(DESCRIPTION):
        return
    inner = [page.views[view.number] for view in it.below() if view.number in page.views]
    if not any(at.view.text or at.attribute(DESCRIPTION) for at in inner):
        yield "it answers clicks, and nothing says what it does: it has no text and no description"


@rule("no-key", Severity.WARNING, "KeyboardInaccessibleWidget", by_bounds=True)
def no_key(it: Seen, page: Page) -> Iterator[str]:
    """The keys of a remote control or a keyboard reach what answers clicks, from the first view that does."""
    if it.view.answer == "click" and it.width and it.height and it.view.number not in page.reached:
        yield "no key moves the focus to it from the first view that answers clicks"
