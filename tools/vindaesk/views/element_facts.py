"""What the attributes of an element of a layout file set of its view, and their texts (facts.py has the words of
these)."""
import struct
from typing import Dict, Mapping

from ..layouts import attributes, dimensions, elements, values
from ..layouts.documents import ANDROID, BOOLEAN, DIMENSION, FLOAT, REFERENCE, Value
from ..scripts.resource_names import Names
from .facts import Attribute, Settings

# of a setting the attribute that has it alone, in the order in which a view has them
OF_ATTRIBUTE = {
    "layout_width": "width", "layout_height": "height", "minWidth": "min_width", "minHeight": "min_height",
    "layout_weight": "weight", "weightSum": "weight_sum", "layout_gravity": "gravity", "gravity": "content_gravity",
    "orientation": "orientation", "layoutDirection": "direction", "clipToPadding": "clip", "fillViewport": "fill",
    "splitMotionEvents": "split",
}
# settings that several attributes have together, by how the names of these begin
OF_SIDES = {"layout_margin": "margins", "padding": "padding"}
# the rules of siblings and of the parent by their attributes
RULES = {
    "layout_toLeftOf": "left_of", "layout_toRightOf": "right_of", "layout_above": "above", "layout_below": "below",
    "layout_alignLeft": "align_left", "layout_alignTop": "align_top", "layout_alignRight": "align_right",
    "layout_alignBottom": "align_bottom", "layout_toStartOf": "start_of", "layout_toEndOf": "end_of",
    "layout_alignStart": "align_start", "layout_alignEnd": "align_end", "layout_alignParentLeft": "parent_left",
    "layout_alignParentTop": "parent_top", "layout_alignParentRight": "parent_right",
    "layout_alignParentBottom": "parent_bottom", "layout_alignParentStart": "parent_start",
    "layout_alignParentEnd": "parent_end", "layout_centerInParent": "center", "layout_centerHorizontal": "center_h",
    "layout_centerVertical": "center_v",
}


def yes_no(word: int) -> str:
    """A boolean as lines have it."""
    return "yes" if word else "no"


def plain(name: str, value: Value) -> str:
    """The text of the value of an attribute in a setting."""
    is_reference, number = elements.reference(value)
    if is_reference or value.kind == DIMENSION:
        return elements.length(value)
    if value.kind == FLOAT:
        return "%g" % struct.unpack("<f", struct.pack("<I", value.word))[0]
    if value.kind == BOOLEAN:
        return yes_no(value.word)
    number = dimensions.signed(value.word, 32)
    form = attributes.KNOWN[name].form
    if form is attributes.SIZE and number < 0:
        return "match" if number == attributes.SIZES["match_parent"] else "wrap"
    words = {at: word for word, at in form.words.items() if word != "fill_parent"}
    return words.get(number, "%d" % number) if form is not attributes.DIMENSION else "%d px" % number


def settings_of(found: Dict[str, Value]) -> Settings:
    """The settings of a view by the attributes of its element, except those of colours."""
    made: Settings = {}
    for name, value in found.items():
        if name in OF_ATTRIBUTE:
            form = attributes.KNOWN[name].form
            made[OF_ATTRIBUTE[name]] = gravity(value.word) if form.flags else plain(name, value)
    for start, name in OF_SIDES.items():
        texts = ["%s %s" % (it, elements.length(found[it])) for it in found if it.startswith(start)]
        if texts:
            made[name] = ", ".join(texts)
    return made


def gravity(word: int) -> str:
    """A gravity as sources have it."""
    return attributes.flags_text(word, attributes.GRAVITIES) or "0x%x" % word


def rules_of(found: Dict[str, Value]) -> Dict[str, str]:
    """The rules of a view by the attributes of its element: for each verb `yes` or the id of a sibling."""
    made: Dict[str, str] = {}
    for name, verb in RULES.items():
        value = found.get(name)
        if value is None:
            continue
        is_reference, number = elements.reference(value)
        if attributes.KNOWN[name].form is attributes.BOOLEAN:
            if value.kind == BOOLEAN and value.word:
                made[verb] = "yes"
        elif is_reference and number:
            made[verb] = "@%x" % number
    return made


def attributes_of(found: Dict[str, Value], names: Names, resolved: Mapping[int, str]) -> Dict[str, Attribute]:
    """The attributes of an element of a compiled file, with the names of resources, and the texts of these by their
    ids."""
    made = {}
    for name, value in found.items():
        text = values.shown(value, attributes.form_of(ANDROID, name), names)
        text = "%02x %08x" % (value.kind, value.word) if text is None else text
        is_named = value.kind == REFERENCE and value.word != 0
        end = resolved.get(value.word, text) if is_named else text
        made["android:" + name] = Attribute(text, end, (text,) if is_named else ())
    return made
