"""The theme of an app's layouts: the one that is asked for, or that of the manifest. A source lacks the themes of its
libraries: where the parent of its theme is one of these, the theme is over the nearest one of Android, and attributes
of the library lead to those of Android with the same name."""
from typing import Dict, NamedTuple, Optional

from ..common.failures import NOT_RUN, Failure
from ..common.messages import printable
from ..resources.configuration import Configuration, Night
from ..resources.resources import Resources
from ..resources.themes import Item, Theme
from ..resources.values import Type, Value
from .app_files import AppFiles, name_of_missing
from .element import Element
from .platform_names import NUMBER_OF

# the theme of an app that names none, by the API level for which it was made
DEFAULT_THEMES = ((14, "Theme.DeviceDefault.Light.DarkActionBar"), (11, "Theme.Holo"), (0, "Theme"))
LAST_THEME = "Theme.Material.Light"
LAUNCHER = "android.intent.category.LAUNCHER"
# the style of an item that leads to such an attribute
STAND_IN = -1
DARK_THEME = "Theme.Material"


class Chosen(NamedTuple):
    """The theme of all layouts, its name, and whether a library that it is from is not there."""

    theme: Theme
    name: str
    lacks_library: bool = False


def chosen(name: str, manifest: Optional[Element], resources: Resources, files: AppFiles) -> Chosen:
    """The theme of all layouts."""
    number = named_theme(name, resources) if name else manifest_theme(manifest, resources)
    if number is None:
        return Chosen(resources.theme(), "none")
    found = resources.name(number)
    said = str(found) if found else "@%08x" % number
    missing = resources.style(number).missing
    if not missing:
        return Chosen(resources.theme(number), said)
    parent = name_of_missing(files, missing)
    base = resources.find(nearest(parent, resources.device), "style", "android")
    theme = resources.theme(*([base] if base is not None else []), number)
    what = "whose parent %s is not there: over %s" % (parent or "@%08x" % missing, resources.name(base or 0))
    return Chosen(with_stand_ins(theme, resources), "%s, %s" % (said, what), True)


def nearest(parent: str, device: Configuration) -> str:
    """The name of the theme of Android that is nearest to one of a library, by its name."""
    is_light = "Light" in parent or ("DayNight" in parent and device.night != Night.YES)
    return LAST_THEME if is_light else DARK_THEME


def with_stand_ins(theme: Theme, resources: Resources) -> Theme:
    """A theme in which attributes of a library lead to those of Android of the same name."""
    items: Dict[int, Item] = dict(theme.items)
    for number in resources.ids("attr"):
        name = resources.name(number)
        other = NUMBER_OF.get(name.entry) if name is not None and name.package != "android" else None
        if other is not None and other in items and number not in items:
            items[number] = Item(Value(Type.ATTRIBUTE, other), STAND_IN)
    return Theme(resources, theme.styles, items)


def stand_ins(theme: Theme, resources: Resources) -> Dict[int, str]:
    """The attributes of a library that lead to those of Android, with the names of these."""
    found = {}
    for number, it in theme.items.items():
        name = resources.name(number) if it.style == STAND_IN else None
        if name is not None:
            found[number] = name.entry
    return found


def named_theme(name: str, resources: Resources) -> int:
    """The theme of a name."""
    package, _, plain = name.rpartition(":")
    plain = plain.rpartition("/")[2]
    for it in (package,) if package else ("", "android"):
        number = resources.find(plain, "style", it)
        if number is not None:
            return number
    raise Failure("there is no theme '%s' in the app or in the framework" % printable(name), NOT_RUN)


def theme_number(element: Optional[Element]) -> Optional[int]:
    """The theme that an element of the manifest names."""
    value: Optional[Value] = element.attributes.get("android:theme") if element else None
    return value.data if value is not None and value.is_reference and value.data else None


def manifest_theme(manifest: Optional[Element], resources: Resources) -> Optional[int]:
    """The theme of the activity that starts the app, or of the app; else that which Android gives."""
    if manifest is not None:
        application = next((it for it in manifest.children if it.name == "application"), None)
        activities = [it for it in application.children if it.name == "activity"] if application else []
        first = next((it for it in activities if any(
            below.name == "category" and (below.attributes.get("android:name") or Value(0, 0)).text == LAUNCHER
            for below in it.walk())), None)
        for number in (theme_number(first), theme_number(application), *map(theme_number, activities)):
            if number is not None and resources.bag(number) is not None:
                return number
    level = target_of(manifest)
    if level == 0:
        level = resources.device.sdk
    names = [it for least, it in DEFAULT_THEMES if manifest is not None and level >= least]
    for name in (*names, LAST_THEME):
        number = resources.find(name, "style", "android")
        if number is not None and resources.bag(number) is not None:
            return number
    return None


def target_of(manifest: Optional[Element]) -> int:
    """The API level for which an app was made; 0 where a source does not say it, since its build file does."""
    uses = next((it for it in manifest.children if it.name == "uses-sdk"), None) if manifest else None
    for key in ("android:targetSdkVersion", "android:minSdkVersion"):
        value = uses.attributes.get(key) if uses else None
        if value is not None and value.is_int:
            return value.number()
    return 0 if manifest is not None and manifest.column else 1
