"""Which values a device takes: the rule of Android's `ResTable_config::match`, `isBetterThan` and
`isMoreSpecificThan`, after ResourceTypes.cpp of Android 10, which was read for it. (Later releases differ in one
thing: of two densities around that of the device they always take the higher one. Android 6 to 10 take the lower one
where it is much nearer.)

Each part of a comparison says True, False, or None where it leaves the answer to the parts after it."""
from typing import Callable, Optional, Sequence, Tuple

from .configuration import ANYDPI, Configuration, KeysHidden, Size
from .locales import compare_regions, is_close_to_us_english, likely_script
from .packed import order

MEDIUM = 160
TAGALOG = ("tl", "fil")
Answer = Optional[bool]


def same_language(one: str, other: str) -> bool:
    """Whether two languages are one; Tagalog and Filipino are."""
    return one == other or (one in TAGALOG and other in TAGALOG)


def requested_script(device: Configuration) -> str:
    """The script of a device, which follows from its language where it is not given."""
    return device.script or likely_script(device.language, device.region)


def matches_locale(values: Configuration, device: Configuration) -> bool:
    """Whether values in some language are for the device."""
    if not same_language(values.language, device.language):
        return False
    wanted = requested_script(device)
    script = wanted and (values.script or likely_script(values.language, values.region))
    if not script:
        return values.region in ("", device.region)
    return script == wanted


def matches_kind(values: Configuration, device: Configuration) -> bool:
    """Whether what has to be equal where it is given, is."""
    return (
        values.mcc in (0, device.mcc) and values.mnc in (0, device.mnc)
        and values.gender in (0, device.gender)
        and values.direction in (0, device.direction) and values.long in (0, device.long)
        and values.ui_type in (0, device.ui_type) and values.night in (0, device.night)
        and values.round in (0, device.round) and values.hdr in (0, device.hdr)
        and values.wide_gamut in (0, device.wide_gamut)
        and values.orientation in (0, device.orientation) and values.touch in (0, device.touch)
        and values.minor in (0, device.minor)
    )


def matches_input(values: Configuration, device: Configuration) -> bool:
    """Whether keys and navigation are those of the device; a keyboard on the screen counts as an exposed one."""
    keys = values.keys_hidden in (0, device.keys_hidden) or (
        values.keys_hidden == KeysHidden.NO and device.keys_hidden == KeysHidden.SOFT
    )
    return (
        keys and values.nav_hidden in (0, device.nav_hidden)
        and values.keyboard in (0, device.keyboard) and values.navigation in (0, device.navigation)
    )


def matches(values: Configuration, device: Configuration) -> bool:
    """Whether values of a configuration can be taken by a device at all. Each density can: it is scaled."""
    return (
        values.sdk <= device.sdk and values.smallest_width <= device.smallest_width
        and values.width <= device.width and values.height <= device.height and values.size <= device.size
        and values.screen_width <= device.screen_width and values.screen_height <= device.screen_height
        and matches_kind(values, device) and matches_input(values, device)
        and (not (values.language or values.region) or matches_locale(values, device))
    )


def better_english(one: Configuration, other: Configuration, region: str) -> Answer:
    """Of English values and values of no language, for a device in English: those of no language are taken for those
    of the US, where most apps have them."""

    def near(it: str) -> bool:
        return it in ("", "US") if region == "US" else is_close_to_us_english(it)

    if region != "US" and not is_close_to_us_english(region):
        return None
    return near(one.region) if one.language else not near(other.region)


def is_better_locale(one: Configuration, other: Configuration, device: Configuration) -> bool:
    """Whether the locale of `one` is nearer to that of the device."""
    if not (device.language or device.region) or not (one.language or one.region or other.language or other.region):
        return False
    if not same_language(one.language, other.language):
        english = better_english(one, other, device.region) if device.language == "en" else None
        return bool(one.language) if english is None else english
    requested = (device.language, requested_script(device), device.region)
    regions = compare_regions(one.region, other.region, requested)
    if regions:
        return regions > 0
    for mine, its, wanted in (
        (one.variant, other.variant, device.variant), (one.numbering, other.numbering, device.numbering),
    ):
        if (mine == wanted) != (its == wanted):
            return mine == wanted
    return one.language == device.language != other.language


def given(mine: int, its: int, wanted: int) -> Answer:
    """Of two different values of a field that the device has, the one that says something is better."""
    return mine != 0 if mine != its and wanted else None


def nearer(mine: Sequence[int], its: Sequence[int], wanted: Sequence[int]) -> Answer:
    """The lengths with the lower sum of distances from those of the device are better."""
    pairs = [(want - my, want - it) for my, it, want in zip(mine, its, wanted) if want]
    my_sum, its_sum = sum(pair[0] for pair in pairs), sum(pair[1] for pair in pairs)
    return my_sum < its_sum if my_sum != its_sum else None


def better_size(mine: int, its: int, wanted: int) -> Answer:
    """The larger screen size is better; where none is said, it is normal if the device's is no smaller."""
    if mine == its or not wanted:
        return None
    if wanted >= Size.NORMAL and (mine or Size.NORMAL) == (its or Size.NORMAL):
        return mine != 0
    return (mine or Size.NORMAL) > (its or Size.NORMAL) if wanted >= Size.NORMAL else mine > its


def better_density(mine: int, its: int, wanted: int) -> Answer:
    """The density that is scaled better: down rather than up, unless the lower one is much nearer."""
    if mine == its:
        return None
    mine, its = mine or MEDIUM, its or MEDIUM
    if ANYDPI in (mine, its):
        return mine == ANYDPI
    wanted = MEDIUM if wanted in (0, ANYDPI) else wanted
    high, low, is_high = (mine, its, True) if mine >= its else (its, mine, False)
    if wanted >= high:
        return is_high
    if low >= wanted or (2 * low - wanted) * high > wanted * wanted:
        return not is_high
    return is_high


def better_keys(mine: int, its: int, wanted: int) -> Answer:
    """The given state of the keyboard is better, and of two given ones the exact one."""
    if mine == its or not wanted:
        return None
    if not mine or not its:
        return mine != 0
    return True if mine == wanted else False if its == wanted else None


def better_layout(one: Configuration, other: Configuration, device: Configuration) -> Answer:
    """The comparison from the direction to the night mode."""
    if one.direction != other.direction and device.direction:
        return one.direction > other.direction
    if one.smallest_width != other.smallest_width:
        return one.smallest_width > other.smallest_width
    steps: Tuple[Callable[[], Answer], ...] = (
        lambda: nearer((one.width, one.height), (other.width, other.height), (device.width, device.height)),
        lambda: better_size(one.size, other.size, device.size),
        lambda: given(one.long, other.long, device.long),
        lambda: given(one.round, other.round, device.round),
        lambda: given(one.wide_gamut, other.wide_gamut, device.wide_gamut),
        lambda: given(one.hdr, other.hdr, device.hdr),
        lambda: given(one.orientation, other.orientation, device.orientation),
        lambda: given(one.ui_type, other.ui_type, device.ui_type),
        lambda: given(one.night, other.night, device.night),
    )
    return first(steps)


def better_hardware(one: Configuration, other: Configuration, device: Configuration) -> Answer:
    """The comparison from the density to the version."""
    mine, its = (one.screen_width, one.screen_height), (other.screen_width, other.screen_height)
    steps: Tuple[Callable[[], Answer], ...] = (
        lambda: better_density(one.density, other.density, device.density),
        lambda: given(one.touch, other.touch, device.touch),
        lambda: better_keys(one.keys_hidden, other.keys_hidden, device.keys_hidden),
        lambda: better_hidden(one.nav_hidden, other.nav_hidden, device.nav_hidden),
        lambda: given(one.keyboard, other.keyboard, device.keyboard),
        lambda: given(one.navigation, other.navigation, device.navigation),
        lambda: nearer(mine, its, (device.screen_width, device.screen_height)),
        lambda: one.sdk > other.sdk if one.sdk != other.sdk and device.sdk else None,
        lambda: given(one.minor, other.minor, device.minor),
    )
    return first(steps)


def better_hidden(mine: int, its: int, wanted: int) -> Answer:
    """The given state of the keys for navigation is better; two given ones leave the answer open."""
    return None if mine == its or not wanted or (mine and its) else mine != 0


def first(steps: Sequence[Callable[[], Answer]]) -> Answer:
    """The first answer of some steps."""
    for step in steps:
        answer = step()
        if answer is not None:
            return answer
    return None


def is_better(one: Configuration, other: Configuration, device: Configuration) -> bool:
    """Whether a device takes values of `one` rather than those of `other`; both match it."""
    if one is other:
        return False
    for mine, its, wanted in ((one.mcc, other.mcc, device.mcc), (one.mnc, other.mnc, device.mnc)):
        if mine != its and wanted:
            return mine != 0
    if is_better_locale(one, other, device):
        return True
    if one.gender != other.gender and device.gender:
        return one.gender != 0
    answer = better_layout(one, other, device)
    if answer is None:
        answer = better_hardware(one, other, device)
    return bool(answer)


def locale_score(it: Configuration) -> int:
    """How much a locale says besides its language and region."""
    return (4 if it.variant else 0) + (2 if it.script else 0) + (1 if it.numbering else 0)


# in the order of their importance; the density says nothing of how specific a configuration is
MORE_SPECIFIC = (
    "gender", "direction", "smallest_width", "width", "height", "size", "long", "round", "hdr", "wide_gamut",
    "orientation", "ui_type", "night", "touch", "keys_hidden", "nav_hidden", "keyboard", "navigation", "screen_width",
    "screen_height", "sdk", "minor",
)


def is_more_specific(one: Configuration, other: Configuration) -> bool:
    """Whether a configuration says something in the most important field of which one of the two says nothing."""
    for name in ("mcc", "mnc", "language", "region"):
        mine, its = getattr(one, name), getattr(other, name)
        if bool(mine) != bool(its):
            return bool(mine)
    scores = locale_score(one) - locale_score(other)
    if scores and (one.language or one.region or other.language or other.region):
        return scores > 0
    for name in MORE_SPECIFIC:
        mine, its = getattr(one, name), getattr(other, name)
        if bool(mine) != bool(its):
            return bool(mine)
    return False


def best(candidates: Sequence[Configuration], device: Configuration) -> Optional[int]:
    """The number of the configuration that a device takes, or None where none of them matches. They are compared in the
    order in which aapt2 writes them into a table: where a language is weighed against other qualifiers, Android's
    comparison depends on the order."""
    found: Optional[int] = None
    for number in sorted(range(len(candidates)), key=lambda it: order(candidates[it])):
        it = candidates[number]
        if matches(it, device) and (found is None or is_better(it, candidates[found], device)):
            found = number
    return found
