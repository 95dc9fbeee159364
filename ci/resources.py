"""Compares what the tools read of tables of resources with what Android's own programs say of them: `aapt2 dump
resources`, `aapt2 optimize`, `aapt dump --values resources`, and Android's library for resources (see
android_assets.py). The tables are those of examples/ and those that made_apps.py makes; where VINDAESK_APPS names a
folder, also those of the apps below it and that of Android's framework, if Debian's package android-framework-res is
installed. Whoever has none of these programs has none of these checks."""
import glob
import os
import re
import shutil
import subprocess
import tempfile
import zipfile
from collections import Counter
from dataclasses import replace
from typing import Callable, Dict, Iterator, List, Optional, Sequence, Tuple, Union

from running import TOP, Check, Checks, not_none  # before what finds the package of tools/ by it

import android_assets
import framework
import made_apps
import random_configurations
from vindaesk.common.failures import Failure
from vindaesk.resources.configuration import Configuration
from vindaesk.resources.devices import device
from vindaesk.resources.files import open_table
from vindaesk.resources.framework import PATH, open_framework
from vindaesk.resources.groups import Group
from vindaesk.resources.matching import is_better, is_more_specific, matches
from vindaesk.resources.packed import order, packed, unpacked
from vindaesk.resources.qualifiers import parse_qualifiers, write_qualifiers
from vindaesk.resources.resources import Bag, Entry, Name, Resources
from vindaesk.resources.strings import from_utf8
from vindaesk.resources.tables import RawEntry
from vindaesk.resources.themes import Theme
from vindaesk.resources.values import Value

FRAMEWORK = "/usr/share/android-framework-res/framework-res.apk"
SECONDS = 600
SEED, COMPARED = 7, 500
DEVICES = ("", "en-rGB-land", "de-rAT-sw600dp-night-hdpi", "ar-rEG-xhdpi-v17", "es-rUS-w820dp-v29", "zh-rHK-tvdpi",
           "pt-rMZ-mdpi-v8", "b+sr+Latn+RS-xxxhdpi-television-v28", "en-rUS-watch-round-ldpi-mcc310-mnc4-v25")
MASKS = ("reference", "string", "integer", "boolean", "color", "float", "dimension", "fraction")
QUANTITIES = ("zero", "one", "two", "few", "many", "other")
# why a comparison fails, or nothing; how many values were compared
Compared = Tuple[str, int]
# an id, and a configuration as aapt2 prints it after a parenthesis; of the resource itself nothing
Key = Tuple[int, str]
# a configuration and an id; then a type and a word, or the parent and the keys of a bag
Row = Tuple[Union[str, int], ...]
# a type, a word, a configuration, and a text
Chosen = Tuple[int, int, Configuration, Optional[str]]
# what an answer of Android's library should be: a line, the items of a bag, a value; None where there is nothing
Wanted = Union[None, str, List[str], Chosen]


def apps() -> List[Tuple[str, str]]:
    """The name and the path of each app that is here."""
    found = sorted(glob.glob(os.path.join(TOP, "examples", "*", "*.apk"))) + made_apps.paths()
    if os.environ.get("VINDAESK_APPS"):
        found += [FRAMEWORK] if os.path.exists(FRAMEWORK) else []
        found += sorted(glob.glob(os.path.join(os.environ["VINDAESK_APPS"], "**", "*.apk"), recursive=True))
    return [(os.path.basename(it), it) for it in found if has_table(it)]


def has_table(path: str) -> bool:
    try:
        with zipfile.ZipFile(path) as archive:
            return "resources.arsc" in archive.namelist()
    except zipfile.BadZipFile:
        return False


def output(*command: str) -> List[str]:
    """The lines that a program prints; none where it refuses."""
    ended = subprocess.run(command, stdout=subprocess.PIPE, stderr=subprocess.DEVNULL, timeout=SECONDS)
    return ended.stdout.decode("utf-8", "replace").split("\n")


# aapt2 dump resources


# how far aapt2 indents a type, a resource, and a configuration
DEPTHS = {"t": 2, "r": 4, "(": 6}


def dumped_by_aapt2(path: str) -> Dict[Key, List[str]]:
    """Of each resource and configuration, the lines that aapt2 prints."""
    found: Dict[Key, List[str]] = {}
    number: Optional[int] = None
    key: Optional[Key] = None
    for line in output("aapt2", "dump", "resources", path):
        # after an empty array it begins no new line
        joined = re.match(r" +\[(type |resource 0x|\(\S*\) )", line)
        line = DEPTHS[joined.group(1)[0]] * " " + line.lstrip(" [") if joined else line
        if line.startswith("    resource 0x"):
            number = int(line.split()[1], 16)
            found[number, ""] = [line.split()[2]]
        elif line.startswith("      (") and number is not None and not line.startswith("       "):
            configuration, _, rest = line[7:].partition(") ")
            key = (number, "(" + configuration)
            found[key] = [rest]
        elif line.startswith("  type ") or line.startswith("Package "):
            key = None
        elif key is not None:
            found[key].append(line)
    return found


class Dump:
    """What aapt2 prints of the values of some resources."""

    def __init__(self, resources: Resources, group: Group):
        self.resources = resources
        self.package = group.name
        self.shared = group.id if group.packages[0].id == 0 else None

    def id(self, number: int) -> int:
        """An id as the table has it: those of a shared library begin with 00."""
        return number & 0xFFFFFF if number >> 24 == self.shared else number

    def reference(self, it: Value) -> str:
        mark = "?" if it.type in (2, 8) else "@"
        if it.data == 0:
            return mark + "null" if it.type == 1 else "@null"
        name = self.resources.name(it.data) if it.data >> 24 != self.shared else None
        if name is None:
            return mark + ("0x%08x" % self.id(it.data) if it.data & 0xFF0000 else "")
        return "%s%s%s/%s" % (mark, self.prefix(name), name.type, name.entry)

    def item(self, it: Value, kind: str) -> str:
        """A value: as the tools write it, except for the names of references and for more digits."""
        if kind == "id":
            return "(id)"
        if it.is_reference or it.is_attribute or it.is_foreign:
            return self.reference(it)
        if it.text is not None:
            is_file = kind != "string" and it.text.startswith("res/")
            return "(file) " + it.text if is_file else '"%s"' % it.text
        if it.type in (5, 6):
            amount = (it.data >> 8) / (1 << (0, 7, 15, 23)[it.data >> 4 & 3])
            units = ("px", "dp", "sp", "pt", "in", "mm") if it.type == 5 else ("%", "%p")
            return "%f%s" % (amount, units[it.data & 15] if it.data & 15 < len(units) else "???")
        return str(it).replace("(type ", "(unknown ")

    def key(self, number: int) -> str:
        name = self.resources.name(number) if number >> 24 != self.shared else None
        if name is None:
            return "0x%08x" % self.id(number)
        return "%s%s(0x%08x)" % (self.prefix(name), name.entry, number)

    def prefix(self, name: Name) -> str:
        """The package of a name, where it is another one."""
        return "" if name.package == self.package else name.package + ":"

    def attribute(self, bag: Bag) -> List[str]:
        form = bag.format()
        words = ["any"] if form.takes == 0xFFFF else [it for at, it in enumerate(MASKS) if form.takes & 1 << at]
        words += ["flags"] if form.takes & 0x20000 else []
        words += ["enum"] if form.takes & 0x10000 else []
        head = "(attr) type=" + "|".join(words) + (" size=%d" % len(form.words) if form.words else "")
        constants = form.words.items() if form.takes & 0x30000 else ()
        return [head] + ["%s=0x%08x" % (self.key(key), it) for key, it in constants]

    def bag(self, bag: Bag, kind: str) -> List[str]:
        if kind in ("attr", "^attr-private"):
            return self.attribute(bag)
        if kind == "plurals":
            said = bag.plurals()
            rows = ["%s=%s" % (it, self.item(said[it], kind)) for it in QUANTITIES if it in said]
            return ["(plurals) size=%d" % len(rows)] + rows
        if kind == "array":
            return ["(array) size=%d" % len(bag.rows), "[" + ", ".join(self.item(it, kind) for it in bag.array()) + "]"]
        head = "(style) size=%d" % len(bag.rows)
        if bag.parent:
            name = self.resources.name(bag.parent) if bag.parent >> 24 != self.shared else None
            number = "0x%08x" % self.id(bag.parent)
            named = name and "%s%s/%s (%s)" % (self.prefix(name), name.type, name.entry, number)
            head += " parent=%s" % (named or number)
        return [head] + ["%s=%s" % (self.key(key), self.item(it, kind)) for key, it in bag.rows]


def plain(lines: Sequence[str]) -> Union[str, List[str]]:
    """Lines of a dump without what the tables do not say: where a line is broken, and the kind of a file."""
    text = "\n".join(it.strip(" ") for it in "\n".join(lines).split("\n")).rstrip("\n")
    text = re.sub(r" type=(XML|PNG)$", "", text)
    if text.startswith("(array)"):
        text = re.sub(r"size=0\n\[\]?", "size=0", text)
        text = re.sub(r",\s*\n", ", ", text)
    return sorted(text.split("\n")) if text.startswith(("(style)", "(attr)")) else text


def as_aapt2_dumps(name: str, path: str) -> Compared:
    """Each value in each configuration, as `aapt2 dump resources` prints it; how many were compared."""
    wanted = dumped_by_aapt2(path)
    if not wanted:
        return "", 0
    resources = Resources([open_table(path)], device())
    seen = set()
    for group in resources.groups.by_id.values():
        dump = Dump(resources, group)
        for number in resources.ids(package=group.name):
            kind = not_none(resources.name(number)).type
            for entry in resources.entries(number):
                key = (dump.id(number), "(" + configuration_of(entry.configuration))
                lines = dump.bag(entry.bag, kind) if entry.bag else [dump.item(not_none(entry.value), kind)]
                seen.add(key)
                if key not in wanted:
                    return "%s: aapt2 has no %s" % (name, key), 0
                if plain(lines) != plain(wanted[key]) and not is_styled(wanted[key]):
                    return "%s: %s %s: %r, aapt2: %r" % (name, hex(number), key[1], plain(lines), plain(wanted[key])), 0
    missing = [it for it in wanted if it[1] and it not in seen]
    return "%s: %s is missing" % (name, missing[:3]) if missing else "", len(seen)


def configuration_of(it: Configuration) -> str:
    """A configuration as Android's programs print it: they have no word for the network 0."""
    return write_qualifiers(it).replace("mnc00", "mnc65535")


def is_styled(lines: Sequence[str]) -> bool:
    """Texts with styles have a form of their own, which aapt2 prints with the styles."""
    return lines[0].startswith("(styled string)") or any("(styled string)" in it for it in lines)


# aapt dump --values resources

RESOURCE = re.compile(r"        resource 0x([0-9a-f]{8}) .*: (?:t=0x([0-9a-f]{2}) d=0x([0-9a-f]{8}) |<bag>)")
BAG = re.compile(r"          Parent=0x([0-9a-f]{8})\(Resolved=0x([0-9a-f]{8})\), Count=(\d+)")
KEY = re.compile(r"          #\d+ \(Key=0x([0-9a-f]{8})\):")


def dumped_by_aapt(path: str) -> "Counter[Row]":
    """What aapt prints of each configuration and resource: a type and a word, or the parent and the keys of a bag."""
    found: List[List[Union[str, int]]] = []
    configuration = ""
    for line in output("aapt", "dump", "--values", "resources", path):
        if line.startswith("      config "):
            configuration = line[13:].split(" ")[0].rstrip(":").replace("(default)", "")
            continue
        match = RESOURCE.match(line)
        if match:
            found.append([configuration, *(int(it, 16) for it in match.groups() if it)])
            continue
        match = BAG.match(line) or KEY.match(line)
        if match:
            found[-1].append(int(match.group(1), 16))
    return Counter(tuple(it) for it in found)


def row_of(it: RawEntry) -> Row:
    """What aapt prints of a resource: a type and a word, or the parent and the keys of a bag."""
    if it.value is not None:
        return it.value.type, it.value.data
    bag = not_none(it.bag)
    return (bag.parent, *(key for key, _ in bag.rows))


def as_aapt_dumps(name: str, path: str) -> Compared:
    """Type and word of each value, parent and keys of each bag, as `aapt dump --values resources` prints them."""
    wanted = dumped_by_aapt(path)
    if not wanted:
        return "", 0
    found: Counter[Row] = Counter()
    table = open_table(path)
    for package in table.packages:
        for kind in package.type_chunks:
            for chunk in package.chunks(kind):
                configuration = configuration_of(chunk.configuration)
                for index in chunk.indexes():
                    row = row_of(package.entry(chunk.place(index), chunk.end))
                    found[(configuration, (package.id or 2) << 24 | kind << 16 | index, *row)] += 1
    more, less = found - wanted, wanted - found
    if more or less:
        return "%s: %s in place of %s" % (name, list(more)[:3], list(less)[:3]), 0
    return "", len(found)


# Android's library


def text_of(answer: str) -> Optional[str]:
    """The text of an answer, or None."""
    data = bytes.fromhex(answer[1:]) if answer[0] in "68" else b""
    if answer[0] == "8":
        return from_utf8(data)
    return data.decode("utf-16-le", "replace") if answer[0] == "6" else None


def chosen(resources: Resources, number: int) -> Optional[Chosen]:
    """What the library should say of the value of an id."""
    found = resources.entry(number)
    if found is None:
        return None
    if found.bag is not None:
        return 1, number, found.configuration, None
    value = not_none(found.value)
    return value.type, value.data, found.configuration, value.text


def bag_of(resources: Resources, number: int) -> Optional[List[str]]:
    """What the library should say of the bag of an id with its parents, or None."""
    bag = resources.bag(number)
    if bag is None:
        return None
    style = resources.style(number)
    if style.missing:
        return None
    rows = [(key, it.value, it.style) for key, it in style.items.items()]
    if len(style.chain) == 1:
        rows = [(key, it, number) for key, it in bag.rows]
    return sorted({"%08x:%02x:%08x:%08x" % (key, it.type, it.data, style) for key, it, style in rows})


def attribute_of(theme: Theme, number: int) -> str:
    """What the library should say of an attribute of a theme."""
    value = theme.value(number)
    if value is None or value.is_attribute and number == value.data:
        return "-"
    if value.is_reference and theme.resources.entry(value.data) is None:
        return "-"
    if value.is_attribute and not is_end(theme, number):
        return "-"
    return "%02x %08x" % (value.type, value.data)


def is_end(theme: Theme, number: int) -> bool:
    """Whether an attribute is the end of references, and not one that the theme does not have."""
    item, value = theme.item(number), theme.value(number)
    if item is None or value is None:
        return False
    return theme.resources.follow(item.value, theme)[1][-1:] != [value.data]


def questions_of(
    resources: Resources, numbers: Sequence[int], themes: Sequence[int], attributes: Sequence[int]
) -> Iterator[Tuple[str, Wanted]]:
    """The questions about a device, and what the answers should be."""
    yield "c %s %s" % (packed(resources.device).hex(), android_assets.locale_tag(resources.device)), "."
    for it in numbers:
        yield "v %08x" % it, chosen(resources, it)
        if resources.bag(it) is not None:
            yield "b %08x" % it, bag_of(resources, it)
    for theme in themes:
        if resources.bag(theme) is None or resources.style(theme).missing:
            continue
        applied = resources.theme(theme)
        yield "t %08x" % theme, "."
        for it in attributes:
            yield "a %08x" % it, attribute_of(applied, it)


def agrees(question: str, answer: str, wanted: Wanted) -> bool:
    """Whether an answer of the library is what is wanted."""
    if question[0] in "cta":
        return answer == wanted
    if answer == "-" or wanted is None:
        return answer == "-" and wanted is None
    if question[0] == "b":
        return sorted(set(answer.split()[:-1])) == wanted
    _, kind, data, configuration, text = answer.split(" ")
    return (int(kind, 16), int(data, 16), unpacked(bytes.fromhex(configuration)), text_of(text)) == wanted


def as_android_chooses(name: str, paths: Sequence[str]) -> Compared:
    """What Android's library says for several devices of values, bags and attributes of themes."""
    if android_assets.program() is None:
        return "", 0
    tables = [open_table(it) for it in paths]
    whole = Resources(tables, device())
    names = {it: not_none(whole.name(it)) for it in whole.ids()}
    styles = [it for it, of in names.items() if of.type == "style"]
    themes = [it for it in styles if names[it].entry.startswith("Theme")][:: max(1, len(styles) // 400)][:6]
    attributes = [it for it, of in names.items() if of.type == "attr"]
    asked = [pair for it in DEVICES for pair in
             questions_of(whole.for_device(device(it)), list(names), themes, attributes)]
    answers = android_assets.ask(paths, [it for it, _ in asked])
    for (question, wanted), answer in zip(asked, answers):
        if not agrees(question, answer, wanted):
            return "%s: %s is %s, and should be %s" % (name, question[:80], wanted, answer), 0
    return "", len(asked)


def comparisons() -> str:
    """Each pair of random configurations for a random device: whether one matches, is better, and is more specific."""
    questions, wanted = [], []
    for it, pairs in random_configurations.devices(SEED, COMPARED):
        questions.append("c %s %s" % (packed(it).hex(), android_assets.locale_tag(it)))
        wanted.append(".")
        for one, other in pairs:
            questions.append("m %s %s" % (packed(one).hex(), packed(other).hex()))
            wanted.append("%d %d %d" % (matches(one, it), is_better(one, other, it), is_more_specific(one, other)))
    answers = android_assets.ask([apps()[0][1]], questions)
    wrong = [it for it in zip(questions, answers, wanted) if it[1] != it[2]]
    return "%d of %d, first %s" % (len(wrong), len(questions), wrong[0]) if wrong else ""


def qualifiers() -> str:
    """Each configuration that is written, read again by Android's library and by the tools."""
    texts = made_apps.QUALIFIERS + ["x", "land-de", "rDE", "sw600", "v", "en-rUSA", "", "port-land", "mcc1", "xxdpi"]
    texts += [write_qualifiers(one) for _, pairs in random_configurations.devices(SEED, 200) for one, _ in pairs]
    texts = [it for it in texts if it and not re.search(r"=|\.|\b0x|x0|\+nu\+|-r[0-9]", it)]
    answers = android_assets.ask([apps()[0][1]], ["q %s" % it for it in texts])
    for text, answer in zip(texts, answers):
        found: Optional[Configuration] = None
        try:
            found = parse_qualifiers(text)
        except Failure:
            pass
        wanted = unpacked(bytes.fromhex(answer)) if answer != "-" else None
        if wanted is not None and found is not None:
            # the library adds the API level from which a qualifier is known
            wanted = replace(wanted, sdk=found.sdk)
        if found != wanted:
            return "'%s' is %s, and for Android %s" % (text, found, wanted)
    return ""


def ordered() -> str:
    """aapt2 writes the configurations of a type in the order of `order`."""
    table = open_table(made_apps.path("many"))
    for package in table.packages:
        for kind in package.type_chunks:
            keys = [order(it.configuration) for it in package.chunks(kind)]
            if keys != sorted(keys):
                return "type %s" % package.type_name(kind)
    return ""


def together() -> str:
    """The parts of a split app, and a shared library with an app of its own."""
    for names in (("split.base", "split.de", "split.xxhdpi"), ("library", "kinds"), ("kinds", "library")):
        why, _ = as_android_chooses(names[0], [made_apps.path(it) for it in names])
        if why:
            return why
    return ""


def optimized() -> str:
    """What `aapt2 optimize` keeps of the densities of an app is what a device of that density takes."""
    many = made_apps.path("many")
    with tempfile.TemporaryDirectory() as folder:
        for density in ("ldpi", "mdpi", "tvdpi", "hdpi", "xhdpi", "xxhdpi", "xxxhdpi"):
            path = os.path.join(folder, density + ".apk")
            made_apps.run("aapt2", "optimize", "--target-densities", density, "-o", path, many)
            for it in ("", "de-land", "sw600dp-night", "en-rGB"):
                taken = device("%s-%s" % (it, density) if it else density)
                why = other_choice(*(Resources([open_table(app)], taken) for app in (many, path)))
                if why:
                    return "%s %s" % (density, why)
    return ""


def other_choice(whole: Resources, part: Resources) -> str:
    """The first id of which a device takes another configuration in an optimized app, or nothing."""
    for number in whole.ids():
        entries = [it.entry(number) for it in (whole, part)]
        one, other = (it.configuration if it is not None else None for it in entries)
        if one != other:
            return "%s: %s, in the optimized app %s" % (hex(number), one, other)
    return ""


def said_of(it: Entry) -> Tuple[str, Optional[List[Tuple[int, str]]]]:
    """What an entry says: its value, or the keys and values of its bag."""
    return str(it.value), None if it.bag is None else [(key, str(value)) for key, value in it.bag.rows]


def has_framework() -> str:
    """The part of the framework that is with the tools says what the whole one says."""
    tables = [open_framework(), open_table(FRAMEWORK)]
    for it in ("", "sw600dp-land-night-hdpi", "xxxhdpi-v29", "mdpi-v21"):
        part, whole = (Resources([table], device(it)) for table in tables)
        for number in part.ids():
            pair = [not_none(them.entry(number)) for them in (part, whole)]
            said = [said_of(one) for one in pair]
            is_bitmap = pair[0].value is not None and (pair[0].value.text or "").endswith(".png")
            if said[0] != said[1] and not is_bitmap or part.name(number) != whole.name(number):
                return "%s: %s in place of %s" % (part.name(number), *said)
    made = framework.framework(FRAMEWORK)
    with open(PATH, "rb") as file:
        return "" if file.read() == made else "ci/framework.py makes another file"


def chosen_alone(name: str, path: str) -> Compared:
    return as_android_chooses(name, [path])


def over_all(compare: Callable[[str, str], Compared]) -> Check:
    """A check of a comparison over all apps."""

    def check() -> str:
        for name, path in apps():
            why, _ = compare(name, path)
            if why:
                return why
        return ""

    return check


def checks() -> Checks:
    if shutil.which("aapt2"):
        yield "resources: as aapt2 dumps them", over_all(as_aapt2_dumps)
        yield "resources: as aapt2 optimizes them", optimized
        yield "resources: as aapt2 orders configurations", ordered
    if shutil.which("aapt"):
        yield "resources: as aapt dumps them", over_all(as_aapt_dumps)
    if android_assets.program():
        yield "resources: as Android's library chooses them", over_all(chosen_alone)
        yield "resources: as Android's library compares configurations", comparisons
        yield "resources: as Android's library reads qualifiers", qualifiers
        yield "resources: several tables together", together
    if os.path.exists(FRAMEWORK):
        yield "resources: the framework's part", has_framework
