#!/usr/bin/env python3
"""Makes the reduced table of Android's framework that the tools have with them, from a whole framework-res.apk:

ci/framework.py /usr/share/android-framework-res/framework-res.apk tools/vindaesk/resources/framework.apk

It has the attributes, the styles and themes, and the values that they reach: sizes, colours, numbers, the paths of
drawables. The files of colour lists and drawables are those that the Material and DeviceDefault styles reach; of a
bitmap it is the one for 160 dpi. Ids and names are those of the whole table. Values of a language, of a network or of
a watch, a car or a television are left out. The same file gives the same bytes."""
import hashlib
import io
import os
import re
import struct
import sys
import zipfile
from typing import Dict, Iterable, Iterator, List, Sequence, Set, Tuple

import table_writer
from running import TOP, not_none
from vindaesk.resources.configuration import Configuration
from vindaesk.resources.devices import PHONE
from vindaesk.resources.files import open_table
from vindaesk.resources.packed import packed
from vindaesk.resources.resources import Entry, Name, Resources
from vindaesk.resources.values import Value

# whole types, and the types of which only what is reached is taken
WHOLE = ("attr", "^attr-private", "style")
REACHED = ("dimen", "color", "integer", "bool", "fraction", "drawable", "mipmap", "array", "id")
# pictures that are frames of animations
FRAMES = re.compile("res/drawable-.*/(ic_media_route_connect|btn_switch_to_o)")
NOTE = """A part of the resources of Android 10, made by ci/framework.py from a framework-res.apk whose table has the
SHA-256 %s.
Copyright (C) The Android Open Source Project. Licensed under the Apache License, Version 2.0:
http://www.apache.org/licenses/LICENSE-2.0
"""
DATE = (2019, 9, 3, 0, 0, 0)
REFERENCE = struct.Struct("<HBBI")


def is_general(it: Configuration) -> bool:
    """Whether a configuration is of no language, network or kind of device."""
    return not (it.language or it.mcc or it.mnc or it.ui_type or it.round or it.sdk > 29)


def references(data: bytes) -> Set[int]:
    """The words of references and attributes in a compiled XML file."""
    found: Set[int] = set()
    at = struct.unpack_from("<H", data, 2)[0]
    while at + 8 <= len(data):
        kind, head, size = struct.unpack_from("<HHI", data, at)
        if kind == 0x102:
            start, step, count = struct.unpack_from("<HHH", data, at + head + 8)
            for number in range(count):
                _, _, form, word = REFERENCE.unpack_from(data, at + head + start + number * step + 12)
                found.update({word} if form in (1, 2) else ())
        at += size
    return found


class Part:
    """What is taken of a framework."""

    def __init__(self, path: str):
        self.archive = zipfile.ZipFile(path)
        self.names = set(self.archive.namelist())
        self.resources = Resources([open_table(path)], PHONE)
        self.rows: Dict[int, List[Entry]] = {}
        self.files: Dict[str, bytes] = {}
        self.has_files = True

    def name(self, number: int) -> Name:
        """The name of an id of the framework."""
        return not_none(self.resources.name(number))

    def digest(self) -> str:
        return hashlib.sha256(self.archive.read("resources.arsc")).hexdigest()

    def of_material(self) -> Iterator[int]:
        """What the Material styles say with their parents, except styles."""
        for number in self.resources.ids("style"):
            if re.search("Material|DeviceDefault", self.name(number).entry):
                for item in self.resources.style(number).items.values():
                    name = self.resources.name(item.value.data) if item.value.is_reference else None
                    if name is not None and name.type != "style":
                        yield item.value.data

    def entries(self, number: int) -> List[Entry]:
        """The configurations of a resource that are taken: of bitmaps only one."""
        entries = [it for it in self.resources.entries(number) if is_general(it.configuration)]
        texts = {it.configuration: it.value.text for it in entries if it.value is not None and it.value.text}
        bitmaps = [it for it in entries if not texts.get(it.configuration, ".xml").endswith(".xml")]
        least = sorted(bitmaps, key=lambda it: (it.configuration.smallest_width, it.configuration.orientation,
                                                it.configuration.density != 160, it.configuration.density))
        return [it for it in entries if it not in bitmaps] + least[:1]

    def take(self, numbers: Iterable[int]) -> None:
        """Takes resources and what they reach."""
        waiting = list(numbers)
        while waiting:
            number = waiting.pop()
            name = self.resources.name(number)
            if number in self.rows or name is None or name.type not in WHOLE + REACHED:
                continue
            self.rows[number] = self.entries(number)
            for entry in self.rows[number]:
                waiting += self.reached(entry)

    def reached(self, entry: Entry) -> List[int]:
        """The ids that an entry has."""
        rows = rows_of(entry)
        found = [it.data for _, it in rows if it.type in (1, 2)] + [key for key, _ in rows if key & 0xFF0000]
        text = entry.value.text if entry.value is not None else None
        if text is not None and self.is_taken(text):
            self.files[text] = self.archive.read(text)
            found += references(self.files[text]) if text.endswith(".xml") else ()
        return found + ([entry.bag.parent] if entry.bag is not None else [])

    def is_taken(self, text: str) -> bool:
        """Whether a text is the path of a file that is taken."""
        return text in self.names and not FRAMES.match(text) and (self.has_files or text.startswith("res/color"))

    def table(self) -> bytes:
        """The table of what is taken."""
        package = table_writer.Package(1, "android", "sparse")
        group = self.resources.groups.by_id[1]
        for kind in group.type_ids():
            package.type(kind, not_none(group.type_name(kind)))
        for number in sorted(self.rows):
            name = self.name(number).entry
            for entry in self.rows[number]:
                package.put(number & 0xFFFFFF, packed(entry.configuration), name, written(entry))
        return table_writer.table([package])


def rows_of(entry: Entry) -> Sequence[Tuple[int, Value]]:
    """The keys and values of an entry; the key of a value that is no bag is 0."""
    return [(0, entry.value)] if entry.value is not None else not_none(entry.bag).rows


def written(entry: Entry) -> table_writer.Content:
    """An entry for the writer."""

    def value(it: Value) -> table_writer.Value:
        return table_writer.Value(it.type, it.data if it.text is None else it.text)

    if entry.value is not None:
        return value(entry.value)
    bag = not_none(entry.bag)
    return table_writer.Bag(bag.parent, [(key, value(it)) for key, it in bag.rows])


def framework(path: str) -> bytes:
    """The bytes of the reduced framework of a whole one."""
    part = Part(path)
    part.take(part.of_material())
    part.has_files = False
    part.take(it for it in part.resources.ids() if part.name(it).type in WHOLE)
    out = io.BytesIO()
    with zipfile.ZipFile(out, "w", zipfile.ZIP_DEFLATED, compresslevel=9) as archive:
        first = [("resources.arsc", part.table()), ("NOTICE", (NOTE % part.digest()).encode())]
        for name, data in first + sorted(part.files.items()):
            archive.writestr(zipfile.ZipInfo(name, DATE), data, zipfile.ZIP_DEFLATED, 9)
    return out.getvalue()


def main() -> None:
    if len(sys.argv) != 3:
        sys.exit(re.sub(r"\n\n.*", "", __doc__.split("\n\n", 1)[1], flags=re.S))
    data = framework(sys.argv[1])
    with open(sys.argv[2], "wb") as file:
        file.write(data)
    print("%s: %d bytes" % (os.path.relpath(sys.argv[2], TOP), len(data)))


if __name__ == "__main__":
    main()
