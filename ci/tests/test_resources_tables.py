"""Tables of all forms: the values, names and texts that they have."""
import os
from fractions import Fraction

import made_tables
import pytest
import table_writer
from running import TOP, not_none
from vindaesk.resources.attribute_formats import Takes
from vindaesk.resources.devices import device
from vindaesk.resources.files import open_table
from vindaesk.resources.framework import open_framework
from vindaesk.resources.resources import Resources
from vindaesk.resources.strings import from_utf8
from vindaesk.resources.tables import Table, configurations
from vindaesk.resources.values import Complex, Type, Unit, Value

INBOX = os.path.join(TOP, "examples", "inbox", "inbox.apk")
MADE = made_tables.tables()
FORMS = ("dense", "sparse", "short", "compact", "compact short", "utf16", "halves")


def resources(*names: str, of: str = "") -> Resources:
    """The resources of made tables."""
    return Resources([Table(MADE[it], it + ".arsc") for it in names], device(of))


@pytest.mark.parametrize("form", FORMS)
def test_all_forms_say_the_same(form: str) -> None:
    german = resources(form, of="de-rAT-night")
    texts = [not_none(german.value(0x7F020000 + it)).text for it in range(40)]
    assert texts == [("deutsch %d" if it % 7 == 3 else "plain %d") % it for it in range(40)]
    assert not_none(german.value(0x7F020032)).text == made_tables.EMOJI
    assert german.value(0x7F020028) is None and german.value(0x7F0200FF) is None and german.value(0x7F090000) is None
    assert str(german.resolve(not_none(german.value(0x7F030002)))) == "16dp"
    assert german.find("string/s17") == 0x7F020011 and str(german.name(0x7F020011)) == "org.example:string/s17"
    assert list(german.ids("dimen")) == [0x7F030000, 0x7F030002]
    assert [it.configuration.language for it in german.entries(0x7F020003)] == ["", "de"]


def test_emoji_is_not_there_by_day() -> None:
    assert resources("dense").value(0x7F020032) is None


def test_configurations_of_a_table() -> None:
    found = {(it.language, it.night) for it in configurations(Table(MADE["dense"], "a"))}
    assert found == {("", 0), ("", 2), ("de", 0)}


def test_a_library_and_its_client() -> None:
    both = resources("client", "library")
    assert both.packages == {0x7F: "org.example.client", 0x02: "org.example.library"}
    assert both.value(0x7F010000) == Value(Type.REFERENCE, 0x02020001, None, "client.arsc")
    assert both.resolve(not_none(both.value(0x7F010000))).text == "of the library"
    style = both.style(0x7F020000)
    assert style.chain == (0x7F020000, 0x02030000)
    assert style.items[0x02010000].value == Value(Type.ATTRIBUTE, 0x02010000, None, "client.arsc")
    assert both.find("org.example.library:attr/tint") == 0x02010000 and both.app == 0x7F


def test_two_libraries() -> None:
    """Each gets an id, and what it says of its own is of this id."""
    both = Resources([Table(made_tables.library(it), it) for it in ("one", "two")], device())
    assert both.packages == {0x02: "one", 0x03: "two"}
    assert not_none(both.value(0x03020001)).data == 0x03020000 and both.find("two:string/shared") == 0x03020000
    assert list(not_none(both.bag(0x03030000)).items) == [0x03010000]


def test_a_client_alone() -> None:
    alone = resources("client")
    value = not_none(alone.value(0x7F010000))
    assert value.is_foreign and not value.is_reference and alone.resolve(value) == value
    assert alone.style(0x7F020000).missing == 0x05030000


def test_staged_ids() -> None:
    staged = resources("staged")
    same = not_none(staged.value(0x7F010001))
    assert same.data == 0x7F010000 and staged.resolve(same).text == "final"
    assert not_none(staged.value(0x7FFE0000)).text == "final"
    assert str(staged.name(0x7FFE0000)) == "org.example.staged:string/text"


def test_one_package_in_several_tables() -> None:
    """As an app in parts: the one with a language of its own, and the one with all others."""
    def table(qualifiers: str, text: str) -> Table:
        package = table_writer.Package(0x7F, "org.example")
        package.type(1, "string")
        package.put(0x10000, made_tables.configuration(qualifiers), "said", table_writer.Value(3, text))
        return Table(table_writer.table([package]), qualifiers or "base")

    tables = [table("", "base"), table("de", "deutsch")]
    assert not_none(Resources(tables, device("de")).value(0x7F010000)).text == "deutsch"
    assert Resources(tables, device("fr")).value(0x7F010000) == Value(Type.STRING, 0, "base", "base")


def test_texts() -> None:
    assert from_utf8("é😀\0".encode()) == "é😀\0"
    assert from_utf8(b"\xed\xa0\xbd\xed\xb8\x80\xc0\x80") == "😀\0"
    assert from_utf8(b"a\xff\xed\xa0\xbd") == "a\ufffd" + "\ufffd" * 3 and from_utf8(b"\xed\xa0\xbd") == "\ufffd"


class ShortPool(table_writer.Pool):
    """A pool of which lengths have 15 bits."""

    def length(self, number: int) -> bytes:
        return super().length(number & 0x7FFF)


def test_long_texts() -> None:
    """Lengths in two parts, and one whose upper bits the build tools do not write."""
    for size in (0x7F, 0x80, 0x7FFF, 0x8000, 0x12345):
        pool = ShortPool()
        package = table_writer.Package(0x7F, "a")
        package.type(1, "string")
        package.put(0x10000, made_tables.configuration(""), "long", table_writer.Value(3, "x" * size))
        found = Resources([Table(table_writer.table([package], pool), "a")], device())
        assert len(not_none(not_none(found.value(0x7F010000)).text)) == size


@pytest.mark.parametrize("kind,data,amount,unit,text", [
    (Type.DIMENSION, 0x00001001, Fraction(16), Unit.DP, "16dp"),
    (Type.DIMENSION, 0x0000C011, Fraction(3, 2), Unit.DP, "1.5dp"),
    (Type.DIMENSION, 0xFFFDE011, Fraction(-17, 4), Unit.DP, "-4.25dp"),
    (Type.DIMENSION, 0x00000100, Fraction(1), Unit.PX, "1px"),
    (Type.DIMENSION, 0x00000131, Fraction(1, 1 << 23), Unit.DP, "0.00000011920928955078125dp"),
    (Type.FRACTION, 0x10000030, Fraction(1, 8), Unit.FRACTION, "12.5%"),
    (Type.FRACTION, 0xC0000031, Fraction(-1, 2), Unit.FRACTION_PARENT, "-50%p"),
])
def test_dimensions_are_exact(kind: Type, data: int, amount: Fraction, unit: Unit, text: str) -> None:
    value = Value(kind, data)
    assert value.complex() == Complex(amount, unit) and str(value) == text


def test_pixels() -> None:
    assert Value(Type.DIMENSION, 0xC011).complex().pixels(420) == Fraction(63, 16)
    assert Complex(Fraction(2), Unit.MM).pixels(254) == 20 and Complex(Fraction(1), Unit.PT).pixels(72) == 1
    assert Complex(Fraction(14), Unit.SP).pixels(160, Fraction(3, 2)) == 21


@pytest.mark.parametrize("value,text", [
    (Value(0, 0), "@null"), (Value(0, 1), "@empty"), (Value(1, 0), "@null"), (Value(1, 0x7F010000), "@0x7f010000"),
    (Value(2, 0x01010030), "?0x01010030"), (Value(3, 0, "a"), '"a"'), (Value(4, 0x3FC00000), "1.5"),
    (Value(0x10, 0xFFFFFFFF), "-1"), (Value(0x11, 0x2F), "0x0000002f"), (Value(0x12, 0xFFFFFFFF), "true"),
    (Value(0x12, 0), "false"), (Value(0x1D, 0xFF112233), "#ff112233"), (Value(0x99, 5), "(type 0x99) 0x00000005"),
])
def test_values_are_written(value: Value, text: str) -> None:
    assert str(value) == text


def id_of(them: Resources, name: str) -> int:
    """The id of a name that is there."""
    return not_none(them.find(name))


def test_the_inbox() -> None:
    inbox = Resources([open_table(INBOX)], device())
    assert str(inbox.value(id_of(inbox, "dimen/indent"))) == "1.5dp"
    assert str(inbox.resolve(not_none(inbox.value(id_of(inbox, "@color/surface"))))) == "#ffffffff"
    layout = inbox.file(id_of(inbox, "layout/inbox"))
    assert layout is not None and layout.path.startswith("res/layout") and layout.source == INBOX


def test_the_framework() -> None:
    android = Resources([open_framework()], device())
    gravity = not_none(android.bag(id_of(android, "android:attr/gravity"))).format()
    assert gravity.is_flags and gravity.words[id_of(android, "android:id/center")] == 0x11
    color = not_none(android.bag(id_of(android, "android:attr/textColor"))).format()
    assert color.takes == Takes.COLOR | Takes.REFERENCE
    file = not_none(android.file(id_of(android, "android:color/primary_text_material_light")))
    assert file.path == "res/color/primary_text_material_light.xml" and file.source.endswith("framework.apk")
