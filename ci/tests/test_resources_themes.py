"""References, styles with their parents, and themes."""
from typing import Sequence, Tuple, Union

import made_tables
import pytest
from running import not_none
from table_writer import Bag, Package, Value, table
from vindaesk.common.failures import Failure
from vindaesk.resources import values
from vindaesk.resources.devices import device
from vindaesk.resources.framework import open_framework
from vindaesk.resources.resources import Resources
from vindaesk.resources.tables import Table
from vindaesk.resources.themes import Theme

ATTRIBUTE, NUMBER, STYLE = 0x7F010000, 0x7F020000, 0x7F030000
PLAIN = made_tables.configuration("")
NULL, REFERENCE, LOOKED_UP, DECIMAL = 0, 1, 2, 0x10
# a type and a word; the parent of a style, and the values of its attributes
Word = Tuple[int, int]
Rows = Tuple[int, Sequence[Tuple[int, Word]]]


def app(numbers: Sequence[Word] = (), styles: Sequence[Rows] = ()) -> Resources:
    """An app of numbers (a type and a word each) and of styles (a parent and rows each)."""
    package = Package(0x7F, "app")
    for number, name in ((1, "attr"), (2, "integer"), (3, "style")):
        package.type(number, name)
    for index in range(8):
        package.put(0x10000 + index, PLAIN, "a%d" % index, Bag(0, []))
    for index, value in enumerate(numbers):
        package.put(0x20000 + index, PLAIN, "n%d" % index, Value(*value))
    for index, (parent, rows) in enumerate(styles):
        package.put(0x30000 + index, PLAIN, "S%d" % index, Bag(parent, [(key, Value(*it)) for key, it in rows]))
    return Resources([Table(table([package]), "app.arsc")], device())


def value_of(it: Union[Resources, Theme], number: int) -> values.Value:
    """The value of an id, or of an attribute of a theme, which has to be there."""
    return not_none(it.value(number))


def test_references() -> None:
    it = app([(DECIMAL, 7), (REFERENCE, NUMBER), (REFERENCE, NUMBER + 1), (REFERENCE, NUMBER + 99), (REFERENCE, STYLE)],
             [(0, [])])
    assert it.resolve(value_of(it, NUMBER + 2)).data == 7
    assert it.follow(value_of(it, NUMBER + 2))[1] == [NUMBER + 1, NUMBER]
    # where it is not there, or is a bag, the reference is the end
    assert it.resolve(value_of(it, NUMBER + 3)).data == NUMBER + 99
    assert it.resolve(value_of(it, NUMBER + 4)).data == STYLE


def test_a_circle_of_references() -> None:
    it = app([(REFERENCE, NUMBER + 1), (REFERENCE, NUMBER + 2), (REFERENCE, NUMBER)])
    with pytest.raises(Failure) as caught:
        it.resolve(value_of(it, NUMBER))
    assert str(caught.value) == ("app.arsc: references lead in a circle: "
                                 "app:integer/n1, app:integer/n2, app:integer/n0, app:integer/n1")


def test_references_without_end() -> None:
    it = app([(REFERENCE, NUMBER + at + 1) for at in range(40)])
    with pytest.raises(Failure, match="do not end after 20 steps"):
        it.resolve(value_of(it, NUMBER))


def test_styles_have_what_their_parents_have() -> None:
    it = app(styles=[
        (0, [(ATTRIBUTE, (DECIMAL, 1)), (ATTRIBUTE + 1, (DECIMAL, 2))]),
        (STYLE, [(ATTRIBUTE, (DECIMAL, 3))]),
        (STYLE + 1, [(ATTRIBUTE + 2, (DECIMAL, 4))]),
    ])
    style = it.style(STYLE + 2)
    assert style.chain == (STYLE + 2, STYLE + 1, STYLE) and style.missing == 0
    assert {key: (item.value.data, item.style) for key, item in style.items.items()} == {
        ATTRIBUTE: (3, STYLE + 1), ATTRIBUTE + 1: (2, STYLE), ATTRIBUTE + 2: (4, STYLE + 2)}


def test_of_equal_items_the_first_counts() -> None:
    it = app(styles=[(0, [(ATTRIBUTE, (DECIMAL, 1)), (ATTRIBUTE, (DECIMAL, 2))])])
    assert it.style(STYLE).items[ATTRIBUTE].value.data == 1
    assert value_of(it.theme(STYLE), ATTRIBUTE).data == 1 and len(not_none(it.bag(STYLE)).array()) == 2


def test_a_parent_that_is_not_there() -> None:
    it = app(styles=[(0x01030005, [(ATTRIBUTE, (DECIMAL, 1))])])
    assert it.style(STYLE).missing == 0x01030005 and it.style(STYLE).items[ATTRIBUTE].value.data == 1


def test_a_circle_of_parents() -> None:
    it = app(styles=[(STYLE + 1, []), (STYLE, [])])
    with pytest.raises(Failure) as caught:
        it.style(STYLE)
    assert str(caught.value) == ("app.arsc: the parents of the style app:style/S0 are a circle: "
                                 "app:style/S0, app:style/S1, app:style/S0")


def test_too_many_parents() -> None:
    it = app(styles=[(STYLE + at + 1, []) for at in range(200)])
    with pytest.raises(Failure, match="are more than 100: app:style/S0, .*, [.][.], app:style/S100$"):
        it.style(STYLE)


def themed() -> Resources:
    return app([(DECIMAL, 7), (LOOKED_UP, ATTRIBUTE)], [
        (0, [(ATTRIBUTE, (DECIMAL, 1)), (ATTRIBUTE + 1, (LOOKED_UP, ATTRIBUTE)), (ATTRIBUTE + 2, (REFERENCE, NUMBER)),
             (ATTRIBUTE + 3, (LOOKED_UP, ATTRIBUTE + 2)), (ATTRIBUTE + 4, (NULL, 0)), (ATTRIBUTE + 5, (NULL, 1)),
             (ATTRIBUTE + 6, (REFERENCE, NUMBER + 1))]),
        (0, [(ATTRIBUTE, (DECIMAL, 2)), (ATTRIBUTE + 4, (DECIMAL, 9))]),
    ])


def test_attributes_of_a_theme() -> None:
    theme = themed().theme(STYLE)
    assert [value_of(theme, ATTRIBUTE + at).data for at in range(4)] == [1, 1, 7, 7]
    assert theme.value(ATTRIBUTE + 4) is None and value_of(theme, ATTRIBUTE + 5).is_empty
    assert theme.value(ATTRIBUTE + 7) is None
    # an attribute that a reference leads to stays, as in Android
    assert value_of(theme, ATTRIBUTE + 6).is_attribute


def test_a_theme_over_another() -> None:
    theme = themed().theme(STYLE)
    over = theme.applied(STYLE + 1)
    assert [value_of(over, ATTRIBUTE + at).data for at in (0, 1, 2, 4)] == [2, 2, 7, 9]
    assert over.styles == (STYLE, STYLE + 1)
    under = theme.applied(STYLE + 1, force=False)
    assert [value_of(under, ATTRIBUTE + at).data for at in (0, 1, 4)] == [1, 1, 9]
    assert value_of(theme, ATTRIBUTE).data == 1


def test_what_stays_without_force() -> None:
    """All but NULLs that are not @empty."""
    it = app(styles=[(0, [(ATTRIBUTE, (DECIMAL, 0)), (ATTRIBUTE + 1, (NULL, 1)), (ATTRIBUTE + 2, (NULL, 0))]),
                     (0, [(ATTRIBUTE + at, (DECIMAL, 5)) for at in range(3)])])
    under = it.theme(STYLE).applied(STYLE + 1, force=False)
    assert [(value_of(under, ATTRIBUTE + at).type, value_of(under, ATTRIBUTE + at).data) for at in range(3)] == [
        (DECIMAL, 0), (NULL, 1), (DECIMAL, 5)]


def test_attributes_in_a_circle() -> None:
    it = app(styles=[(0, [(ATTRIBUTE, (LOOKED_UP, ATTRIBUTE + 1)), (ATTRIBUTE + 1, (LOOKED_UP, ATTRIBUTE))])])
    with pytest.raises(Failure, match="app.arsc: references lead in a circle: app:attr/a1, app:attr/a0, app:attr/a1"):
        it.theme(STYLE).value(ATTRIBUTE)


def test_material() -> None:
    """Values of the source: Android's res/values/themes_material.xml and styles_material.xml."""
    android = Resources([open_framework()], device())

    def id_of(name: str) -> int:
        return not_none(android.find("android:" + name))

    theme = android.theme(id_of("style/Theme.Material.Light"))

    def said(name: str) -> values.Value:
        return value_of(theme, id_of("attr/" + name))

    assert str(said("colorPrimary")) == "#fff5f5f5" and str(said("listPreferredItemHeight")) == "64dp"
    assert str(said("windowBackground")) == "#fffafafa"
    button = android.style(said("buttonStyle").data)
    assert str(android.name(button.id)) == "android:style/Widget.Material.Light.Button"
    assert str(button.items[id_of("attr/minHeight")].value) == "48dp"
    small = android.style(id_of("style/TextAppearance.Material.Small"))
    assert str(android.resolve(small.items[id_of("attr/textSize")].value)) == "14sp"
