"""How includes and merges are put in place: as LayoutInflater of Android 6.0.1 does it (parseInclude, rInflate)."""
from pathlib import Path
from typing import Any, List, Tuple

import pytest
from made_apps_source import mapped, opened, request, tree
from vindaesk.apps import app
from vindaesk.apps.report import Record
from vindaesk.common.failures import Failure

ANDROID = 'xmlns:android="http://schemas.android.com/apk/res/android"'
FULL = 'android:layout_width="match_parent" android:layout_height="match_parent"'
PART = '<View %s android:layout_width="10dp" android:layout_height="20dp" android:layout_marginLeft="5dp" android:id="@+id/a" />' % ANDROID


def included(tmp_path: Path, attributes: str, part: str = PART) -> Tuple[List[Any], List[Record]]:
    text = "<FrameLayout %s><include layout='@layout/part' %s /></FrameLayout>" % (FULL, attributes)
    (_, _, children), records = mapped(tmp_path, text, res__layout__part=part)
    return children, records


def test_an_include_without_a_size_leaves_the_layout_as_it_is(tmp_path: Path) -> None:
    children, records = included(tmp_path, 'android:layout_marginLeft="7dp"')
    assert children[0][1]["layout_width"] == 10 and children[0][1]["layout_marginLeft"] == 5
    assert "does not place" in records[1].reasons["android:layout_marginLeft"]


def test_an_include_with_both_sizes_places_the_layout(tmp_path: Path) -> None:
    children, _ = included(tmp_path, 'android:layout_width="1dp" android:layout_height="2dp" android:visibility="gone"')
    attributes = children[0][1]
    assert (attributes["layout_width"], attributes["layout_height"], attributes["visibility"]) == (1, 2, 2)
    assert "layout_marginLeft" not in attributes


def test_an_include_gives_its_id(tmp_path: Path) -> None:
    text = ("<FrameLayout %s><include layout='@layout/part' android:id='@+id/b' /><include layout='@layout/part' />"
            "<View android:id='@+id/b' %s /></FrameLayout>" % (FULL, FULL))
    (_, _, children), _ = mapped(tmp_path, text, res__layout__part=PART)
    first, second, third = (it[1]["id"] for it in children)
    assert first == third != second


def test_a_merge_is_replaced_by_what_is_in_it(tmp_path: Path) -> None:
    part = "<merge %s><View %s /><View %s /></merge>" % (ANDROID, FULL, FULL)
    children, records = included(tmp_path, 'android:id="@+id/b"', part)
    assert [it[0] for it in children] == ["View", "View"]
    assert "merge" in records[1].reasons["android:id"]


def test_a_circle_of_includes_is_refused_with_its_chain(tmp_path: Path) -> None:
    part = "<FrameLayout %s %s><include layout='@layout/main' /></FrameLayout>" % (ANDROID, FULL)
    with pytest.raises(Failure, match="circle: res/layout/main.xml > res/layout/part.xml > res/layout/main.xml"):
        included(tmp_path, "", part)


def test_a_layout_that_is_not_there_is_reported(tmp_path: Path) -> None:
    text = "<FrameLayout %s><include layout='@layout/none' /></FrameLayout>" % FULL
    (_, _, children), records = mapped(tmp_path, text)
    assert not children and records[1].notes[0].reason == "the layout is not in the app"
    assert [(it.is_view, it.is_exact) for it in records] == [(True, False), (True, False)]


def test_the_layout_of_a_stub_takes_its_place_where_that_is_asked_for(tmp_path: Path) -> None:
    # ViewStub.replaceSelfWithView: the layout parameters of the stub, and the id that it names
    text = ("<FrameLayout %s><ViewStub android:layout='@layout/part' android:inflatedId='@+id/c' android:layout_width='1dp' "
            "android:layout_height='2dp' /></FrameLayout>" % FULL)
    (_, _, children), _ = mapped(tmp_path, text, options={"stubs": True}, res__layout__part=PART)
    assert children[0][0] == "View" and children[0][1]["layout_width"] == 1 and "visibility" not in children[0][1]
    assert "id" in children[0][1]


def test_elements_without_a_view_make_none(tmp_path: Path) -> None:
    text = "<FrameLayout %s><requestFocus /><tag android:id='@+id/a' android:value='1' /></FrameLayout>" % FULL
    (_, _, children), records = mapped(tmp_path, text)
    assert not children and [it.is_view for it in records] == [True, False, False]


def test_the_class_of_a_view_element(tmp_path: Path) -> None:
    (kind, _, _), records = mapped(tmp_path, "<view class='android.widget.TextView' %s />" % FULL)
    assert kind == "TextView" and records[0].row == "TextView"


def test_a_theme_of_an_element_is_that_of_what_is_in_it(tmp_path: Path) -> None:
    values = ("<attr name='ink' /><style name='A'><item name='ink'>#ff000001</item></style>"
              "<style name='B'><item name='ink'>#ff000002</item></style>")
    text = ("<FrameLayout %s android:theme='@style/A'><View %s android:background='?attr/ink' />"
            "<FrameLayout %s android:theme='@style/B' android:background='?attr/ink' /></FrameLayout>" % (FULL, FULL, FULL))
    (_, _, children), _ = mapped(tmp_path, text, values)
    assert [it[1]["background"] for it in children] == ["#ff000001", "#ff000002"]


def test_styles_in_their_order(tmp_path: Path) -> None:
    # AssetManager.applyStyle: the attribute, the style, the style of the class by the theme, the theme
    values = ("<style name='S' parent='T'><item name='android:minHeight'>2dp</item></style>"
              "<style name='T'><item name='android:minWidth'>3dp</item><item name='android:minHeight'>9dp</item></style>"
              "<style name='C'><item name='android:paddingLeft'>4dp</item><item name='android:minWidth'>9dp</item></style>"
              "<style name='Theme'><item name='android:textViewStyle'>@style/C</item><item name='android:paddingTop'>5dp</item></style>")
    text = ("<FrameLayout %s android:theme='@style/Theme'><TextView style='@style/S' %s android:paddingRight='1dp' />"
            "</FrameLayout>" % (FULL, FULL))
    (_, _, (child,)), _ = mapped(tmp_path, text, values)
    found = {it: child[1][it] for it in ("paddingRight", "minHeight", "minWidth", "paddingLeft", "paddingTop")}
    assert found == {"paddingRight": 1, "minHeight": 2, "minWidth": 3, "paddingLeft": 4, "paddingTop": 5}


def test_null_ends_the_search(tmp_path: Path) -> None:
    values = "<style name='S'><item name='android:background'>#ff0000ff</item></style>"
    (_, attributes, _), _ = mapped(tmp_path, "<View style='@style/S' %s android:background='@null' />" % FULL, values)
    assert "background" not in attributes


def test_a_reference_that_leads_nowhere_is_named(tmp_path: Path) -> None:
    _, records = mapped(tmp_path, "<View %s android:minWidth='@dimen/none' android:minHeight='?attr/none' />" % FULL)
    reasons = {it.attribute: it.reason for it in records[0].notes}
    assert reasons["android:minWidth"] == "the resource is not there (@dimen/none)"
    assert reasons["android:minHeight"].startswith("the theme has no such attribute")


def test_the_source_is_in_the_report(tmp_path: Path) -> None:
    with opened(tmp_path, {"main": "<FrameLayout %s>\n  <Wheel %s />\n</FrameLayout>" % (FULL, FULL)}) as it:
        made = it.screen("main", request())
    record = made.records[1]
    assert (record.file, record.line, record.column) == ("res/layout/main.xml", 2, 3)


def test_values_of_other_configurations(tmp_path: Path) -> None:
    text = "<View %s android:minWidth='@dimen/gap' />" % FULL
    others = {"res__values-land__values": "<resources><dimen name='gap'>2dp</dimen></resources>"}
    (_, attributes, _), _ = mapped(tmp_path, text, "<dimen name='gap'>1dp</dimen>", **others)
    assert attributes["minWidth"] == 1
    (_, attributes, _), _ = mapped(tmp_path, text, "<dimen name='gap'>1dp</dimen>", "land-mdpi", **others)
    assert attributes["minWidth"] == 2


def test_file_of_an_unknown_name(tmp_path: Path) -> None:
    with opened(tmp_path, {"main": "<View %s />" % FULL}) as it:
        with pytest.raises(Failure, match="no layout 'mian'"):
            app.file_of("mian", it.shared(request()).resources)
        assert tree(it.root([], it.shared(request()), request()))[0] == "FrameLayout"
