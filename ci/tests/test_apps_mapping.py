"""What classes become. What is expected follows from the sources of Android 6.0.1's classes, named in each test."""
from pathlib import Path
from typing import List, Tuple

from made_apps_source import mapped
from vindaesk.apps.report import Effect, Record

SIZE = 'android:layout_width="wrap_content" android:layout_height="wrap_content"'
FULL = 'android:layout_width="match_parent" android:layout_height="match_parent"'
VECTOR = (
    '<vector xmlns:android="http://schemas.android.com/apk/res/android" android:width="24dp" android:height="20dp" '
    'android:viewportWidth="1" android:viewportHeight="1"><path android:fillColor="#ff112233" android:pathData="M0 0"/></vector>'
)


def notes(records: List[Record]) -> List[Tuple[str, Effect, str]]:
    return [(it.attribute, it.effect, it.reason) for record in records for it in record.notes]


def test_an_image_is_as_large_as_its_drawable_and_padding(tmp_path: Path) -> None:
    # ImageView.onMeasure: the size of the drawable and the padding, at least the suggested minimum, resolved by the
    # spec
    text = '<ImageView %s android:src="@drawable/pin" android:paddingLeft="3dp" android:paddingTop="2dp" />' % SIZE
    (kind, attributes, children), records = mapped(tmp_path, text, res__drawable__pin=VECTOR)
    assert kind == "FrameLayout" and not children
    assert (attributes["minWidth"], attributes["minHeight"]) == (27, 22)
    assert attributes["background"] == "#ff112233"
    assert all(it.is_exact for it in records)


def test_an_image_without_a_drawable_has_no_size(tmp_path: Path) -> None:
    # ImageView.onMeasure: without a drawable w and h are 0; with one that has no size they are 1
    (_, attributes, _), _ = mapped(tmp_path, "<ImageView %s />" % SIZE)
    assert "minWidth" not in attributes and "minHeight" not in attributes
    (_, attributes, _), _ = mapped(tmp_path, '<ImageView %s android:src="#ff0000ff" />' % SIZE)
    assert (attributes["minWidth"], attributes["minHeight"]) == (1, 1)


def test_the_padding_of_a_background_counts_where_there_is_no_other(tmp_path: Path) -> None:
    # View's constructor: setBackground sets the padding, then the attributes that are there replace their sides
    shape = ('<shape xmlns:android="http://schemas.android.com/apk/res/android"><size android:width="40dp" android:height="30dp"/>'
             '<solid android:color="#ff00ff00"/><padding android:left="1dp" android:top="2dp" android:right="3dp" '
             'android:bottom="4dp"/></shape>')
    text = '<FrameLayout %s android:background="@drawable/box" android:paddingTop="9dp" />' % SIZE
    (_, attributes, _), _ = mapped(tmp_path, text, res__drawable__box=shape)
    assert [attributes["padding" + it] for it in ("Left", "Top", "Right", "Bottom")] == [1, 9, 3, 4]
    # View.getSuggestedMinimumWidth: the background's own size is a least size
    assert (attributes["minWidth"], attributes["minHeight"]) == (40, 30)


def test_a_radio_group_is_no_button(tmp_path: Path) -> None:
    # RadioGroup's constructor: super(context, attrs); of radioButtonStyle it reads its own two attributes alone
    text = "<RadioGroup %s><RadioButton %s /></RadioGroup>" % (FULL, SIZE)
    (kind, attributes, ((_, of_button, _),)), _ = mapped(tmp_path, text)
    assert (kind, attributes.get("clickable"), of_button["clickable"]) == ("LinearLayout", None, True)


def test_a_text_in_the_centre_is_a_text_in_a_frame(tmp_path: Path) -> None:
    text = '<TextView android:layout_width="match_parent" android:layout_height="48dp" android:gravity="center" android:text="a" />'
    (kind, attributes, children), records = mapped(tmp_path, text)
    assert kind == "FrameLayout" and attributes["layout_height"] == 48
    ((inner, own, _),) = children
    assert inner == "TextView" and own["layout_gravity"] == 0x11 and own["text"] == "a"
    assert (own["layout_width"], own["layout_height"]) == (-2, -2)
    assert [it.number for it in records] == [0] and all(it.is_exact for it in records)


def test_a_text_at_the_left_and_top_stays_a_text(tmp_path: Path) -> None:
    (kind, attributes, children), _ = mapped(tmp_path, '<TextView %s android:text="a" android:gravity="start|top" />' % SIZE)
    assert kind == "TextView" and attributes["text"] == "a" and not children


def test_a_hint_shows_where_there_is_no_text(tmp_path: Path) -> None:
    (_, attributes, _), _ = mapped(tmp_path, '<TextView %s android:hint="who" android:textColorHint="#ff010203" />' % SIZE)
    assert attributes["text"] == "who" and attributes["textColor"] == "#ff010203"
    (_, attributes, _), _ = mapped(tmp_path, '<TextView %s android:hint="who" android:text="me" />' % SIZE)
    assert attributes["text"] == "me"


def test_a_hint_that_is_longer_than_the_text_is_reported(tmp_path: Path) -> None:
    # TextView.onMeasure: the width is at least that of the hint
    _, records = mapped(tmp_path, '<TextView %s android:hint="whoever" android:text="me" />' % SIZE)
    assert any(key == "android:hint" and effect is Effect.BOUNDS for key, effect, _ in notes(records))


def test_a_single_line_does_not_break(tmp_path: Path) -> None:
    text = '<TextView %s android:singleLine="true" android:text="a b" />' % SIZE
    (kind, _, children), _ = mapped(tmp_path, text)
    assert kind == "FrameLayout" and children[0][1]["layout_height"] == 8


def test_lines_and_characters_are_least_sizes(tmp_path: Path) -> None:
    # TextView.onMeasure and getDesiredHeight: minLines times the height of a line with the padding; ems times it as
    # width
    text = '<TextView %s android:minLines="3" android:ems="10" android:padding="5dp" />' % SIZE
    (_, attributes, _), _ = mapped(tmp_path, text)
    assert (attributes["minHeight"], attributes["minWidth"]) == (34, 80)


def test_a_picture_beside_a_text_takes_room_as_padding(tmp_path: Path) -> None:
    # TextView.getCompoundPaddingLeft: the padding, the width of the drawable and the padding between
    text = '<TextView %s android:drawableLeft="@drawable/pin" android:drawablePadding="4dp" android:text="a" />' % SIZE
    (kind, attributes, children), _ = mapped(tmp_path, text, res__drawable__pin=VECTOR)
    assert kind == "FrameLayout" and attributes["paddingLeft"] == 28 and attributes["clipToPadding"] is False
    picture, label = children
    assert picture[1]["layout_marginLeft"] == -28 and picture[1]["layout_width"] == 24
    assert label[0] == "TextView"


def test_capitals(tmp_path: Path) -> None:
    (_, attributes, _), _ = mapped(tmp_path, '<TextView %s android:text="ab" android:textAllCaps="true" />' % SIZE)
    assert attributes["text"] == "AB"


def test_a_stub_is_gone_and_says_why_its_layout_is_not_there(tmp_path: Path) -> None:
    # ViewStub: GONE, and 0 by 0
    (kind, attributes, _), records = mapped(tmp_path, '<ViewStub %s android:layout="@layout/main" />' % SIZE)
    assert kind == "View" and attributes["visibility"] == 2
    assert "--inflate-stubs" in records[0].reasons["android:layout"]


def test_one_child_of_an_animator_is_shown(tmp_path: Path) -> None:
    # ViewAnimator.addView: all but the first are gone; FrameLayout.onMeasure measures those too, by measureAllChildren
    text = "<ViewFlipper %s><View %s /><View %s /></ViewFlipper>" % (FULL, FULL, FULL)
    (_, _, children), _ = mapped(tmp_path, text)
    assert [it[1].get("visibility") for it in children] == [None, 1]
    text = text.replace("<ViewFlipper", '<ViewFlipper android:measureAllChildren="false"')
    (_, _, children), _ = mapped(tmp_path, text)
    assert [it[1].get("visibility") for it in children] == [None, 2]


def test_dividers_are_views(tmp_path: Path) -> None:
    # LinearLayout.measureVertical: the height of the divider is added before each child that has one before it
    text = ('<LinearLayout %s android:orientation="vertical" android:divider="@drawable/line" android:dividerPadding="2dp" '
            'android:showDividers="beginning|middle|end"><View %s /><View %s android:visibility="gone" /><View %s /></LinearLayout>')
    line = ('<shape xmlns:android="http://schemas.android.com/apk/res/android"><size android:height="3dp"/>'
            '<solid android:color="#ff000001"/></shape>')
    (_, _, children), _ = mapped(tmp_path, text % (SIZE, SIZE, SIZE, SIZE), res__drawable__line=line)
    heights = [it[1]["layout_height"] for it in children if it[0] == "FrameLayout"]
    assert heights == [3, 3, 3] and [it[0] for it in children] == ["FrameLayout", "View", "FrameLayout", "View", "FrameLayout", "View"]
    assert children[0][1]["layout_marginLeft"] == 2 and children[0][1]["layout_width"] == -1


def test_a_list_is_as_wide_as_there_is_room_and_has_no_height(tmp_path: Path) -> None:
    # ListView.onMeasure without an adapter: the width of the spec, the height of the padding
    (kind, _, children), _ = mapped(tmp_path, "<ListView %s />" % SIZE)
    assert kind == "FrameLayout"
    assert children == [("View", {"layout_width": -1, "layout_height": 0}, [])]


def test_a_list_has_items_with_design(tmp_path: Path) -> None:
    text = '<ListView %s tools:listitem="@layout/row" />' % FULL
    row = '<View xmlns:android="http://schemas.android.com/apk/res/android" android:layout_width="match_parent" android:layout_height="40dp" />'
    (_, _, ((kind, _, items),)), _ = mapped(tmp_path, text, options={"design": True, "items": 2}, res__layout__row=row)
    assert kind == "LinearLayout" and len(items) == 2


def test_a_class_that_is_not_known_is_reported(tmp_path: Path) -> None:
    (kind, _, _), records = mapped(tmp_path, "<a.b.WheelView %s />" % SIZE)
    assert kind == "View" and not records[0].is_exact
    (kind, _, _), _ = mapped(tmp_path, "<a.b.MyTextView %s />" % SIZE)
    assert kind == "TextView"


def test_a_class_of_the_app_is_not_one_of_android_by_its_name(tmp_path: Path) -> None:
    _, records = mapped(tmp_path, "<a.b.TextView %s />" % SIZE)
    assert not records[0].is_exact


def test_a_view_without_a_width_is_reported(tmp_path: Path) -> None:
    _, records = mapped(tmp_path, '<FrameLayout %s><View android:layout_height="1dp" /></FrameLayout>' % FULL)
    assert [it.is_exact for it in records] == [True, False]


def test_a_card_has_the_padding_of_its_content(tmp_path: Path) -> None:
    # CardView.setPadding does nothing; its delegate sets that of the content
    text = '<androidx.cardview.widget.CardView %s android:padding="9dp" app:contentPadding="4dp" app:contentPaddingLeft="6dp" />'
    (_, attributes, _), _ = mapped(tmp_path, text % SIZE)
    assert "padding" not in attributes
    assert [attributes["padding" + it] for it in ("Left", "Top", "Right", "Bottom")] == [6, 4, 4, 4]


def test_what_is_bound_by_data_binding_has_its_default(tmp_path: Path) -> None:
    text = '<TextView %s android:text="@{user.name, default=Ada}" android:hint="@{user.hint}" />' % SIZE
    (_, attributes, _), records = mapped(tmp_path, text)
    assert attributes["text"] == "Ada"
    reasons = {it.attribute: it.reason for it in records[0].notes}
    assert "its default is taken" in reasons["android:text"] and "without a default" in reasons["android:hint"]


def test_the_root_of_data_binding_is_the_element_in_it(tmp_path: Path) -> None:
    text = "<layout><data><variable name='a' type='b'/></data><View %s /></layout>" % FULL
    (kind, _, _), records = mapped(tmp_path, text)
    assert kind == "View" and [it.is_view for it in records] == [False, False, False, True]
