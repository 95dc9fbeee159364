"""What a source lacks of its libraries, and the order of its modules and flavours."""
from pathlib import Path
from typing import List

from made_apps_source import ANDROID, mapped, put, request, screen
from vindaesk.apps import app
from vindaesk.apps.report import Effect, Record

SIZE = 'android:layout_width="wrap_content" android:layout_height="wrap_content"'
MANIFEST = ('<manifest %s><application android:theme="@style/Own"><activity><intent-filter>'
            '<category android:name="android.intent.category.LAUNCHER"/></intent-filter></activity></application></manifest>') % ANDROID
THEME = '<style name="Own" parent="Theme.MaterialComponents.%s"><item name="colorPrimary">#ff112233</item></style>'


def reasons(records: List[Record], effect: Effect = Effect.BOUNDS) -> List[str]:
    return [note.reason for it in records for note in it.notes if note.effect is effect]


def test_a_theme_over_one_of_a_library_is_over_the_nearest_one_of_android(tmp_path: Path) -> None:
    for parent, qualifiers, base in (("Light", "mdpi", "Material.Light"), ("DayNight", "mdpi", "Material.Light"),
                                     ("DayNight.NoActionBar", "night-mdpi", "Material"), ("NoActionBar", "mdpi", "Material")):
        put(tmp_path, "AndroidManifest.xml", MANIFEST)
        made = screen(tmp_path, "<View %s />" % SIZE, THEME % parent, qualifiers)
        assert made.theme.endswith("Theme.MaterialComponents.%s is not there: over android:style/Theme.%s" % (parent, base))


def test_an_attribute_of_a_library_is_that_of_android_and_reported(tmp_path: Path) -> None:
    # Theme.Material.Light: actionBarSize is 56dp
    put(tmp_path, "AndroidManifest.xml", MANIFEST)
    text = '<View android:layout_width="wrap_content" android:layout_height="?attr/actionBarSize" />'
    (_, attributes, _), records = mapped(tmp_path, text, THEME % "Light")
    assert attributes["layout_height"] == 56
    assert "?actionBarSize of a library that is not there: ?android:actionBarSize here" in reasons(records, Effect.BOUNDS)


def test_an_attribute_that_android_has_not_is_named(tmp_path: Path) -> None:
    put(tmp_path, "AndroidManifest.xml", MANIFEST)
    text = '<View android:layout_width="wrap_content" android:layout_height="?attr/ofNobody" />'
    _, records = mapped(tmp_path, text, THEME % "Light")
    assert "the theme has no such attribute (?app:attr/ofNobody)" in reasons(records)


def test_a_style_of_a_library_is_missed_by_the_views_that_have_it(tmp_path: Path) -> None:
    put(tmp_path, "AndroidManifest.xml", MANIFEST)
    _, records = mapped(tmp_path, "<Button %s />" % SIZE, THEME % "Light")
    assert reasons(records) == ["the style of its class, app:buttonStyle, is in a library that is not there: android:buttonStyle here"]
    _, records = mapped(tmp_path, "<TextView %s />" % SIZE, THEME % "Light")
    assert not reasons(records)


def test_a_parent_of_a_style_that_is_not_there_is_reported(tmp_path: Path) -> None:
    values = '<style name="A" parent="Widget.Of.Nobody"><item name="android:padding">3dp</item></style>'
    (_, attributes, _), records = mapped(tmp_path, '<View %s style="@style/A" />' % SIZE, values)
    assert attributes["padding"] == 3
    assert reasons(records) == ["its parent @style/Widget.Of.Nobody is not in the resources"]


def test_the_module_that_starts_the_app_and_its_main_folder_come_first(tmp_path: Path) -> None:
    for place, text, manifest in (("a_library/src/main", "library", "<manifest />"), ("mobile/src/free", "free", ""),
                                  ("mobile/src/main", "main", MANIFEST), ("mobile/src/androidTest", "test", MANIFEST)):
        put(tmp_path, place + "/res/values/a.xml", '<resources><string name="a">%s</string></resources>' % text)
        if manifest:
            put(tmp_path, place + "/AndroidManifest.xml", manifest)
    put(tmp_path, "mobile/src/main/res/layout/main.xml", '<TextView %s %s android:text="@string/a"/>' % (ANDROID, SIZE))
    with app.opened([str(tmp_path)]) as it:
        made = it.shared(request())
        views = made.expansion.layout(app.file_of("main", made.resources), made.theme)
        root = it.root(views, made, request())
        assert root.attributes["text"].text == "main"
