"""Tries `tools/runall` over layouts of an app in a matrix of configurations: NAME.app.toml."""
import os
import shutil

from running import TOP, Checks
from tools import Place, place, unlike
from vindaesk.testing.kind_apps import ENDING

APP = os.path.join(TOP, "examples", "trips", "trips.apk")
WHOLE = '''app = "trips.apk"
layouts = ["home", "row"]
picture = true
matrix = [["phone", "tablet"], ["day", "night"]]

[phone]
window = [360, 640]
[tablet]
window = [800, 1280]
dpi = 160
[day]
[night]
night = true
locale = "de"
'''
CASES = ["home-phone-day", "home-phone-night", "home-tablet-day", "home-tablet-night", "row-phone-day",
         "row-phone-night", "row-tablet-day", "row-tablet-night"]
# what is wrong in a file, and what is said
WRONG = {
    'layouts = ["home"]\n': "a.app.toml: it names no app, as app = ",
    'app = "no.apk"\n': "no.apk cannot be read: No such file",
    'app = "trips.apk"\nlayouts = ["hom"]\n': "the app has no layout 'hom'; did you mean 'home'?",
    'app = "trips.apk"\nlayuts = 1\n': "a.app.toml:2: there is no key 'layuts'",
    'app = "trips.apk"\ntheme = ["a", "b"]\n': "a.app.toml:2: theme is a text",
    'app = 5\n': "a.app.toml:1: app is a text, or an array of texts",
    'app = "trips.apk"\nlayouts = "row"\n[a]\nvalues = "x.lines"\n': "a.app.toml:3: a: values are those of the app",
    'app = "trips.apk"\nlayouts = "row"\n[a]\ndpi = 160\nlocale = "lnad"\n': "a.app.toml:3: a: ",
}


def put(it: Place, text: str) -> None:
    """An app, and its file of cases."""
    shutil.copy(APP, it.folder)
    it.put("a" + ENDING, text)


def keeps_pictures() -> str:
    """Each layout in each configuration is accepted, compared, and fails once it is another one."""
    with place() as it:
        put(it, WHOLE)
        why = unlike(it.call("runall", ".", "--accept"), 0, None, "")
        wanted = sorted("a@%s%s" % (name, ending) for name in CASES for ending in (".answer", ".png"))
        had = [name for name in it.names() if name.startswith("a@")]
        if why or had != wanted:
            return why or "files: %s" % had
        why = unlike(it.call("runall", "."), 0, b"8 passed, 0 failed\n", "")
        answer = it.read("a@home-tablet-night.answer").decode()
        why = why or ("" if "\nv1 0 0 800 1280\n" in answer else "the answer is %s" % answer[:80])
        it.put("a" + ENDING, WHOLE.replace("640", "630"))
        found = it.call("runall", ".")
        is_right = b"4 passed, 4 failed" in found[1]
        return why or unlike(found, 1, None) or ("" if is_right else "it says %r" % found[1][-80:])


def refuses_wrong_files() -> str:
    with place() as it:
        why = ""
        for text, said in WRONG.items():
            put(it, text)
            status, out, _ = it.call("runall", ".")
            is_right = status == 1 and out.startswith(b"failed: ./a.app.toml\n") and said in out.decode()
            why = why or ("" if is_right else "status %d, %r" % (status, out))
        return why


def checks() -> Checks:
    yield "app: pictures in a matrix", keeps_pictures
    yield "app: wrong files of cases", refuses_wrong_files
