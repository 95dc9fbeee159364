"""Apps that aapt2 and aapt make for the checks of resources, of the sources here: all kinds of values, many
configurations, split apps, sparse tables, a shared library and its client, and texts in UTF-8 and UTF-16. None are
there where aapt2 is missing."""
import functools
import os
import re
import shutil
import subprocess
import tempfile
from typing import Dict, List, Optional, Sequence

from running import Skipped

SECONDS = 60
MANIFEST = '<manifest package="%s"/>'
LONG = "0123456789abcdefé😀" * 2000
KINDS = """<resources>
    <string name="plain">Inbox</string>
    <string name="empty"></string>
    <string name="emoji">Hi 😀 %%1$s 👩‍👩‍👧 é 中</string>
    <string name="middle">%s</string>
    <string name="lengthy">%s</string>
    <string name="styled">A <b>bold 😀</b> text</string>
    <string name="same">@string/plain</string>
    <color name="rgb">#123</color> <color name="argb">#8123</color> <color name="rrggbb">#123456</color>
    <color name="aarrggbb">#80123456</color> <color name="reference">@color/rgb</color>
    <dimen name="dp">16dp</dimen> <dimen name="half">1.5dp</dimen> <dimen name="less">-4.25dp</dimen>
    <dimen name="sp">14sp</dimen>
    <dimen name="px">1px</dimen> <dimen name="mm">2mm</dimen> <dimen name="pt">3.3pt</dimen>
    <dimen name="inch">0.5in</dimen>
    <dimen name="small">0.0001dp</dimen> <dimen name="large">8000000dp</dimen>
    <item name="fraction" type="fraction">12.5%%</item> <item name="parent" type="fraction">-50%%p</item>
    <item name="ratio" type="dimen" format="float">1.75</item> <item name="name" type="id"/>
    <bool name="yes">true</bool> <bool name="no">false</bool>
    <integer name="ten">10</integer> <integer name="minus">-1</integer> <integer name="hex">0x7fffffff</integer>
    <string-array name="words"><item>one 😀</item><item>@string/plain</item><item>one 😀</item></string-array>
    <integer-array name="numbers"><item>3</item><item>3</item><item>@integer/ten</item></integer-array>
    <array name="none"/>
    <plurals name="files"><item quantity="one">%%d file</item><item quantity="other">%%d files</item></plurals>
    <attr name="side"><enum name="left" value="1"/><enum name="right" value="2"/></attr>
    <attr name="edges"><flag name="top" value="1"/><flag name="bottom" value="0x80000000"/></attr>
    <attr name="depth" format="dimension|reference"/> <attr name="share" format="integer" min="-3" max="100"/>
    <style name="Base"><item name="depth">4dp</item><item name="side">left</item></style>
    <style name="Base.Dark"><item name="side">right</item><item name="edges">top|bottom</item></style>
    <style name="Other" parent="Base.Dark"><item name="depth">?attr/share</item><item name="share">@null</item></style>
    <style name="Free" parent=""><item name="depth">@dimen/half</item><item name="share">@empty</item></style>
</resources>
""" % ("x" * 200, LONG)
# the qualifiers of values of one name, which says them
QUALIFIERS = """
mcc310 mcc310-mnc4 en en-rUS en-rGB en-rAU b+en+001 es es-rES es-rUS b+es+419 pt pt-rPT pt-rBR de de-rAT fr fr-rCA
b+sr+Latn sr zh zh-rTW zh-rHK b+zh+Hans+SG fil ar ar-rEG iw in ldrtl ldltr sw320dp sw600dp sw720dp w320dp w600dp
w820dp h480dp h720dp w600dp-h480dp small normal large xlarge long notlong round notround widecg nowidecg highdr lowdr
port land square car desk television appliance watch vrheadset night notnight ldpi mdpi tvdpi hdpi xhdpi xxhdpi
xxxhdpi nodpi anydpi 260dpi notouch finger stylus keysexposed keyshidden keyssoft nokeys qwerty 12key navexposed
navhidden nonav dpad trackball wheel 640x480 v4 v17 v21 v23 v26 de-land en-rGB-night land-xhdpi sw600dp-land
sw600dp-xhdpi night-v21 de-sw600dp-land-night-xxhdpi-v23 b+en+us+posix
""".split()
# the qualifiers whose values are in an app of their own where an app is split
PARTS = ("de", "xxhdpi")
LIBRARY = '<resources><attr name="tint" format="color"/><string name="shared">of the library</string>' \
    '<style name="Shared"><item name="tint">#ff0000ff</item></style><public type="attr" name="tint"/>' \
    '<public type="string" name="shared"/><public type="style" name="Shared"/></resources>'
CLIENT = '<resources><string name="own">@org.example.library:string/shared</string>' \
    '<style name="Mine" parent="@org.example.library:style/Shared">' \
    '<item name="org.example.library:tint">#ff00ff00</item></style></resources>'


def varied(it: str) -> str:
    """Values of a configuration, each of which says it; some are in few configurations only."""
    number = QUALIFIERS.index(it) + 1 if it else 0
    rows = '<string name="said">%s</string><integer name="number">%d</integer>' % (it or "default", number)
    rows += '<dimen name="third">%ddp</dimen>' % number if number % 3 == 0 else ""
    rows += '<style name="Varied"><item name="share">%d</item></style>' % number if number % 5 == 0 else ""
    return "<resources>%s</resources>" % rows


def sources(folder: str, files: Dict[str, str]) -> None:
    """Writes files of resources by their paths."""
    for name, text in files.items():
        path = os.path.join(folder, name)
        os.makedirs(os.path.dirname(path), exist_ok=True)
        with open(path, "w", encoding="utf-8") as file:
            file.write(text)


def run(*command: str) -> None:
    """Runs a command that has to succeed."""
    ended = subprocess.run(command, stdout=subprocess.PIPE, stderr=subprocess.STDOUT, timeout=SECONDS)
    if ended.returncode:
        raise AssertionError("%s: %s" % (command[:2], ended.stdout.decode("utf-8", "replace")[:500]))


class Maker:
    """Makes apps in a folder."""

    def __init__(self, folder: str):
        self.folder = folder

    def path(self, *parts: str) -> str:
        return os.path.join(self.folder, *parts)

    def link(self, name: str, package: str, files: Dict[str, str], *options: str) -> None:
        """Makes NAME.apk of files of resources."""
        sources(self.path(name), dict(files, **{"AndroidManifest.xml": MANIFEST % package}))
        run("aapt2", "compile", "--dir", self.path(name, "res"), "-o", self.path(name + ".zip"))
        run("aapt2", "link", "--manifest", self.path(name, "AndroidManifest.xml"), "-o", self.path(name + ".apk"),
            *options, self.path(name + ".zip"))

    def split(self, files: Dict[str, str], options: Sequence[str]) -> None:
        """An app in three: the ids of the parts are those of the whole."""
        ids = self.path("ids.txt")
        self.link("whole", "org.example.many", files, "--emit-ids", ids, *options)
        parts = {it: {name: text for name, text in files.items() if re.search(r"-%s[-/]" % it, name)} for it in PARTS}
        parts["base"] = {name: text for name, text in files.items() if not any(name in it for it in parts.values())}
        for name in PARTS:
            # a style needs its attributes in the same app when it is built
            parts[name] = {it: re.sub("<style.*</style>", "", text) for it, text in parts[name].items()}
        for name, those in parts.items():
            self.link("split." + name, "org.example.many", those, "--stable-ids", ids, "--no-resource-removal",
                      *options)

    def all(self) -> None:
        kinds = {"res/values/kinds.xml": KINDS}
        many = {"res/values/all.xml": varied(""), "res/values/kinds.xml": KINDS}
        many.update(("res/values-%s/all.xml" % it, varied(it)) for it in QUALIFIERS)
        plain = ("--no-auto-version", "--no-resource-deduping")
        self.link("kinds", "org.example.kinds", kinds, *plain)
        self.link("many", "org.example.many", many, *plain)
        self.link("sparse", "org.example.sparse", many, "--enable-sparse-encoding", *plain)
        self.split(many, plain)
        self.link("other", "org.example.other", kinds, "--package-id", "0x80")
        self.link("library", "org.example.library", {"res/values/all.xml": LIBRARY}, "--shared-lib")
        self.link("client", "org.example.client", {"res/values/all.xml": CLIENT}, "-I", self.path("library.apk"))
        if shutil.which("aapt"):
            run("aapt", "package", "--utf16", "-M", self.path("kinds", "AndroidManifest.xml"), "-S",
                self.path("kinds", "res"), "-F", self.path("utf16.apk"))


@functools.lru_cache(maxsize=None)
def folder() -> "Optional[tempfile.TemporaryDirectory[str]]":
    """The folder of the apps, or None where aapt2 is missing. It ends with the process that asked for it."""
    if not shutil.which("aapt2"):
        return None
    made = tempfile.TemporaryDirectory()
    Maker(made.name).all()
    return made


def paths() -> List[str]:
    """The apps."""
    made = folder()
    return [] if made is None else sorted(it.path for it in os.scandir(made.name) if it.name.endswith(".apk"))


def path(name: str) -> str:
    """The app of a name; Skipped where aapt2 is missing."""
    made = folder()
    if made is None:
        raise Skipped("aapt2")
    return os.path.join(made.name, name + ".apk")
