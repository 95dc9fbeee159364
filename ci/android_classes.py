"""Android's own classes that measure and place views, compiled over its source: ci/android/bounds/ says what of each is
kept and has stubs for the rest. Nothing of Android's source is in this project: the folder of it is given."""
import glob
import os
import shutil
import subprocess
import xml.etree.ElementTree as ElementTree
from typing import Dict, List, Set

import android_cut
from running import TOP

OWN = os.path.join(TOP, "ci", "android", "bounds")
STUBS = os.path.join(OWN, "stubs")
SECONDS = 300
# files that are taken as they are, below the folder of the base
WHOLE = (
    "core/java/android/view/Gravity.java",
    "core/java/android/util/ArrayMap.java", "core/java/android/util/MapCollections.java",
    "core/java/android/util/ContainerHelpers.java",
    "core/java/android/util/Pools.java", "core/java/android/util/LayoutDirection.java",
)
ATTRIBUTES = "core/res/res/values/attrs.xml"


def declared(base: str) -> Dict[str, List[str]]:
    """The attributes of each group of attrs.xml."""
    root = ElementTree.parse(os.path.join(base, ATTRIBUTES)).getroot()
    return {it.attrib["name"]: [below.attrib["name"] for below in it.findall("attr")]
            for it in root.findall("declare-styleable")}


def resources(groups: Dict[str, List[str]]) -> str:
    """The source of the class R: of each group the numbers of its attributes, and of each attribute its place there."""
    names = sorted({it for group in groups.values() for it in group})
    numbers = {it: number for number, it in enumerate(names)}
    lines = ["package com.android.internal;", "public class R {"]
    lines.append("public static final String[] NAMES = {%s};" % ", ".join('"%s"' % it for it in names))
    lines.append("public static class styleable {")
    for group, members in groups.items():
        lines.append("public static final int[] %s = {%s};" % (group, ", ".join(str(numbers[it]) for it in members)))
        for place, it in enumerate(members):
            lines.append("public static final int %s_%s = %d;" % (group, it.replace(":", "_"), place))
    return "\n".join([*lines, "}", "}", ""])


def sources(base: str) -> Dict[str, str]:
    """The sources of all classes, by their paths."""
    made: Dict[str, str] = {"com/android/internal/R.java": resources(declared(base))}
    for path in glob.glob(os.path.join(STUBS, "**", "*.java"), recursive=True):
        with open(path, encoding="utf-8") as file:
            made[os.path.relpath(path, STUBS)] = file.read()
    cuts: Dict[str, android_cut.Cut] = {}
    for path in sorted(glob.glob(os.path.join(OWN, "*.cut"))):
        with open(path, encoding="utf-8") as file:
            cut = android_cut.read_cut(file.read())
        cuts[cut.path.partition("/java/")[2]] = cut
    whole = {it.partition("/java/")[2]: it for it in WHOLE}
    known: Set[str] = {it[: -len(".java")].replace("/", ".") for it in (*made, *cuts, *whole)}
    for target, path in whole.items():
        with open(os.path.join(base, path), encoding="utf-8") as file:
            made[target] = android_cut.with_imports(android_cut.plain(file.read()), known)
    for target, cut in cuts.items():
        made[target] = android_cut.made(base, cut, known)
    return made


def built(base: str, folder: str) -> str:
    """Compiles the classes into a folder, and returns it. What the compiler says is an AssertionError."""
    source, out = os.path.join(folder, "source"), os.path.join(folder, "classes")
    for it in (source, out):
        shutil.rmtree(it, ignore_errors=True)
    for path, text in sources(base).items():
        place = os.path.join(source, path)
        os.makedirs(os.path.dirname(place), exist_ok=True)
        with open(place, "w", encoding="utf-8") as file:
            file.write(text)
    paths = sorted(glob.glob(os.path.join(source, "**", "*.java"), recursive=True))
    ended = subprocess.run(["javac", "-nowarn", "-Xmaxerrs", "400", "-encoding", "utf-8", "-d", out, *paths],
                           stderr=subprocess.PIPE, timeout=SECONDS)
    if ended.returncode:
        raise AssertionError("Android's classes cannot be compiled: %s" % ended.stderr.decode())
    return out
