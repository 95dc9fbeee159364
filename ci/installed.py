"""Tries tools/install: what it puts below a folder, which then runs where it is copied, and that it takes all away."""
import os
import shutil
import subprocess
from typing import List, Tuple

from running import PROGRAM, SECONDS, TOP, Checks, named, need, run
from tools import place, unlike
from vindaesk.command_line import catalogue
from vindaesk.common import places

SCRIPT = b"window 9 9\nadd root View 1 1\nframe\nbounds\n"
ANSWER = b"v1\nsettled 0\nv1 0 0 1 1\n"


def files_below(folder: str) -> List[str]:
    """The files and links below a folder."""
    return sorted(os.path.relpath(os.path.join(at, name), folder) for at, _, names in os.walk(folder) for name in names)


def called(folder: str, words: List[str], given: bytes) -> Tuple[bytes, int]:
    """Standard output and status of an installed command, on a machine that has no toolchain and no repository."""
    path = ":".join(it for it in os.environ["PATH"].split(":") if not os.path.exists(os.path.join(it, "rt")))
    ended = subprocess.run(
        [os.path.join(folder, "bin", words[0]), *words[1:]], input=given, stdout=subprocess.PIPE, timeout=SECONDS,
        stderr=subprocess.DEVNULL, cwd=folder, env={"PATH": path}
    )
    return ended.stdout, ended.returncode


def runs_where_it_is_copied() -> str:
    with place() as it:
        found = it.call("install", "made")
        if unlike(found, 0, None, ""):
            return unlike(found, 0, None, "")
        shutil.move(os.path.join(it.folder, "made"), os.path.join(it.folder, "moved"))
        it.put("moved/a.script", SCRIPT)
        with open(os.path.join(TOP, "VERSION"), "rb") as file:
            version = b"vindaesk " + file.read()
        calls: List[Tuple[List[str], bytes, bytes]] = [
            (["vindaesk", "run"], SCRIPT, ANSWER), (["vindaesk-tree", "a.script"], b"", b"v1 View 0 0 1 1\n"),
            (["vindaesk-lint", "a.script"], b"", b""), (["vindaesk-runall", "--version"], b"", version),
            (["vindaesk", "explain", "NoView"], b"", b"28 NoView: no view has the number or the id.\n"
             b"It comes at any line that names a view, and at focus SIDE V.\n"),
        ]
        for words, given, wanted in calls:
            if called(os.path.join(it.folder, "moved"), words, given) != (wanted, 0):
                return "%s: %r" % (words, called(os.path.join(it.folder, "moved"), words, given))
        out, status = called(os.path.join(it.folder, "moved"), ["vindaesk", "--version"], b"")
        return "" if status == 0 and out.startswith(version + b"replies 1\ncommit ") else "--version: %r" % out


def everything_below(folder: str) -> List[str]:
    """All below a folder: files, links, and folders too."""
    return sorted(os.path.relpath(os.path.join(at, name), folder)
                  for at, folders, names in os.walk(folder) for name in [*folders, *names])


def replaces_and_removes() -> str:
    """A second time, over a file of an earlier version; then the removal, of folders too."""
    with place() as it:
        os.makedirs(os.path.join(it.folder, "made", "bin"))
        os.makedirs(os.path.join(it.folder, "made", "share", "man"))
        it.put("made/bin/other", "x")
        it.call("install", "made")
        before = everything_below(os.path.join(it.folder, "made"))
        it.put("made/lib/vindaesk/old", "x")
        listed = it.read("made/lib/vindaesk/INSTALLED")
        os.mkdir(os.path.join(it.folder, "made", "share", "old"))
        it.put("made/share/old/page", "x")
        it.put("made/lib/vindaesk/INSTALLED", listed + b"share/old/\nshare/old/page\n")
        why = unlike(it.call("install", "made"), 0, None, "")
        if why or everything_below(os.path.join(it.folder, "made")) != before:
            return why or "after the second time there is %s" % everything_below(os.path.join(it.folder, "made"))
        why = unlike(it.call("install", "--remove", "made"), 0, None, "")
        left = everything_below(os.path.join(it.folder, "made"))
        if why or left != ["bin", "bin/other", "share", "share/man"]:
            return why or "there stays %s" % left
        it.call("install", "new")
        why = unlike(it.call("install", "--remove", "new"), 0, None, "")
        why = why or ("there stays %s" % it.names() if it.names() != ["made"] else "")
        return why or unlike(it.call("install", "--remove", "made"), 2, b"", "nothing is installed at")


def replaces_the_first_version() -> str:
    """What version 0.1.0 has installed, which were links, a library of another form, and no list."""
    with place() as it:
        for folder in ("bin", "lib/vindaesk/tools", "share/man/man1"):
            os.makedirs(os.path.join(it.folder, "made", folder))
        for path in ("lib/vindaesk/view_tool", "lib/vindaesk/vindaesk", "lib/vindaesk/tools/tree", "bin/other",
                     "share/man/man1/vindaesk.1"):
            it.put("made/" + path, "x")
        links = {"vindaesk": "vindaesk", "vindaesk-tree": "tools/tree", "vindaesk-old": "tools/old"}
        for name, target in links.items():
            os.symlink("../lib/vindaesk/" + target, os.path.join(it.folder, "made", "bin", name))
        why = unlike(it.call("install", "made"), 0, None, "")
        if why or os.path.lexists(os.path.join(it.folder, "made", "bin", "vindaesk-old")):
            return why or "a command of the first version stays"
        found = called(os.path.join(it.folder, "made"), ["vindaesk", "run"], SCRIPT)
        if found != (ANSWER, 0):
            return "%r" % (found,)
        why = unlike(it.call("install", "--remove", "made"), 0, None, "")
        left = files_below(os.path.join(it.folder, "made"))
        return why or ("there stays %s" % left if left != ["bin/other"] else "")


def leaves_what_is_not_its_own() -> str:
    with place() as it:
        os.makedirs(os.path.join(it.folder, "made", "lib", "vindaesk"))
        why = unlike(it.call("install", "made"), 2, b"", "is there already, and was not installed from here")
        it.put("file", "x")
        why = why or unlike(it.call("install", "file"), 2, b"", "file is no folder")
        found = it.call("install", "other", VINDAESK_PROGRAM="/nowhere")
        why = why or unlike(found, 126, b"", "there is no program at")
        os.makedirs(os.path.join(it.folder, "third", "bin"))
        it.put("third/bin/vindaesk", "x")
        why = why or unlike(it.call("install", "third"), 2, b"", "vindaesk is there already, and was")
        left = everything_below(os.path.join(it.folder, "third"))
        if why or left != ["bin", "bin/vindaesk"]:
            return why or "after a refusal there is %s" % left
        return "" if it.read("third/bin/vindaesk") == b"x" else "another one's file is written over"


def helps() -> str:
    """Each tool, by `--help`, `--version` and an argument that none knows."""
    with place() as it:
        for tool in [*(it.name for it in catalogue.tools()), *catalogue.CHECKOUT_ALONE]:
            found = it.call(tool, "--help")
            if unlike(found, 0, None, "") or not found[1].startswith(b"usage: %s" % tool.encode()):
                return "%s --help: status %d, %r" % (tool, *found[:2])
            why = unlike(it.call(tool, "--version"), 0, places.version().encode() + b"\n", "")
            why = why or unlike(it.call(tool, "--unknown"), 2, b"")
            if why:
                return "%s: %s" % (tool, why)
        return ""


def manual_pages() -> str:
    with place() as it:
        it.call("install", "made")
        for tool in catalogue.every():
            text = it.read("made/share/man/man1/%s.1" % tool.called()).decode()
            for part in (".TH %s 1" % tool.called().upper(), ".SH NAME", ".SH SYNOPSIS", "vindaesk"):
                if part not in text:
                    return "%r is not in the page of %s" % (part, tool.called())
        return ""


def commands_of(recipe: str) -> List[str]:
    """The commands of the steps `run` of a recipe."""
    commands, indent = [], None
    for line in recipe.splitlines():
        text = line.strip()
        if indent is not None and len(line) - len(line.lstrip()) > indent:
            commands.append(text)
            continue
        indent = len(line) - len(line.lstrip()) if text == "run: |" else None
        if text.startswith("run: ") and text != "run: |":
            commands.append(text[len("run: ") :])
    return commands


def recipe_runs() -> str:
    """The commands of the recipe for a continuous build, over this repository in the place of a clone."""
    with open(os.path.join(TOP, "docs", "ci", "github.yml")) as file:
        commands = commands_of(file.read())
    if len(commands) != 5 or not commands[0].startswith("git clone ") or not commands[1].startswith("git -C "):
        return "commands: %s" % commands
    with place() as it:
        os.symlink(TOP, os.path.join(it.folder, "vindaesk"))
        os.mkdir(os.path.join(it.folder, "screens"))
        for stem in ("card", "first", "reader"):
            for name in os.listdir(os.path.join(TOP, "examples")):
                if name.startswith(stem + ".") or name == "page.xml":
                    shutil.copy(os.path.join(TOP, "examples", name), os.path.join(it.folder, "screens"))
        text = "\n".join(["set -e", *commands[2:]]).replace("${{ matrix.shard }}", "2")
        written, status = run(["bash", "-c", text], b"", it.folder)
        if (written.splitlines()[-1:], status) != ([b"1 passed, 0 failed"], 0):
            return "status %d, %r" % (status, written)
        return "" if "report-2.xml" in it.names() else "there is no report"


def needs_libc_alone() -> str:
    """What the program needs, as the loader lists it."""
    names = {line.split()[0].decode() for line in run([need("ldd"), PROGRAM], b"", TOP)[0].splitlines()}
    others = [it for it in names if not it.startswith(("linux-vdso.", "libc.", "/lib64/ld-linux", "statically", "not"))]
    return "it needs %s" % ", ".join(others) if others else ""


def checks() -> Checks:
    yield from named("what is installed", (
        helps, runs_where_it_is_copied, replaces_and_removes, replaces_the_first_version,
        leaves_what_is_not_its_own, manual_pages, recipe_runs, needs_libc_alone
    ))
