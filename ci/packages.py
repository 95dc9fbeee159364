"""Makes the packages of `tools/release`, installs each in a fresh place without a network and the toolchain, runs it
there, puts a later version in its place, and removes it. Also: the lists of commands and options agree, and two
folders give the same bytes."""
import ast
import contextlib
import fcntl
import glob
import hashlib
import json
import os
import re
import shutil
import subprocess
import sys
import tempfile
from typing import Dict, Iterator, List, Optional, Sequence, TextIO, Tuple

import web_module
from running import PROGRAM as BUILT, TOP, Checks, Skipped, difference, named, need, run
from vindaesk.command_line import catalogue
from vindaesk.common.failures import Failure
from vindaesk.installing import contents, manual, needs, wheel
from vindaesk.installing.commands import is_known
from vindaesk.provenance import dist
from vindaesk.provenance.sources import Listing

# the program that is packed: where dist/ has the same one, that, since the libraries of C are beside it
PROGRAM = dist.PROGRAM if os.path.dirname(contents.beside(BUILT, dist.LIBRARY)) == dist.FOLDER else BUILT

SECONDS = 600
DATE = "1700000000"
LATER = "9.9.9"
EXAMPLE = os.path.join(TOP, "examples", "first.script")
# where packages are kept until a source changes
KEPT = os.path.join(TOP, "out", "packages")
# the sources of what is made, in a copy of the repository
SOURCES = ("tools", "vindaesk", "docs", "examples", "pyproject.toml", "setup.py", "README.md", "LICENSE",
           "CHANGELOG.md", "VERSION", "include", "bindings")
# what runs in each place: words, and what is printed over the first example
CALLS: List[Tuple[List[str], str]] = [
    (["vindaesk", "run"], "first.answer"),
    (["vindaesk", "tree", "first.script"], "v1 FrameLayout 0 0 100 50\n  v2 View 0 0 10 20\n"),
    (["vindaesk-tree", "first.script"], "v1 FrameLayout 0 0 100 50\n  v2 View 0 0 10 20\n"),
    (["vindaesk-check", "first.script"], ""),
]
IMPORT = """import vindaesk, vindaesk.session
with vindaesk.session.Session() as it:
    it.line("window 9 9")
    print(it.line("add root View 1 1"))
"""


Variables = Dict[str, str]


def environment(*folders: str, **variables: str) -> Variables:
    """The variables of a machine without the toolchain: neither PYTHONPATH nor VINDAESK_PROGRAM, and on PATH these
    folders before what is there."""
    kept = [it for it in os.environ["PATH"].split(":") if not os.path.exists(os.path.join(it, "rt"))]
    found = {"PATH": ":".join([*folders, *kept]), "HOME": "/nowhere", "LC_ALL": "C.UTF-8"}
    return {**found, **variables}


def said(
    words: Sequence[str], folder: str, variables: Optional[Variables] = None, given: Optional[TextIO] = None
) -> Tuple[str, int]:
    """What a command prints, and its status."""
    ended = subprocess.run(words, cwd=folder, env=variables, stdin=given or subprocess.DEVNULL, stdout=subprocess.PIPE,
                           stderr=subprocess.STDOUT, timeout=SECONDS)
    return ended.stdout.decode("utf-8", "replace"), ended.returncode


def must(words: Sequence[str], folder: str, variables: Optional[Variables] = None) -> str:
    """What a command prints that has to succeed."""
    text, status = said(words, folder, variables)
    if status:
        raise AssertionError("%s ends with status %d: %s" % (" ".join(words[:4]), status, text[-1000:]))
    return text


def copy(folder: str, version: str = "") -> str:
    """Puts the sources into a folder, as a later version if one is given, which has one page more and one less."""
    for path in SOURCES:
        contents.write(contents.below(TOP, path, contents.MADE), folder)
    os.chmod(os.path.join(folder, "tools", "release"), 0o755)
    if version:
        with open(os.path.join(folder, "VERSION"), "w") as file:
            file.write(version + "\n")
        os.rename(os.path.join(folder, "docs", "STYLE.md"), os.path.join(folder, "docs", "LATER.md"))
    return folder


def release(folder: str, *words: str) -> List[str]:
    """A call of tools/release of a copy."""
    return [sys.executable, "-B", os.path.join(folder, "tools", "release"), *words]


@contextlib.contextmanager
def locked(path: str) -> Iterator[None]:
    """Where one process is at a time."""
    os.makedirs(os.path.dirname(path), exist_ok=True)
    with open(path, "w") as file:
        fcntl.flock(file, fcntl.LOCK_EX)
        yield


def libraries() -> List[str]:
    """The libraries of C and the WebAssembly module beside the program."""
    found = [contents.beside(PROGRAM, it) for it in (dist.ARCHIVE, dist.LIBRARY, dist.MODULE)]
    return [it for it in found if os.path.exists(it)]


def digest() -> str:
    """What the packages of these sources and this program are made of."""
    whole = hashlib.sha256()
    parts = [contents.below(TOP, path, contents.MADE) for path in SOURCES]
    parts += [contents.below("/", it) for it in [PROGRAM, *libraries()]]
    for path, it in sorted((path, it) for part in parts for path, it in part.items()):
        whole.update(b"%s %d " % (path.encode(), len(it.body)) + it.body)
    return whole.hexdigest()[:16]


def made(version: str = "") -> str:
    """The folder of the packages of these sources, or of a later version. They are made once, in a folder with a space
    in its name, and kept in out/ until the sources or the program change."""
    need("dpkg-deb")
    try:
        wheel.python()
    except Failure as failure:
        raise Skipped("setuptools", str(failure))
    with locked(os.path.join(KEPT, "lock")):
        place = os.path.join(KEPT, digest())
        for other in os.listdir(KEPT):
            if other not in ("lock", os.path.basename(place)):
                shutil.rmtree(os.path.join(KEPT, other))
        out = os.path.join(place, version or "first")
        if not os.path.isdir(out):
            with tempfile.TemporaryDirectory(prefix="vindaesk packages ") as folder:
                copy(os.path.join(folder, "one"), version)
                words = release(os.path.join(folder, "one"), "--program", PROGRAM, "--out", out)
                must(words, folder, environment(SOURCE_DATE_EPOCH=DATE))
    return out


def package(pattern: str, version: str = "") -> str:
    """The one file of a kind among the packages."""
    found = glob.glob(os.path.join(glob.escape(made(version)), pattern))
    if len(found) != 1:
        raise AssertionError("there are %s by the name %s" % (found, pattern))
    return found[0]


def wrong_call(variables: Variables, calls: Sequence[Tuple[List[str], str]] = ()) -> str:
    """A call that does not do what it should, in a folder with the first example."""
    with tempfile.TemporaryDirectory() as folder:
        shutil.copy(EXAMPLE, folder)
        for words, wanted in calls or CALLS:
            if wanted.endswith(".answer"):
                with open(os.path.join(TOP, "examples", wanted)) as file:
                    wanted = file.read()
            with open(EXAMPLE) as given:
                text, status = said(words, folder, variables, given)
            why = difference(wanted.encode(), 0, text.encode(), status)
            if why:
                return "%s: %s" % (" ".join(words), why)
    return ""


def wrong_version(variables: Variables, version: str) -> str:
    """Whether `vindaesk --version`, or a tool's, is another one."""
    for words in (["vindaesk", "--version"], ["vindaesk-tree", "--version"]):
        text, status = said(words, "/", variables)
        if status or text.splitlines()[0] != "vindaesk " + version:
            return "%s prints %r, status %d" % (" ".join(words), text, status)
    return ""


def version_here() -> str:
    with open(os.path.join(TOP, "VERSION")) as file:
        return file.read().strip()


def files_below(folder: str, *skipped: str) -> List[str]:
    """The files and links below a folder, without those whose path has one of these parts."""
    found = {os.path.relpath(os.path.join(at, name), folder) for at, _, names in os.walk(folder) for name in names}
    return sorted(it for it in found if not any(part in it for part in skipped))


def runs_from_a_tarball() -> str:
    with tempfile.TemporaryDirectory(prefix="a tarball ") as folder:
        must(["tar", "-xf", package("*.tar.gz"), "-C", folder], folder)
        top, = os.listdir(folder)
        for name in ("README.md", "LICENSE", "docs/TUTORIAL.md", "examples/first.script", "lib/vindaesk/entry.py",
                     "share/man/man1/vindaesk-tree.1", "share/bash-completion/completions/vindaesk"):
            if not os.path.exists(os.path.join(folder, top, name)):
                return "it has no %s" % name
        moved = os.path.join(folder, "moved elsewhere")
        os.rename(os.path.join(folder, top), moved)
        variables = environment(os.path.join(moved, "bin"))
        return wrong_call(variables) or wrong_version(variables, version_here())


def builds_with_a_tarball() -> str:
    """The examples in C, Python and Java are built over an unpacked tarball, and lay out a page as the program does."""
    for it in ("cc", "pkg-config", "javac"):
        need(it)
    with tempfile.TemporaryDirectory(prefix="a-tarball-") as folder:
        must(["tar", "-xf", package("*.tar.gz"), "-C", folder], folder)
        top, = (os.path.join(folder, it) for it in os.listdir(folder))
        page, native = os.path.join(TOP, "examples", "page.xml"), os.path.join(top, "examples", "native")
        variables = environment(PKG_CONFIG_PATH=os.path.join(top, "lib", "pkgconfig"),
                                PYTHONPATH=os.path.join(top, "lib", "vindaesk"))
        must(["sh", os.path.join(native, "build.sh")], folder, variables)
        wanted = run([PROGRAM, "run"], b"window 360 640\ninflate page.xml\nframe\nbounds\n", os.path.dirname(page))
        java = ["java", "-Djava.library.path=.", "-cp", "."]
        for words in ([os.path.join(folder, "lay_out"), page], [sys.executable, os.path.join(native, "lay_out.py"), page],
                      [*java, "LayOut", page]):
            text, status = said(words, folder, variables)
            why = difference(*wanted, text.encode(), status)
            if why:
                return "%s: %s" % (words[0], why)
        text, status = said([*java, "ScreenTest", os.path.dirname(page)], folder, variables)
        return "" if status == 0 and text.startswith("OK (") else "ScreenTest: status %d, %s" % (status, text)


def loads_from_each_package() -> str:
    """The WebAssembly module of the tarball and of the `.deb`, by the loader beside it, lays out a page as the program
    does."""
    need("node")
    if not os.path.exists(contents.beside(PROGRAM, dist.MODULE)):
        raise Skipped(dist.MODULE)
    page, given = os.path.join(TOP, "examples", "page.xml"), b"window 360 640\ninflate page.xml\nframe\nbounds\n"
    wanted = run([PROGRAM, "run"], given, os.path.dirname(page))
    with tempfile.TemporaryDirectory(prefix="a package ") as folder:
        tarball, debian = (os.path.join(folder, it) for it in ("of-a-tarball", "of-debian"))
        os.mkdir(tarball)
        must(["tar", "-xf", package("*.tar.gz"), "-C", tarball, "--strip-components=1"], folder)
        must(["dpkg-deb", "-x", package("*.deb"), debian], folder)
        for top in (tarball, os.path.join(debian, "usr")):
            web = os.path.join(top, contents.WEB)
            source = web_module.LOADING % (*(json.dumps(os.path.join(web, it)) for it in ("vindaesk.mjs", dist.MODULE)),)
            source += "const { page, status } = vindaesk.run(%s, { 'page.xml': readFileSync(%s) });" % (
                json.dumps(given.decode()), json.dumps(page))
            source += "process.stdout.write(page); process.exitCode = status;"
            text, status = said([*web_module.node(), "-e", source], folder)
            why = difference(*wanted, text.encode(), status)
            if why:
                return "%s: %s" % (web, why)
    return ""


def installs_a_wheel() -> str:
    with tempfile.TemporaryDirectory(prefix="an environment ") as folder:
        text, status = said([sys.executable, "-m", "venv", folder], "/")
        if status:
            raise Skipped("venv", "%s makes no venv with pip: %s" % (sys.executable, text[:200]))
        python = os.path.join(folder, "bin", "python")
        pip = [python, "-m", "pip", "--disable-pip-version-check", "--no-cache-dir"]
        skipped = ("site-packages/pip/", "site-packages/setuptools/", "_distutils_hack", "pkg_resources")
        before = files_below(folder, *skipped)
        variables = environment(os.path.join(folder, "bin"))
        must([*pip, "install", "--no-index", package("*.whl")], folder, variables)
        why = wrong_call(variables) or wrong_version(variables, version_here())
        why = why or wrong_call(variables, [([python, "-c", IMPORT], "['v1']\n")])
        if why or not os.path.exists(os.path.join(folder, "share", "man", "man1", "vindaesk-tree.1")):
            return why or "it has no manual page"
        must([*pip, "install", "--no-index", package("*.whl", LATER)], folder, variables)
        why = wrong_version(variables, LATER)
        must([*pip, "uninstall", "--yes", "vindaesk"], folder, variables)
        left = sorted(set(files_below(folder, *skipped)) - set(before))
        return why or ("there stays %s" % left if left else "")


def unpacks_for_debian() -> str:
    with tempfile.TemporaryDirectory(prefix="a root ") as folder:
        must(["dpkg-deb", "-x", package("*.deb"), folder], folder)
        variables = environment(os.path.join(folder, "usr", "bin"))
        return wrong_call(variables) or wrong_version(variables, version_here())


# a copy of this machine's files, by mounts of one process; the two packages and the example are in it, and what is done
# in it is thrown away
COPY = r"""set -e
mount -t tmpfs none "$1"
mkdir "$1/upper" "$1/work" "$1/root"
mount -t overlay overlay -o "lowerdir=/,upperdir=$1/upper,workdir=$1/work" "$1/root"
mount --bind /dev "$1/root/dev"
mount -t proc proc "$1/root/proc"
mkdir "$1/root/given"
cp "$2"/* "$1/root/given"
"""
INSTALL = COPY + r"""PATH="$PATH:/usr/sbin:/sbin" chroot "$1/root" /bin/sh -e -c "$3"
echo left:
cd "$1/upper"
find . -name given -prune -o -path '*vindaesk*' ! -type c -print
"""
INSIDE = r"""cd /given
dpkg -i first.deb > log 2>&1 || { cat log; exit 1; }
vindaesk run < first.script
vindaesk-tree first.script
vindaesk --version | head -n 1
man -w vindaesk-tree
ls /usr/lib/vindaesk/vindaesk/common/__pycache__ | grep -c places
ls /usr/share/doc/vindaesk/docs | grep -e STYLE -e LATER
dpkg -i later.deb > log 2>&1 || { cat log; exit 1; }
vindaesk --version | head -n 1
ls /usr/share/doc/vindaesk/docs | grep -e STYLE -e LATER
dpkg -r vindaesk > log 2>&1 || { cat log; exit 1; }
dpkg -P vindaesk > log 2>&1 || { cat log; exit 1; }
"""
PRINTED = """v1
v2
settled 0
v1 0 0 100 50
v2 0 0 10 20
v1 FrameLayout 0 0 100 50
  v2 View 0 0 10 20
vindaesk %s
/usr/share/man/man1/vindaesk-tree.1.gz
1
STYLE.md
vindaesk %s
LATER.md
left:
"""


def installs_for_debian() -> str:
    """By dpkg itself, with the scripts of the package, over a copy of this machine's files."""
    with tempfile.TemporaryDirectory(prefix="vindaesk-") as folder:
        given, over = os.path.join(folder, "given"), os.path.join(folder, "over")
        os.mkdir(given)
        os.mkdir(over)
        shutil.copy(EXAMPLE, given)
        words = [need("unshare"), "--mount", "sh", "-c"]
        if os.geteuid() != 0 or said([*words, COPY, "sh", over, given], folder)[1]:
            raise Skipped("mounts of its own", "dpkg installs over mounts of its own, which cannot be made here")
        shutil.copy(package("*.deb"), os.path.join(given, "first.deb"))
        shutil.copy(package("*.deb", LATER), os.path.join(given, "later.deb"))
        text, status = said([*words, INSTALL, "sh", over, given, INSIDE], folder,
                            environment(DEBIAN_FRONTEND="noninteractive"))
    return difference((PRINTED % (version_here(), LATER)).encode(), 0, text.encode(), status)


def passes_lintian() -> str:
    options = ("--allow-root", "--fail-on", "error,warning", "--tag-display-limit", "0")
    text, status = said([need("lintian"), *options, package("*.deb")], "/")
    return text if status else ""


def put_stand_in(folder: str) -> None:
    """Puts the sources into a folder, as a commit whose dist/ says that it is of its crates."""
    copy(folder)
    with open(PROGRAM, "rb") as program:
        found = {"dist/view_tool": contents.File(program.read(), is_command=True)}
    texts = {"crates.txt": "", ".gitignore": "out/\n", "crates/a/src/a.rt": "a\n"}
    contents.write({**found, **{path: contents.File(text.encode()) for path, text in texts.items()}}, folder)
    with open(os.path.join(folder, "dist", "PROVENANCE"), "w") as file:
        file.write("sources %s\n" % Listing(folder).checksum())
    author = ("-c", "user.name=a", "-c", "user.email=a@b.example")
    for words in (["sh", "-c", "cd dist && sha256sum PROVENANCE view_tool > SHA256SUMS"], ["git", "init", "-q"],
                  ["git", "add", "-A"], ["git", *author, "commit", "-q", "-m", "all"]):
        must(words, folder, environment())


def refuses_other_sources() -> str:
    """A program that is not of the sources, or not that of dist/, and what no commit has."""
    need("git")
    made()
    with tempfile.TemporaryDirectory(prefix="other sources ") as folder:
        put_stand_in(folder)
        out = os.path.join(folder, "out", "release")
        tries = {"README.md": "README.md is not as the commit has it", "dist/view_tool": "has not the checksum",
                 "crates/a/src/a.rt": "dist/ is not of these sources"}
        for path, why in tries.items():
            with open(os.path.join(folder, path), "ab") as file:
                file.write(b"x")
            text, status = said(release(folder), folder, environment())
            if status != 2 or why not in text or os.path.exists(out):
                return "after an edit of %s: status %d, %s" % (path, status, text)
        must(["git", "checkout", "-q", "."], folder)
        must(release(folder), folder, environment())
        text, status = said(release(folder, "--program", "/bin/none"), folder, environment())
        left = sorted(os.listdir(out))
        return "" if status == 2 and len(left) == 4 else "after a failure, status %d, there is %s" % (status, left)


def has_their_sums() -> str:
    text, status = said(["sha256sum", "--strict", "-c", "SHA256SUMS"], made())
    others = sorted(set(os.listdir(made())) - {"SHA256SUMS"})
    listed = sorted(line.split(": ")[0] for line in text.splitlines())
    return "" if status == 0 and listed == others else "status %d, %s of %s" % (status, text, others)


def has_the_same_bytes_elsewhere() -> str:
    """Made again in a folder of another name, with another mask for rights, zone of time and language."""
    sums = []
    with tempfile.TemporaryDirectory() as folder:
        out = os.path.join(folder, "out")
        words = release(copy(os.path.join(folder, "another folder")), "--program", PROGRAM, "--out", out)
        for place in (made(), out):
            if place == out:
                must(["sh", "-c", 'umask 077; exec "$@"', "sh", *words], folder,
                     environment(SOURCE_DATE_EPOCH=DATE, TZ="Asia/Tokyo", LC_ALL="C"))
            with open(os.path.join(place, "SHA256SUMS")) as file:
                sums.append(file.read().splitlines())
    return "; ".join("%s and %s" % pair for pair in zip(*sums) if pair[0] != pair[1])


def scripts_of_the_project() -> Dict[str, str]:
    """The commands of pyproject.toml, each with what it calls."""
    with open(os.path.join(TOP, "pyproject.toml")) as file:
        text = file.read()
    part = text[text.index("[project.scripts]\n") :].split("\n\n")[0]
    return dict(re.findall(r'^(\S+) = "(\S+)"$', part, re.MULTILINE))


def names_each_tool() -> str:
    """The modules of tools, the files of tools/, and the commands of the wheel."""
    names = [it.name for it in catalogue.tools()]
    wanted = {"vindaesk": "vindaesk.command_line.main:run"}
    for name in names:
        wanted["vindaesk-" + name] = "vindaesk.command_line.entry_points:" + name.replace("-", "_")
    found = scripts_of_the_project()
    if found != wanted:
        return "pyproject.toml has %s" % sorted(set(found.items()) ^ set(wanted.items()))
    files = {it for it in os.listdir(os.path.join(TOP, "tools")) if it.isidentifier() and it not in ("vindaesk",)}
    files -= {it for it in files if os.path.isdir(os.path.join(TOP, "tools", it))}
    others = files ^ {*names, *catalogue.CHECKOUT_ALONE}
    return "tools/ has %s" % sorted(others) if others else ""


def knows_each_value() -> str:
    """Whether a value that a help text names is none of which it is known what a shell offers for it."""
    for it in (part for command in catalogue.every() for part in (command, *command.parts)):
        for argument in it.arguments:
            if argument.value and not is_known(argument.value):
                return "vindaesk %s: %s is not in KINDS of installing/commands.py" % (it.name, argument.value)
    return ""


def has_no_import_of_what_is_left_out() -> str:
    """Whether a module of the packages imports one that is for a checkout alone."""
    out = {os.path.splitext(it)[0] for it in contents.SKIPPED}
    for path, it in contents.package(PROGRAM, "none").items():
        for node in ast.walk(ast.parse(it.body)) if path.endswith(".py") else ():
            if isinstance(node, (ast.Import, ast.ImportFrom)):
                words = {part for name in node.names for part in name.name.split(".")}
                words |= set((getattr(node, "module", None) or "").split("."))
                if words & out:
                    return "%s:%d: %s is in no package" % (path, node.lineno, " ".join(words & out))
    return ""


def shows_each_argument() -> str:
    """Whether the manual page and the completions of a tool lack an option that its help text has, or a word."""
    found = contents.help_files(catalogue.every(), 0)
    texts = {path: it.body.decode() for path, it in found.items()}
    for it in catalogue.tools():
        text = must([sys.executable, "-B", os.path.join(TOP, "tools", it.name), "--help"], "/")
        options = set(re.findall(r"(?<![\w-])--[a-z][a-z-]*", text.split("\n\n")[0])) | {"--help"}
        words = set(re.findall(r"^  ([A-Z][\w./,]*)  ", text, re.MULTILINE))
        page = texts["share/man/man1/%s.1" % it.called()].replace("\\-", "-").split(".SH ARGUMENTS")[-1]
        lacking = [name for name in options if "fB%s\\fR" % name not in page]
        lacking += [name for name in words if "fI%s\\fR" % name not in page]
        shown = {name for argument in it.arguments for name in argument.names}
        lacking += sorted(options - shown)
        bash = texts["share/bash-completion/completions/vindaesk"]
        part = bash[bash.index("\n        %s)\n" % it.name) :].split(";;")[0].split()
        lacking += [name for name in options if name not in re.findall(r"--[a-z-]+", " ".join(part))]
        if lacking:
            return "%s: the manual page or a completion lacks %s" % (it.name, " ".join(lacking))
    return ""


def has_clean_manual_pages() -> str:
    need("mandoc")
    need("man")
    with tempfile.TemporaryDirectory() as folder:
        for it in catalogue.every():
            path = os.path.join(folder, it.called() + ".1")
            with open(path, "w") as file:
                file.write(manual.page(it, catalogue.every(), int(DATE)))
            tries = (["mandoc", "-Tlint", "-W", "style", path],
                     ["man", "--warnings", "-E", "UTF-8", "-l", "-Tutf8", "-Z", path])
            for words in tries:
                ended = subprocess.run(words, stdout=subprocess.PIPE, stderr=subprocess.PIPE,
                                       env=environment(MANROFFSEQ="", MANWIDTH="80"))
                text = ended.stderr.decode() + (ended.stdout.decode() if words[0] == "mandoc" else "")
                if ended.returncode or text:
                    return "%s: %s" % (words[0], text)
    return ""


def finds_what_a_program_needs() -> str:
    """The version of the C library, as objdump finds it too; and files that are no programs, or cut short."""
    with open(sys.executable, "rb") as file:
        body = file.read()
    with tempfile.TemporaryDirectory() as folder:
        path = os.path.join(folder, "it")
        for_others = body[:18] + b"\xb7" + body[19:]
        for part in (b"", body[:3], b"#!/bin/sh\n", body[:19], body[:64], body[: len(body) // 2], for_others):
            with open(path, "wb") as file:
                file.write(part)
            try:
                return "%d bytes need %s" % (len(part), needs.of_program(path))
            except Failure:
                pass
    need("objdump")
    for path in (PROGRAM, "/bin/ls", "/bin/tar"):
        names = re.findall(r"GLIBC_([0-9.]+)", said(["objdump", "-T", path], "/")[0])
        wanted = max((tuple(map(int, it.split(".")[:2])) for it in names), default=(0, 0))
        try:
            found = needs.of_program(path).libc
        except Failure as failure:
            # /bin/ls and /bin/tar may need libraries of which nothing is known
            if path == PROGRAM or "no package is known" not in str(failure):
                return str(failure)
            continue
        if found != wanted:
            return "%s needs %s, and by objdump %s" % (path, found, wanted)
    return ""


def checks() -> Checks:
    yield from named("packages", (
        names_each_tool, knows_each_value, has_no_import_of_what_is_left_out, shows_each_argument,
        has_clean_manual_pages, finds_what_a_program_needs, runs_from_a_tarball, builds_with_a_tarball,
        loads_from_each_package,
        installs_a_wheel, unpacks_for_debian, installs_for_debian, passes_lintian, refuses_other_sources, has_their_sums, has_the_same_bytes_elsewhere
    ))
