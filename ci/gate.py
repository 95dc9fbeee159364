"""Tries .ci/run, in a folder with stand-ins for `rt`, for the checks and for what installs packages: what its last line
and its status are, and what it says of packages."""
import os
import shutil
import tempfile
from typing import Dict, List, Tuple

from running import TOP, Checks, run

# what `rt ci` prints, its status, whether a program is there, what the checks print, their status; the last line, the
# status
CALLS = [
    ("x proved\n39 passed, 0 failed", 0, True, "100 passed, 0 failed, 0 skipped", 0, b"139 passed, 0 failed, 0 skipped", 0),
    ("x proved\n39 passed, 0 failed", 0, True, "skipped: b\n99 passed, 0 failed, 2 skipped", 0,
     b"138 passed, 0 failed, 2 skipped", 0),
    ("x proved\n39 passed, 0 failed", 0, True, "failed: a: 1 passed, 2 failed\n99 passed, 1 failed, 3 skipped", 1,
     b"138 passed, 1 failed, 3 skipped", 1),
    ("x NOT PROVED\n38 passed, 1 failed", 3, True, "100 passed, 0 failed, 0 skipped", 0,
     b"138 passed, 1 failed, 0 skipped", 3),
    ("x NOT PROVED\n38 passed, 1 failed", 3, True, "99 passed, 1 failed, 1 skipped", 1,
     b"137 passed, 2 failed, 1 skipped", 3),
    ("x NOT PROVED\n38 passed, 1 failed", 3, False, "100 passed, 0 failed, 0 skipped", 0,
     b"38 passed, 1 failed, 0 skipped", 3),
    ("stopped", 2, False, "", 0, b"0 passed, 1 failed, 0 skipped", 2),
    ("39 passed, 0 failed", 1, True, "100 passed, 0 failed, 0 skipped", 0, b"139 passed, 1 failed, 0 skipped", 1),
    ("39 passed, 0 failed", 0, True, "stopped", 1, b"39 passed, 1 failed, 0 skipped", 1),
    ("39 passed, 0 failed", 0, True, "stopped", 0, b"39 passed, 1 failed, 0 skipped", 1),
    ("39 passed, 0 failed", 0, True, "7 skipped\nfailed: b", 1, b"39 passed, 1 failed, 0 skipped", 1),
]
PASSED = (CALLS[0][0], 0)
# which packages are installed, the user, the status of apt-get; what is said of the packages, and the calls of apt-get
PACKAGES: List[Tuple[str, str, str, str, List[str]]] = [
    ("a|b", "0", "exit 0", "all are here", []),
    ("a", "0", "exit 0", "installed: b", ["--download-only b", "--no-download b"]),
    ("a", "1000", "exit 0", "missing, and not to be installed here: b", []),
    ("c", "0", "echo E: nowhere; exit 100", "missing, and could not be installed: a b: E: nowhere",
     ["--download-only a b", "update"]),
    ("a", "0", '[ -e "$0.old" ] && exit 0; [ "$6" = update ] && : > "$0.old"; [ "$6" = update ]', "installed: b",
     ["--download-only b", "update", "--download-only b", "--no-download b"]),
]


def put(path: str, act: str) -> None:
    """Writes a command."""
    os.makedirs(os.path.dirname(path), exist_ok=True)
    with open(path, "w", encoding="utf-8") as file:
        file.write("#!/usr/bin/env bash\n%s\n" % act)
    os.chmod(path, 0o755)


def printing(text: str, status: int) -> str:
    """What prints a text and ends with a status."""
    return "cat << 'END'\n%s\nEND\nexit %d" % (text, status)


def called(folder: str, commands: Dict[str, str]) -> Tuple[List[bytes], int]:
    """The lines that the gate prints, and its status, with these commands in place of others; packages a and b are
    asked for, and nothing is installed."""
    for name in (".ci", "ci"):
        os.mkdir(os.path.join(folder, name))
    shutil.copy(os.path.join(TOP, ".ci", "run"), os.path.join(folder, ".ci"))
    put(os.path.join(folder, "bin", "dpkg-query"), "echo ok installed")
    put(os.path.join(folder, "bin", "apt-get"), "exit 1")
    for name, act in commands.items():
        put(os.path.join(folder, name), act)
    with open(os.path.join(folder, "ci", "packages.txt"), "w", encoding="utf-8") as file:
        file.write("# comment\na   for this\nb   for that\n")
    path = "%s:%s" % (os.path.join(folder, "bin"), os.environ["PATH"])
    written, ended = run(["env", "PATH=" + path, os.path.join(folder, ".ci", "run")], b"", folder)
    return written.splitlines(), ended


def sums() -> str:
    for proofs, proved, is_built, said, checked, line, status in CALLS:
        commands = {"bin/rt": printing(proofs, proved), "vindaesk": printing(said, checked)}
        if is_built:
            commands["crates/view_tool/out/view_tool"] = ""
        with tempfile.TemporaryDirectory() as folder:
            written, ended = called(folder, commands)
        if (written[-1], ended) != (line, status):
            return "after '%s' and '%s' its end is %r, status %d" % (proofs, said, written[-3:], ended)
    return ""


def packages() -> str:
    """What is missing is installed, where that can be done, and what is skipped though it is here is asked to fail."""
    for here, user, act, said, wanted in PACKAGES:
        with tempfile.TemporaryDirectory() as folder:
            log = os.path.join(folder, "calls")
            written, ended = called(folder, {
                "bin/rt": printing(*PASSED), "vindaesk": 'echo "$CI_NO_SKIP passed, 0 failed, 0 skipped"',
                "bin/dpkg-query": 'case $4 in %s) echo install ok installed ;; *) exit 1 ;; esac' % here,
                "bin/id": "echo " + user, "bin/apt-get": 'echo "$*" >> %s\n%s' % (log, act)})
            calls = []
            if os.path.exists(log):
                with open(log, encoding="utf-8") as file:
                    calls = file.read().splitlines()
        if b"packages for the checks: " + said.encode() not in written:
            return "with %s installed it says %r" % (here, written)
        if len(calls) != len(wanted) or not all(call.endswith(end) for call, end in zip(calls, wanted)):
            return "with %s installed the calls are %s" % (here, calls)
        if (written[-1], ended) != (b"40 passed, 0 failed, 0 skipped", 0):
            return "with %s installed its end is %r, status %d" % (here, written[-1], ended)
    return ""


def checks() -> Checks:
    yield "the gate: sums", sums
    yield "the gate: packages", packages
