"""The WebAssembly module: in Node and in Chromium it gives the bytes and the status of the program over each worked call,
each worked script line by line too, and its memory does not grow with its calls.

The module is that of dist/, or the one that the variable VINDAESK_WASM names; without it these checks are skipped.
"""
import base64
import json
import os
import subprocess
import tempfile
from functools import partial
from typing import Callable, Dict, List, Tuple, cast

import chromium
import native
from running import PROGRAM, SECONDS, TOP, Checks, Skipped, difference, need, run
from vindaesk.building import library, web_module
from vindaesk.common import files
from vindaesk.common.failures import Failure
from vindaesk.program import in_process
from vindaesk.program.native import Answer
from vindaesk.provenance import dist

LOADER, CALLS = os.path.join(TOP, "bindings", "web", "vindaesk.mjs"), os.path.join(TOP, "ci", "web_calls.mjs")
# Node before 24 has memories of 64 bits with this alone
FLAG = "--experimental-wasm-memory64"
# how often a call is made before and after its memory is looked at
REPEATED = 300

# lines of which one has a long answer, and many short ones
SHORT = 50
LINES = ["window 400 400", "add root View match match", "frame", "pixels 0 0 400 100", *["size v1 %d 9" % it for it in range(SHORT)]]

# loads a module by a loader, whose paths are filled in
LOADING = """
    import { readFileSync } from "node:fs";
    import { Vindaesk } from %s;
    const vindaesk = await Vindaesk.load(readFileSync(%s));
"""

Call = Dict[str, object]


def module() -> str:
    """The path of the module."""
    path = os.environ.get("VINDAESK_WASM") or os.path.join(dist.FOLDER, dist.MODULE)
    if not os.path.exists(path):
        raise Skipped(path)
    return path


def text(data: bytes) -> str:
    return base64.b64encode(data).decode()


def worked() -> List[Tuple[native.Call, Call]]:
    """Each worked call, and each script line by line."""
    found = []
    for words, script, folder in native.worked():
        asked = in_process.asked_of(native.loaded(), words, script)
        held = in_process.contents_of(asked.names, folder, asked.limit) if asked else None
        assert held is not None
        packed = {name.decode(): text(it) for name, it in held.items()}
        call: Call = {"words": words, "script": text(script), "files": packed}
        found.append(((words, script, folder), call))
        if words == ["run"]:
            found.append(((words, script + b"\n", folder), {**call, "words": ["lines"]}))
    return found


def node() -> List[str]:
    """How Node is called, so that it runs the module."""
    version = subprocess.run([need("node"), "--version"], stdout=subprocess.PIPE, check=True).stdout.decode()
    flags = [FLAG] if int(version[1:].split(".")[0]) < 24 else []
    return ["node", *flags, "--no-warnings", "--input-type=module"]


def in_node(script: str, given: object) -> object:
    """What a script in Node prints as JSON, which finds the class as `Vindaesk`, the module's bytes as `bytes` and what is
    given as `given`."""
    begin = LOADING % tuple(map(json.dumps, (LOADER, module()))) + """
        import { answers } from %s;
        const given = JSON.parse(readFileSync(0, "utf8"));
    """ % json.dumps(CALLS)
    ended = subprocess.run([*node(), "-e", begin + "console.log(JSON.stringify(%s));" % script], input=json.dumps(given).encode(), stdout=subprocess.PIPE, timeout=4 * SECONDS, check=True)
    return json.loads(ended.stdout.decode())


def by_node(calls: List[Call]) -> List[Answer]:
    """What the module answers in Node."""
    found = cast(List[Tuple[str, int]], in_node("answers(vindaesk, given)", calls))
    return [(base64.b64decode(page), status) for page, status in found]


def by_chromium(calls: List[Call]) -> List[Answer]:
    """What the module answers in a page of Chromium."""
    if not chromium.COMMAND:
        raise Skipped("chromium")
    parts = (files.read(LOADER).decode(), files.read(CALLS).decode(), json.dumps(text(files.read(module()))), json.dumps(calls))
    page = """<!DOCTYPE html><script type="module">%s\n%s
        const bytes = Uint8Array.from(atob(%s), (it) => it.charCodeAt(0));
        const report = (it) => { window.found = JSON.stringify(it); };
        Vindaesk.load(bytes).then((it) => report(answers(it, %s))).catch((it) => report(String(it)));
    </script>""" % tuple(it.replace("</", "<\\/") for it in parts)
    with tempfile.TemporaryDirectory() as place, chromium.Browser(400, 300) as browser:
        path = os.path.join(place, "page.html")
        files.replace(path, page.encode())
        browser.open(path)
        browser.until("window.found")
        found = json.loads(browser.value("window.found"))
    if isinstance(found, str):
        raise AssertionError(found)
    return [(base64.b64decode(page), status) for page, status in found]


def same_bytes(answered: Callable[[List[Call]], List[Answer]]) -> str:
    """Why the module's answer to a worked call is not the program's, or nothing."""
    calls = worked()
    for ((words, script, folder), call), answer in zip(calls, answered([call for _, call in calls])):
        why = difference(*run([PROGRAM, *words], script, folder), *answer)
        if why:
            return "%s over %r: %s" % (call["words"], script[:60], why)
    return "" if len(calls) > 200 else "there are only %d calls" % len(calls)


def memory_stays() -> str:
    """Why the module's memory grows with its calls, or nothing."""
    calls = [call for _, call in worked()]
    before, after = cast(List[int], in_node("""(() => {
        const sizes = [];
        for (let times = 0; times < 2; times++) {
            for (let count = 0; count < %d; count++) answers(vindaesk, [given[count %% given.length]]);
            sizes.push(vindaesk.exports.memory.buffer.byteLength);
        }
        return sizes;
    })()""" % REPEATED, calls))
    return "" if after <= before else "%d bytes after %d calls, %d after as many more" % (before, REPEATED, after)


def takes_little() -> str:
    """Why a line of a session takes memory for more than its own bytes, once an answer had much room, or nothing."""
    asked = cast(List[int], in_node("""(() => {
        const taken = [], exports = { ...vindaesk.exports };
        exports.vindaesk_take = (size) => (taken.push(Number(size)), vindaesk.exports.vindaesk_take(size));
        const session = new Vindaesk(exports).session();
        given.forEach((line) => session.line(line));
        return taken.slice(-%d);
    })()""" % SHORT, LINES))
    return first_unlike(asked, [len(it) for it in LINES[-SHORT:]])


def first_unlike(found: List[int], wanted: List[int]) -> str:
    return next(("%d bytes in place of %d" % pair for pair in zip(found, wanted) if pair[0] != pair[1]), "")


def links_alike() -> str:
    """Why a module in LLVM's language does not become the same bytes in two folders, or nothing."""
    need("rt")
    try:
        web_module.numbers()
    except Failure as failure:
        raise Skipped(str(failure))
    made = []
    with tempfile.TemporaryDirectory() as place:
        for name in ("a", os.path.join("another folder", "of-another-name")):
            folder = os.path.join(place, name)
            os.makedirs(folder)
            files.replace(os.path.join(folder, "kept.ll"), written_module().encode())
            web_module.link(os.path.join(folder, "kept.ll"), os.path.join(folder, "made.wasm"), folder)
            made.append(files.read(os.path.join(folder, "made.wasm")))
    return "" if made[0] == made[1] and made[0].startswith(b"\0asm") else "%d and %d bytes" % (len(made[0]), len(made[1]))


def written_module() -> str:
    """A module as the kit has it for x86-64, in which each call that is exported divides numbers of 128 bits."""
    lines = ['target datalayout = "e-m:e-p270:32:32-p271:32:32-p272:64:64-i64:64-i128:128-f80:128-n8:16:32:64-S128"',
             'target triple = "x86_64-unknown-linux-gnu"']
    lines += ["define i8 @%s(i128 %%a, i128 %%b) #0 {\n%%c = udiv i128 %%a, %%b\n%%d = trunc i128 %%c to i8\nret i8 %%d\n}" % it
              for it in library.exported()]
    lines.append('attributes #0 = { nounwind "probe-stack"="inline-asm" "stack-probe-size"="4096" "target-cpu"="x86-64-v2" }')
    return "\n".join(lines) + "\n"


def statuses() -> str:
    """Statuses that no worked call has."""
    calls: List[Call] = [{"words": words, "script": text(script), "files": {}} for words, script in (
        (["dump", ".a"], b""), (["run"], b"#\n" * (1 << 23) + b"#"), (["focus", "in", "v1"], b""), (["lookup", "a", *[]], b""))]
    found = by_node(calls)
    return "" if found == [(b"", 2), (b"", 7), (b"", 2), (b"", 2)] else str(found)


def checks() -> Checks:
    yield "web module/Node gives the bytes of the program", partial(same_bytes, by_node)
    yield "web module/Chromium gives the bytes of the program", partial(same_bytes, by_chromium)
    yield "web module/statuses", statuses
    yield "web module/memory stays", memory_stays
    yield "web module/lines take little", takes_little
    yield "web module/links alike in two folders", links_alike
