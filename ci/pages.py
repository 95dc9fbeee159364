"""The blocks of README.md, docs/ and ci/worked/, each of which is run, so that no page says what the program does not
do.

A block is between two lines of three backticks, the first of which names its form:

    script, then answer      a script, and what `./vindaesk run` writes over it
    command, then answer     shell commands at the top of the repository, and what they write
    hex, then answer         the bytes of a layout file, and what `dump` writes of it; what follows a # is a remark
    table ID .., then answer the same of a resource table, and what `lookup` writes of these ids
    dialogue                 the lines of a script, each with its replies after an arrow, further replies on lines of
                             their own: what the script writes up to each line is what comes before it here
    file PATH                the text of this file of the repository
    source NAME              the source of the layout file NAME of examples/: compiled by tools/axml it has the elements
                             and attributes of that file
    drawing                  a drawing in characters of what the block before it lays out; nothing is run
    gate                     the call of the gate, which is what runs all this

`answer N` says that the status is N, and of a dialogue `dialogue N`; without a number it is 0. Any other block, also
one that is only indented, is a failed check.
"""
import glob
import os
import tempfile
from functools import partial
from typing import Callable, Dict, Iterable, Iterator, List, Tuple

from running import PROGRAM, TOP, Check, Checks, difference, run
from vindaesk.common import files
from vindaesk.layouts import compiler, documents, source_reader
from vindaesk.scripts import resource_names

# the number of the first line, its words, and the lines
Block = Tuple[int, List[str], List[str]]

ARROW = "→"
INDENTED = ("    ", "\t")


def blocks(lines: Iterable[str]) -> Iterator[Block]:
    """The number of each block's first line, its words, and its lines; of a block that is only indented, its first."""
    begun = None
    before = ""
    for number, line in enumerate(lines, 1):
        if line.startswith("```"):
            if begun:
                yield begun
            begun = None if begun else (number, line[3:].split(), [])
        elif begun:
            begun[2].append(line)
        elif line.startswith(INDENTED) and not before.startswith(INDENTED):
            yield number, ["indented"], [line]
        before = line
    if begun:
        yield begun[0], ["unended"], []


def text(lines: Iterable[str]) -> bytes:
    return "".join(line + "\n" for line in lines).encode()


def script(lines: List[str], answer: bytes, status: int) -> str:
    return difference(answer, status, *run([PROGRAM, "run"], text(lines), TOP))


def command(lines: List[str], answer: bytes, status: int) -> str:
    return difference(answer, status, *run(["bash", "-c", "\n".join(lines)], b"", TOP))


def bytes_of(lines: Iterable[str]) -> bytes:
    """The bytes of lines with remarks; `00*9` means nine bytes 00."""
    words = " ".join(line.partition("#")[0] for line in lines).split()
    return b"".join(bytes.fromhex(digits) * int(count or 1) for digits, _, count in (it.partition("*") for it in words))


def over_file(form: str, name: str, ids: List[str], lines: List[str], answer: bytes, status: int) -> str:
    with tempfile.TemporaryDirectory() as folder:
        with open(os.path.join(folder, name), "wb") as file:
            file.write(bytes_of(lines))
        return difference(answer, status, *run([PROGRAM, form, name, *ids], b"", folder))


def layout_file(lines: List[str], answer: bytes, status: int) -> str:
    return over_file("dump", "file.xml", [], lines, answer, status)


def table(ids: List[str], lines: List[str], answer: bytes, status: int) -> str:
    return over_file("lookup", "file.arsc", ids, lines, answer, status)


def elements(nodes: Iterable[documents.Node]) -> Iterator[Tuple[object, ...]]:
    """The name of each element, and its attributes by their names, with its depth."""
    depth = 0
    for node in nodes:
        depth += isinstance(node, documents.Start)
        if isinstance(node, documents.Start):
            yield depth, node.name, sorted((it.namespace, it.name, it.value) for it in node.attributes)
        depth -= isinstance(node, documents.End)


def source(lines: List[str], name: str) -> str:
    nodes, wrong = source_reader.read("\n".join(lines).encode(), name, resource_names.Names())
    wanted = list(elements(documents.of_file(compiler.compiled(nodes), name)))
    path = os.path.join(TOP, "examples", name)
    found = list(elements(documents.of_file(files.read(path), path)))
    if found == wanted and not wrong:
        return ""
    number = next((k for k in range(max(len(wanted), len(found))) if wanted[k : k + 1] != found[k : k + 1]), 0)
    return "element %d should be %s, and is %s; %s" % (
        number + 1, wanted[number : number + 1], found[number : number + 1], wrong)


def same_file(lines: List[str], path: str) -> str:
    with open(os.path.join(TOP, path), "rb") as file:
        return difference(file.read(), 0, text(lines), 0)


def dialogue(lines: List[str], status: int) -> str:
    given, replies = [], []
    for number, line in enumerate(lines):
        said, _, reply = (part.strip() for part in line.partition(ARROW))
        given += [said] if said else []
        replies += [reply] if reply else []
        # the replies of a line go on where the next has none of its own
        if number + 1 < len(lines) and lines[number + 1].strip().startswith(ARROW):
            continue
        written, ended = run([PROGRAM, "run"], text(given), TOP)
        why = difference(text(replies), status if number + 1 == len(lines) else ended, written, ended)
        if why:
            return "up to '%s': %s" % (said, why)
    return ""


FORMS: Dict[str, Callable[[List[str], bytes, int], str]] = {
    "script": script, "command": command, "hex": layout_file,
}


def status_of(words: List[str]) -> int:
    """The status that the words of a block name."""
    return int(words[1]) if len(words) > 1 else 0


def checks_of(page: str) -> Iterator[Tuple[str, int, Check]]:
    """The checks of a page: a name and a function that answers why it fails, or nothing."""
    with open(os.path.join(TOP, page), encoding="utf-8") as file:
        found: List[Block] = [*blocks(file.read().splitlines()), (0, ["end"], [])]
    is_answered = False
    for (number, words, lines), (_, next_words, next_lines) in zip(found, found[1:]):
        form = words[0] if words else "without a name"
        if is_answered:
            is_answered = False
        elif form == "dialogue":
            yield page, number, partial(dialogue, lines, status_of(words))
        elif form == "source" and len(words) == 2:
            yield page, number, partial(source, lines, words[1])
        elif form == "table" and next_words[:1] == ["answer"]:
            is_answered = True
            yield page, number, partial(table, words[1:], lines, text(next_lines), status_of(next_words))
        elif form == "file" and len(words) == 2:
            yield page, number, partial(same_file, lines, words[1])
        elif form in FORMS and next_words[:1] == ["answer"]:
            is_answered = True
            yield page, number, partial(FORMS[form], lines, text(next_lines), status_of(next_words))
        elif form != "drawing" and (form, lines) != ("gate", [".ci/run"]):
            yield page, number, partial("a block '{}', as it is here, has no form that can be run".format, form)


def checks() -> Checks:
    for place in ("README.md", "docs/*.md", "ci/worked/*.md"):
        for path in sorted(glob.glob(os.path.join(TOP, place))):
            for page, number, check in checks_of(os.path.relpath(path, TOP)):
                yield "%s:%d" % (page, number), check
