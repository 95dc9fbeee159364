"""Makes the page that runs the proved module in a browser: one file of HTML that needs no server and no network.

    PYTHONPATH=tools python3 -m vindaesk.building.play OUT [MODULE]

The page is of docs/play/; OUT has its style, its scripts, the WebAssembly module, the worked examples, and the tables by
which tools say why a line is refused. MODULE is that of dist/ where it is left out; `python3 -m
vindaesk.building.web_module` makes it.
"""
import base64
import glob
import os
import re
import sys
from typing import Dict, Iterator, List, Optional, Sequence

from ..common import embedding, ending, files
from ..common.failures import Failure, NOT_RUN
from ..common.places import TOP, version
from ..layouts import attributes, faults, values
from ..provenance import dist
from ..scripts import grammar, names, refusals, replies, sentences

MODULE = os.path.join(dist.FOLDER, dist.MODULE)
SOURCES = os.path.join(TOP, "docs", "play")
EXAMPLES = os.path.join(TOP, "examples")
IMPORT = re.compile(r'^import (\{[^}]*\}) from "(\.[^"]*)";\n', re.M)
EXPORT = re.compile(r"^export (?=(?:class|const|function|function\*|async function) (\w+))", re.M)
# the names that follow the word of a line that reads a file, of a stack too; JavaScript reads it as well
INFLATING = r"^ *(?:in +[0-7] +)?inflate +([A-Za-z0-9_-][A-Za-z0-9_.-]{0,63})"
# the forms of scripts by the ends of their names
FORMS = {".script": "run", ".stack": "stack"}
# what is shown first
FIRST = "card"


class Bundle:
    """Modules of JavaScript as one script, in which each is a function that returns what it exports."""

    def __init__(self) -> None:
        self.names: Dict[str, str] = {}
        self.exported: Dict[str, List[str]] = {}
        self.parts: List[str] = []

    def imported(self, names: str, path: str) -> str:
        """The name of a module of which these names are imported, as `{ one, other }`."""
        found = self.name(path)
        for it in re.findall(r"\w+", names):
            if it not in self.exported[found]:
                raise Failure("%s exports no %s" % (path, it), NOT_RUN)
        return found

    def name(self, path: str) -> str:
        """The name of a module, which comes after those that it imports."""
        path = os.path.normpath(path)
        if path not in self.names:
            folder, text = os.path.dirname(path), files.read(path).decode()
            text = IMPORT.sub(lambda it: "const %s = %s;\n" % (it[1], self.imported(it[1], os.path.join(folder, it[2]))), text)
            exported, text = EXPORT.findall(text), EXPORT.sub("", text)
            if re.search(r"^(?:import|export)\b", text, re.M):
                raise Failure("%s has an import or an export of another form" % path, NOT_RUN)
            name = self.names[path] = "module%d" % len(self.names)
            self.exported[name] = exported
            self.parts.append("const %s = (() => {\n%sreturn { %s };\n})();\n" % (name, text, ", ".join(exported)))
        return self.names[path]


def bundled(path: str) -> str:
    """A module of JavaScript with those that it imports, as one script."""
    found = Bundle()
    found.name(path)
    return "".join(found.parts)


def form_record(form: attributes.Form) -> Dict[str, object]:
    """What the text of an attribute may be, as the page has it."""
    return {"said": values.said(form), "forms": form.forms, "words": form.words, "flags": form.flags}


def tables() -> Dict[str, object]:
    """The tables of lines and of refusals, and the sentences about them."""
    kinds = list(dict.fromkeys([*(slot.kind for form in grammar.FORMS for slot in form.slots), grammar.edits_by_word]))
    return {
        "kinds": [it._asdict() for it in kinds],
        "forms": [[[slot.name, kinds.index(slot.kind)] for slot in form.slots] for form in grammar.FORMS],
        "edit": kinds.index(grammar.edits_by_word), "edit_words": grammar.EDIT_WORDS, "most_edits": grammar.MAX_EDITS,
        "refusals": {number: it._asdict() for number, it in refusals.REFUSALS.items()},
        "at_lines": {number: list(it.items()) for number, it in refusals.AT_LINES.items()},
        "attributes": {name: form_record(it.form) for name, it in attributes.KNOWN.items()},
        "any_attribute": form_record(attributes.ANY), "resource_kinds": faults.KINDS,
        "ids_of_android": names.OF_ANDROID, "first_of_android": names.FIRST_OF_ANDROID, "of_file": refusals.FILE, "classes": grammar.CLASSES.split(" "), "nothing": replies.REASONS,
        "sentences": {name: it for name, it in vars(sentences).items() if name.isupper()},
    }


def text(data: bytes) -> str:
    return base64.b64encode(data).decode()


def examples() -> Iterator[Dict[str, object]]:
    """The worked scripts, each with the layout files that it names."""
    for path in sorted(path for end in FORMS for path in glob.glob(os.path.join(EXAMPLES, "*" + end))):
        script, (name, end) = files.read(path), os.path.splitext(os.path.basename(path))
        named = re.findall(INFLATING.encode(), script, re.M)
        there = [it.decode() for it in dict.fromkeys(named) if os.path.exists(os.path.join(EXAMPLES, it.decode()))]
        held = {it: text(files.read(os.path.join(EXAMPLES, it))) for it in there}
        yield {"name": name, "form": FORMS[end], "script": text(script), "files": held}


def page(module: bytes) -> bytes:
    """The whole page."""
    data: Dict[str, object] = {"version": version(), "tables": tables(), "examples": list(examples()), "first": FIRST,
                               "inflating": INFLATING, "module": text(module)}
    parts = {"STYLE": files.read(os.path.join(SOURCES, "play.css")).decode(), "DATA": embedding.embedded(data)}
    for name, source in (("WORKER", "worker.mjs"), ("SCRIPT", "play.mjs")):
        parts[name] = bundled(os.path.join(SOURCES, source)).replace("</", "<\\/")
    whole = files.read(os.path.join(SOURCES, "index.html")).decode()
    return re.sub(r"<!--([A-Z]+)-->", lambda it: parts[it[1]], whole).encode()


def main(words: Optional[Sequence[str]] = None) -> int:
    given = list(sys.argv[1:] if words is None else words)
    if not 1 <= len(given) <= 2 or given[0] in ("-h", "--help"):
        is_help = given[:1] in (["-h"], ["--help"])
        print(__doc__.rstrip(), file=sys.stdout if is_help else sys.stderr)
        return 0 if is_help else 2
    made = page(files.read(given[1] if len(given) > 1 else MODULE))
    files.replace(os.path.abspath(given[0]), made)
    print("%s: %d bytes" % (given[0], len(made)))
    return 0


if __name__ == "__main__":
    ending.call(main)
