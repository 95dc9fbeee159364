"""Compares the objects of sarif_form.py with those of SARIF's JSON schema, as a package of Debian has them:
golang-github-haya14busa-go-sarif-dev, whose structs a program has made of the schema."""
import os
import re
from typing import Any, Dict, List, NamedTuple

from sarif_form import FORMS

PLACE = "usr/share/gocode/src/github.com/haya14busa/go-sarif/sarif/sarif.go"
# the file of the package, or of one that is unpacked into the folder that a variable names
PATH = os.path.join(os.environ.get("VINDAESK_GO_SARIF", "/"), PLACE)
STRUCT = re.compile(r"^type (\w+) struct \{\n(.*?)^\}", re.MULTILINE | re.DOTALL)
FIELD = re.compile(r'^\s*\w+\s+(\S+)\s+`json:"([^",]+)(,omitempty)?"`', re.MULTILINE)
WORD = re.compile(r'^\s+\w+\s+(\w+)\s+= "(.*?)"', re.MULTILINE)
PLAIN = {"string": str, "int64": int, "PropertyBag": dict}


class Struct(NamedTuple):
    """The properties of an object by their names, with their types in Go, and those that it has to have."""

    types: Dict[str, str]
    required: List[str]


def structs_in(text: str) -> Dict[str, Struct]:
    """The structs of a file, by their names as the standard has them."""
    found = {}
    for name, body in STRUCT.findall(text):
        fields = FIELD.findall(body)
        plain = "sarifLog" if name == "Sarif" else name[0].lower() + name[1:]
        required = [key for _, key, is_free in fields if not is_free]
        found[plain] = Struct({key: kind for kind, key, _ in fields}, required)
    return found


def kind_of(written: str, words: Dict[str, List[str]]) -> Any:
    """A type of Go as sarif_form.py has it; words that are allowed are sorted."""
    plain = written.lstrip("*")
    if plain.startswith("[]"):
        return [kind_of(plain[2:], words)]
    if plain.startswith("map["):
        return dict
    return PLAIN.get(plain) or words.get(plain) or plain[0].lower() + plain[1:]


def unlike() -> str:
    """Where our objects are others than the schema's."""
    with open(PATH, encoding="utf-8") as file:
        text = file.read()
    words: Dict[str, List[str]] = {}
    for name, word in WORD.findall(text):
        words[name] = sorted([*words.get(name, []), word])
    structs = structs_in(text)
    for name, form in FORMS.items():
        known = structs.get(name, Struct({}, []))
        kinds = {key: sorted(kind) if isinstance(kind, tuple) else kind for key, kind in form.known.items()}
        wanted = {key: kind_of(known.types[key], words) for key in form.known if key in known.types}
        if {*form.known, *form.others} != set(known.types) or form.required != set(known.required) or kinds != wanted:
            return "%s: %s, %s; the schema has %s, %s" % (name, kinds, sorted(form.required), wanted, known)
    return ""
