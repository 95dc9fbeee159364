"""What the house of docs/STYLE.md does not want, found in the text of the crates; run as a program, it prints the list.

    python3 ci/house.py > ci/house.txt

    unused import       a name that a file of code or of definitions imports and does not use
    unreached           a definition or a lemma that no code, and no answer to a goal of code, uses, and that is not for its
                        own sake by the comment above it (definitions.py)
    twice               a record or a data type whose name another one has too
    law twice           a definition or a lemma of at least 100 characters whose text, without comments and `pub`,
                        another file has too. What the goals of a function ask for, and what has their types, is no law
    many parameters     a function with more than five, `self` not counted
    many arguments      a definition that is no record and no data type with more than six, types in braces not counted
    wide clause         a function with a line of its contract above 120 columns
    repeated clause     a formula in more than four clauses, in place of a name. A predicate of names is no formula, and
                        `result ≡ []` and `self.new ≡ self.old` are as short as a name
    wide definition     a file of definitions with a line above 120 columns
    long file           a file of more than 800 lines
    long function       a function whose body has more than 40 lines; of JavaScript too
    unsaid function     a function without a `///`, a private one and a test too; attributes and plain comments may be
                        between the two
    wide script         a file of JavaScript with a line above 120 columns
    unsaid script       a file of JavaScript that does not begin with what it is for

What is known of these is in house.txt, one a line. That list may only become shorter: the check fails for one that is
not in it, and for one in it that is no longer found.
"""
import glob
import os
import re
import sys
from collections import Counter
from typing import Dict, Iterable, Iterator, List, Set, Tuple

sys.dont_write_bytecode = True

import definitions
from running import TOP, Checks

KNOWN = os.path.join(TOP, "ci", "house.txt")
MOST_PARAMETERS, MOST_COLUMNS, MOST_LINES, MOST_IN_BODY, MOST_CLAUSES = 5, 120, 800, 40, 4
SHORTEST_LAW = 100
MOST_ARGUMENTS = 6
SHOWN = 12
USE = re.compile(r"^[ \t]*(pub(?:\([a-z]+\))? )?(ghost )?use ([^;]+);", re.M)
ANTT_USE = re.compile(r"^use (\S+?)(?:\.\{([^}]*)\}| as (\S+))?$", re.M)
COMMENT = re.compile(r"(?:^|\s)//.*$", re.M)
SCRIPTS = ("docs/play/*.mjs", "bindings/web/*.mjs", "ci/*.mjs")
# a function of JavaScript, by the line at which its body begins
SCRIPTED = re.compile(r"^( *)(?!(?:if|for|while|switch|class|\})\b)\S.*(?:\)|=>) \{$")
FUNCTION = re.compile(r"^( *)(?:pub(?:\([a-z]+\))? )?(?:const )?fn (\w+)", re.M)
# any function, also one with another calling convention
ANY_FUNCTION = re.compile(r'^ *(?:(?:pub(?:\([a-z]+\))?|const|unsafe|extern "\w+") )*fn (\w+)', re.M)
# what may be between the `///` of a function and its first line
BETWEEN = re.compile(r"\s*(?:#\[|//(?!/))")
WORD = re.compile(r"[\w']+")
# arguments of a definition with their type
GROUP = re.compile(r"([({])([^(){}:]+) : ([^(){}]+)[)}]")
CLAUSE = re.compile(r"\b(?:requires|ensures)\*?(?: [\w-]+)? \{")
TEXT = re.compile(r'"(\\.|[^"\\\n])*"')
# what a predicate of names does not have: an operator or a number
FORMULA = re.compile(r"[≡≢≤<>→↔⊎×¬λ∷+*/%^&|∙-]|(?<![\w.])\d")
# a value that is another one, or has nothing in it
SAME = re.compile(r"(?:result|self\.new) ≡ (?:\[\]|\w+(?:\.(?:now|old))?)")
# the end of a line of a clause at which a record begins
RECORD = re.compile(r"\brecord( [^{}]*)? \{$")
# the line at which a definition or a lemma begins
LAW = re.compile(r"(\s*)(?:(?:abbrev|unfoldable|pub)\s+)*([^\s:(){},]+)\s*(?:[({].*[)}]\s*)?:(?:\s|$)")
# traits of libraries, which calls of their methods use without the name
TRAITS = {"ByteOrder", "Digest", "Shelf", "Sink", "Source"}


def below_top(path: str) -> str:
    """A path as the list has it."""
    return os.path.relpath(path, TOP)


def read(path: str) -> str:
    with open(path, encoding="utf-8") as file:
        return file.read()


def split(text: str) -> List[str]:
    """The parts of a text between commas that are in no bracket."""
    parts, depth, begun = [], 0, 0
    for place, it in enumerate(text):
        depth += (it in "([{<") - (it in ")]}" or (it == ">" and text[place - 1] not in "-="))
        if it == "," and depth == 0:
            parts.append(text[begun:place].strip())
            begun = place + 1
    return [part for part in [*parts, text[begun:].strip()] if part]


class Function:
    """A function in the layout of `rt fmt`: its name, and the lines of its head and of its body."""

    def __init__(self, name: str, head: List[str], body: List[str]):
        self.name, self.head, self.body = name, head, body

    def parameters(self) -> int:
        """How many parameters it has, without `self`."""
        text = " ".join(self.head)
        begun = text.index("(", text.index(" " + self.name))
        if "<" in text[:begun]:
            # types of a function may have brackets of their own
            bracket = re.compile(r">\s*\(").search(text, text.index("<"))
            assert bracket is not None, text
            begun = bracket.end() - 1
        depth = 0
        for place in range(begun, len(text)):
            depth += (text[place] == "(") - (text[place] == ")")
            if depth == 0:
                given = split(text[begun + 1 : place])
                return sum(not re.fullmatch(r"(&('\w+ )?)?(mut )?self(: .*)?", it) for it in given)
        return 0


def signature(it: definitions.Definition) -> str:
    """A definition's name and type, in one line."""
    text = definitions.COMMENT.sub("", "\n".join(it.lines))
    return " ".join(re.split(r"\n(?=\S)", text)[0].split())


def bound(part: str) -> int:
    """How many arguments a part of a type before an arrow is for: one, or those that it names."""
    if GROUP.sub("", part).strip():
        return 1
    return sum(len(names.split()) for bracket, names, kind in GROUP.findall(part)
               if bracket == "(" or not kind.startswith("Type"))


def arguments(text: str) -> int:
    """How many arguments a definition of this signature has, without types in braces."""
    flat, depth = "", 0
    for it in text:
        depth -= it in ")}"
        # brackets in others bind none
        if depth == 0 or depth == 1 and it not in "(){}":
            flat += it
        depth += it in "({"
    return sum(map(bound, re.split(r"(?:→|\s:\s)(?![^({]*[)}])", flat)[1:-1]))


def many_arguments(files: Iterable[definitions.File]) -> Iterator[str]:
    """The definitions of functions and predicates with too many arguments."""
    for file in files:
        for it in file.definitions:
            if not it.kind and arguments(signature(it)) > MOST_ARGUMENTS:
                yield "many arguments: %s: %s" % (below_top(it.path), it.name)


def example_of_arguments() -> str:
    """Why arguments are not counted as they should be."""
    texts = ("abbrev pub a : ℕ", "abbrev pub b : ℕ → (ℕ → ℕ) → List (ℕ × ℕ) → ℕ × ℕ",
             "pub c : {A B : Type 0} (n m : ℕ) {k : ℕ} (f : (n : ℕ) → A) → A → (k : ℕ) × (k < n) → Type 0")
    counts = [arguments(text) for text in texts]
    return "" if counts == [0, 3, 6] else "found %s" % counts


def functions(text: str) -> Iterator[Function]:
    """The functions of a file of code."""
    lines = text.split("\n")
    for found in FUNCTION.finditer(text):
        first = text.count("\n", 0, found.start())
        margin = found[1]
        end = next((k for k in range(first, len(lines)) if lines[k] in (margin + "}", margin + "{}")
                    or lines[k].startswith(margin) and lines[k].rstrip().endswith((" {}", ";")) and k == first), None)
        if end is None:
            continue
        opened = next((k for k in range(first, end + 1) if lines[k] == margin + "{"
                       or lines[k].startswith(margin) and lines[k].endswith(" {") and not RECORD.search(lines[k])), end)
        head = lines[first : opened + (lines[opened] != margin + "{")]
        yield Function(found[2], head, lines[opened + 1 : end])


def unsaid(text: str) -> Iterator[str]:
    """The functions of a file of code that have no `///`, by their names."""
    lines = text.split("\n")
    for it in ANY_FUNCTION.finditer(text):
        above = text.count("\n", 0, it.start()) - 1
        while above >= 0 and BETWEEN.match(lines[above]):
            above -= 1
        if above < 0 or not lines[above].lstrip().startswith("///"):
            yield it[1]


def imported(text: str) -> Iterator[Tuple[str, bool]]:
    """The names that a file of code imports for itself, each with whether that is for ghosts alone."""
    for is_public, is_ghost, path in USE.findall(text):
        inner = re.search(r"\{(.*)\}", path, re.S)
        # of braces in braces the names stay
        names = re.sub(r"[\w:]+::\{|\}", "", inner[1]).split(",") if inner else [re.split(r"::|\.", path)[-1]]
        for name in filter(None, map(str.strip, [] if is_public else names)):
            yield re.split(r"\s+as\s+", name)[-1], bool(is_ghost)


def has(name: str, text: str, words: Set[str]) -> bool:
    """Whether a text uses a name; one with holes by each of its parts."""
    if name == "◌>>=◌" and "do" in words:
        return True
    if "◌" in name:
        return all(part in text for part in name.split("◌") if part)
    return name in words if WORD.fullmatch(name) else name in text


def clauses(text: str) -> Iterator[str]:
    """The clauses of code."""
    blank = TEXT.sub(lambda found: "_" * len(found[0]), text)
    for found in CLAUSE.finditer(blank):
        depth, place = 1, found.end()
        while depth and place < len(text):
            depth += (blank[place] in "([{") - (blank[place] in ")]}")
            place += 1
        yield text[found.start() : place]


def formula(clause: str) -> str:
    """The formula of a clause, in one line; nothing if it is one predicate of names."""
    text = re.sub(r"\s+", " ", clause[clause.index("{") + 1 : -1]).strip()
    return text if FORMULA.search(text) and not SAME.fullmatch(text) else ""


def repeated(texts: Iterable[str]) -> Iterator[str]:
    """The formulas in too many clauses of all code."""
    counts = Counter(formula(clause) for text in texts for clause in clauses(text))
    yield from ("repeated clause: " + text for text, count in counts.items() if text and count > MOST_CLAUSES)


def unused_in_code(path: str, text: str) -> Iterator[str]:
    plain = COMMENT.sub("", text)
    heads = [line for it in functions(plain) for line in it.head]
    body = rust = USE.sub("", plain)
    own = list(clauses(body))
    for clause in own:
        rust = rust.replace(clause, "", 1)
    ghosts = "\n".join([line for line in plain.split("\n") if not USE.match(line) and (
        re.match(r"\s*(ghost|#)", line) or not re.search(r"[;{}]$", line))] + heads + own)
    words = {True: set(WORD.findall(ghosts)), False: set(WORD.findall(rust))}
    names = list(imported(plain))
    # clauses may use what is imported for code, if there is no ghost import of the same name
    in_clauses = words[True] - {name for name, is_ghost in names if is_ghost}
    for name, is_ghost in names:
        if name in ("self", "_", "*") or not is_ghost and (name in TRAITS or name in in_clauses):
            continue
        if not has(name, body if is_ghost else rust, words[is_ghost]):
            yield "unused import: %s: %s" % (below_top(path), name)


def unused_in_definitions(path: str, text: str) -> Iterator[str]:
    body = definitions.COMMENT.sub("", ANTT_USE.sub("", text))
    words = set(definitions.TOKEN.findall(body))
    for module, names, alias in ANTT_USE.findall(text):
        for name in [alias] if alias else [it.strip().split(" as ")[-1] for it in names.split(",") if it.strip()]:
            is_word = "◌" not in name and name[:1].isalpha()
            if not (name in words if is_word else has(name, body, words)):
                yield "unused import: %s: %s" % (below_top(path), name)


def of_code(path: str) -> Iterator[str]:
    """What is found in a file of code."""
    text = read(path)
    yield from unused_in_code(path, text)
    for it in functions(text):
        name = "%s: %s" % (below_top(path), it.name)
        if it.parameters() > MOST_PARAMETERS:
            yield "many parameters: " + name
        if any(len(line) > MOST_COLUMNS for line in it.head):
            yield "wide clause: " + name
        if len(it.body) > MOST_IN_BODY:
            yield "long function: " + name
    yield from ("unsaid function: %s: %s" % (below_top(path), name) for name in unsaid(text))


def long_file(path: str) -> List[str]:
    return ["long file: " + below_top(path)] if read(path).count("\n") > MOST_LINES else []


def wide_definition(path: str) -> List[str]:
    is_wide = any(len(line) > MOST_COLUMNS for line in read(path).split("\n"))
    return ["wide definition: " + below_top(path)] if is_wide else []


def twice(files: Iterable[definitions.File]) -> Iterator[str]:
    """The types of definitions of which there is another one with the same name."""
    places: Dict[str, Set[str]] = {}
    for file in files:
        for it in file.definitions:
            if it.kind in ("data", "record"):
                places.setdefault(it.name, set()).add(below_top(it.path))
    for name, paths in places.items():
        yield from ("twice: %s: %s" % (path, name) for path in paths if len(paths) > 1)


def laws(text: str) -> Iterator[Tuple[str, str]]:
    """The definitions and lemmas of a file, those inside others too, that no goal of a function asks for: the name and
    the text of each, without comments, in one line."""
    plain = definitions.COMMENT.sub("", text)
    goals = [names for module, names, _ in ANTT_USE.findall(plain) if module.endswith(".Goals")]
    own = {name.strip() for names in goals for name in names.split(",")}
    for part in re.split(r"\n\s*\n", ANTT_USE.sub("", plain)):
        lines = part.split("\n")
        begun = {at: named for at, named in enumerate(map(LAW.match, lines)) if named and any(
            line.startswith(named[1] + named[2] + " ") for line in lines[at + 1 :])}
        for (at, named), end in zip(begun.items(), [*begun, len(lines)][1:]):
            words = " ".join([lines[at][named.start(2) :], *lines[at + 1 : end]]).split()
            law = " ".join(words[:-1] if words[-1] == "where" else words)
            if ": goal." not in law and not own.intersection(definitions.TOKEN.findall(law)):
                yield named[2], law


def laws_twice(texts: Dict[str, str]) -> Iterator[str]:
    """The laws that are in two files, by the paths and the texts of the files."""
    places: Dict[Tuple[str, str], Set[str]] = {}
    for path, text in texts.items():
        for it in laws(text):
            places.setdefault(it, set()).add(path)
    for (name, law), paths in places.items():
        if len(law) >= SHORTEST_LAW and len(paths) > 1:
            yield from ("law twice: %s: %s" % (path, name) for path in paths)


def scripted(text: str) -> Iterator[Tuple[str, int]]:
    """The functions of a file of JavaScript: the line at which the body of each begins, and how many lines it has."""
    lines = text.split("\n")
    for at, line in enumerate(lines):
        opened = SCRIPTED.match(line)
        if opened:
            ends = (k for k in range(at + 1, len(lines)) if lines[k].startswith(opened[1] + "}"))
            yield line.strip(), next(ends, len(lines)) - at - 1


def of_script(path: str) -> Iterator[str]:
    """What is found in a file of JavaScript."""
    text, name = read(path), below_top(path)
    if not text.startswith("/** "):
        yield "unsaid script: " + name
    if any(len(line) > MOST_COLUMNS for line in text.split("\n")):
        yield "wide script: " + name
    yield from ("long function: %s: %s" % (name, line) for line, count in scripted(text) if count > MOST_IN_BODY)


def found() -> List[str]:
    """All that is found, in order."""
    code = list(definitions.files_below(".rt", ("src",)))
    specs = list(definitions.files_below(".antt", ("specs",)))
    proofs = list(definitions.files_below(".antt", ("proofs",)))
    files = definitions.all_files()
    every = [line for path in code for line in of_code(path)]
    every += repeated(COMMENT.sub("", read(path)) for path in code)
    every += [line for path in specs for line in unused_in_definitions(path, read(path))]
    every += [line for path in specs for line in wide_definition(path)]
    every += [line for path in code + specs + proofs for line in long_file(path)]
    every += [line for form in SCRIPTS for path in glob.glob(os.path.join(TOP, form)) for line in of_script(path)]
    every += twice(files)
    every += laws_twice({below_top(path): read(path) for path in specs + proofs})
    every += many_arguments(file for file in files if file.path in specs)
    every += ["unreached: %s: %s" % (below_top(it.path), it.name) for it in definitions.unreached(files)]
    return sorted(set(every))


def listed(lines: List[str]) -> str:
    """Some of many lines, as a reason why a check fails."""
    more = "; and %d more" % (len(lines) - SHOWN) if len(lines) > SHOWN else ""
    return "; ".join(lines[:SHOWN]) + more


def problem() -> str:
    """What is found and not known, or known and not found."""
    is_known = set(read(KNOWN).split("\n")) - {""}
    now = set(found())
    new, old = sorted(now - is_known), sorted(is_known - now)
    why = "not in ci/house.txt: " + listed(new) if new else ""
    return why + ("; " if new and old else "") + ("no longer found, so drop it from ci/house.txt: " + listed(old) if old else "")


def example() -> str:
    """Why the patterns miss something, or find what is right."""
    text = ("use a::{A, B};\nghost use Rattle.x.{C, ◌+◌, D};\n\nfn f<K: Fn(A) -> A>(&mut self, a: [B; 2], b: (A, A)) -> A\n"
            "    ensures { C ≡ 1 + 2 }\n{\n    a\n}\n\nfn g() {}\n")
    counts = [(it.name, it.parameters(), len(it.body)) for it in functions(text)]
    names = [line.rpartition(" ")[2] for line in unused_in_code(os.path.join(TOP, "x.rt"), text)]
    script = "class A {\n    b(c) {\n        if (c) {\n        }\n        c((d) => {\n            d;\n        });\n    }\n}\n"
    sizes = [count for _, count in scripted(script)]
    kinds = ("requires live { IsLive tree.old view }", "ensures { OnOk result (AreOf self.new) }", "ensures { result ≡ [] }",
             "requires few { length kids.now\n    ≤ max_views }", "ensures a { IfOk result (λ n. Is n) }", "requires { Is (2 ^ 3) x }")
    often = [line.partition(": ")[2] for line in repeated(["\n".join(kinds)] * 5 + [kinds[5]])]
    law = "same : (n m : ℕ)\n    → n ≡ m → m ≡ n\nsame n m e = %s\n" % " ∙ ".join(["(sym e)"] * 20)
    goal = law.replace("same", "returns").replace("(n m : ℕ)", "goal.returns (n m : ℕ)")
    own = "use a.Goals.{After}\n\n" + law.replace("same", "after").replace("ℕ", "After")
    inside = "f : ℕ\nf = 0\n  where\n    " + law.replace("\n", "\n    ")
    proofs = {"a": "-- A.\npub " + law + "\n" + goal + "\n" + own, "b": goal + "\n" + inside,
              "c": "-- B.\nabbrev pub " + law.replace("same", "other"), "d": own + "\n-- C.\nabbrev " + law}
    same = sorted(laws_twice(proofs))
    right = ([("f", 2, 1), ("g", 0, 0)], ["D"], [5, 1],
             ["length kids.now ≤ max_views", "IfOk result (λ n. Is n)", "Is (2 ^ 3) x"],
             ["law twice: %s: same" % path for path in "abd"])
    given = (counts, names, sizes, often, same)
    return "" if given == right else "found %s, %s, %s, %s, %s" % given


def example_of_unsaid() -> str:
    """Why functions without a `///` are not found, or those with one are."""
    text = ("fn a() {}\n\n/// B.\n#[inline]\n// b\npub(crate) const fn b() {}\n\n//! C.\n"
            "#[test]\npub extern \"C\" fn c() {}\n\nimpl D {\n    fn d() {}\n\n    /// E.\n    pub fn e() {}\n}\n\n"
            "/// F.\n\nfn f() {}\n")
    names = list(unsaid(text))
    return "" if names == ["a", "c", "d", "f"] else "found %s" % names


def checks() -> Checks:
    yield "the house: the patterns themselves", example
    yield "the house: which functions have no `///`", example_of_unsaid
    yield "the house: how many arguments a definition has", example_of_arguments
    yield "the house: unused, unreached, twice, wide, long and unsaid", problem


if __name__ == "__main__":
    print("\n".join(found()))
