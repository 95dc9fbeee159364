"""Finds the words that docs/STYLE.md replaces, in comments, in pages and in the messages of the launcher and the tools,
and those that no name of crates/ has; and pages with more words than they may have.

What is in backquotes or in a block of a page is a name or an example, and is not looked at there.
"""
import io
import os
import re
import tokenize
from functools import partial
from typing import Dict, Iterable, Iterator, List, Tuple, Union

from running import TOP, Checks

# each with its number
Lines = Iterable[Tuple[int, str]]

# each with the words that take its place; what follows in `(?!..)` or comes before in `(?<!..)` is a true meaning
WORDS = [
    (r"tells?|telling|told", "print, report, return or set"),
    (r"(?<!seen )(?<!shows )(?<!shown )behind", "after"),
    (r"stands?(?!-in)|stood|standing", "is, means, represents or replaces"),
    (r"handed|handing|hands|hand (?:it|them|the|a|an)", "passes, gives or gets"),
    (r"(?:has|have|had) gone(?! (?:up|down|further|from|over|through|to))", "was written or was removed"),
    (r"want(?:s|ed)? (?:of |for )?memory|want of|wanting", "out of memory"),
    (r"(?:comes?|came|coming) to(?! rest)", "results in or reaches"),
    (r"so (?:many|much)(?![^.;:]* that )", "n or this many"),
    (r"(?:lies?|lay|lying) (?:\w+ )?(?:nowhere|anywhere|somewhere)", "has no bounds or has bounds"),
    (r"nobody|somebody", "no view, no child or none"),
    (r"hang(?:s|ing)? on|hung on", "depends on"),
    (r"as far as", "up to, if or where"),
    (r"but for", "except"),
    (r"cites?|cited|citing", "uses"),
]
PATTERNS = [(re.compile(r"\b(?:%s)(?!\w)" % words, re.I), better) for words, better in WORDS]

# those that no name has as a part
NAME_WORDS = set("tell tells telling told behind stand stands stood standing handed handing hands nobody somebody".split())
PART = re.compile(r"[A-Z]?[a-z]+|[A-Z]+(?![a-z])")
# texts, a name that the checker makes, and a lemma of the kit
NO_NAME = re.compile(r'"(?:\\.|[^"\\])*"|\bc\.\w+\.told\b|\bhandle_tells\b')

# a comment, where it is the end of a line or all of it
MARKS = {
    ".rt": re.compile(r"(?:^|\s)//[/!]?(.*)"),
    ".antt": re.compile(r"(?:^|\s)--(?: |$)(.*)"),
    ".edit": re.compile(r"(?:^|\s)//[/!]?(.*)"),
}
SPAN = re.compile(r"`[^`]*`")


def passages(lines: Lines) -> List[Tuple[int, List[str]]]:
    """The texts of lines that follow one another, each with the number of its first line and the ends of its lines.
    `lines` are pairs of a number and a text."""
    found: List[Tuple[int, List[str]]] = []
    last = None
    for number, text in lines:
        if last is None or number != last + 1:
            found.append((number, []))
        found[-1][1].append(text.strip())
        last = number
    return found


def comments(text: str, mark: "re.Pattern[str]") -> Lines:
    for number, line in enumerate(text.split("\n"), 1):
        comment = mark.search(line)
        if comment:
            yield number, comment.group(1)


def prose(text: str) -> Lines:
    """The lines of a page without its blocks."""
    in_block = False
    for number, line in enumerate(text.split("\n"), 1):
        if line.startswith("```"):
            in_block = not in_block
        elif not in_block and line:
            yield number, line


def said(text: str) -> Lines:
    """The comments and the texts of a Python file."""
    for token in tokenize.generate_tokens(io.StringIO(text).readline):
        if token.type in (tokenize.COMMENT, tokenize.STRING):
            for number, line in enumerate(token.string.split("\n"), token.start[0]):
                yield number, line


def lines_of(name: str, text: str) -> Lines:
    """The lines of a file in which words are looked for, each with its number."""
    ending = os.path.splitext(name)[1]
    if ending in MARKS:
        return comments(text, MARKS[ending])
    if ending == ".md":
        return prose(text)
    if ending == ".py" or text.startswith("#!/usr/bin/env python3"):
        return said(text)
    return enumerate(text.split("\n"), 1)


def in_text(name: str, text: str) -> Iterator[Tuple[int, str, str]]:
    """The words of a file that have better ones: the line, the word, and the better ones."""
    for number, lines in passages(lines_of(name, text)):
        joined = SPAN.sub(lambda span: "x" * len(span.group()), " ".join(lines))
        for pattern, better in PATTERNS:
            for match in pattern.finditer(joined):
                end, line = 0, number
                for part in lines:
                    end += len(part) + 1
                    if match.start() < end:
                        break
                    line += 1
                yield line, match.group(), better


def in_names(name: str, text: str) -> Iterator[Tuple[int, str]]:
    """The names in a source file, and of the file itself, that have one of the words: the line and the word."""
    mark = MARKS.get(os.path.splitext(name)[1])
    if mark is None:
        return
    for number, line in enumerate([name, *text.split("\n")]):
        comment = mark.search(line)
        code = NO_NAME.sub("", line[:comment.start()] if comment else line)
        yield from ((number, part) for part in PART.findall(code) if part.lower() in NAME_WORDS)


def problem(names: Iterable[str]) -> str:
    """Which words of some files have better ones, or nothing."""
    found = []
    for name in names:
        with open(os.path.join(TOP, name), encoding="utf-8") as file:
            text = file.read()
        if name != "ci/words.py":
            found += ["%s:%d has '%s', better: %s" % (name, *it) for it in in_text(name, text)]
            found += ["%s:%d has '%s' in a name" % (name, *it) for it in in_names(name, text)]
    more = "; and %d more" % (len(found) - 9) if len(found) > 9 else ""
    return "; ".join(found[:9]) + more


def below(folder: str, endings: Union[str, Tuple[str, ...]]) -> Iterator[str]:
    for place, folders, names in os.walk(os.path.join(TOP, folder)):
        folders[:] = sorted(name for name in folders if name not in ("out", "__pycache__"))
        yield from (os.path.relpath(os.path.join(place, name), TOP) for name in sorted(names) if name.endswith(endings))


def subpackages() -> Iterator[str]:
    """The package of tools and its subpackages, from the top."""
    for place, folders, _ in os.walk(os.path.join(TOP, "tools", "vindaesk")):
        folders[:] = sorted(name for name in folders if name != "__pycache__")
        yield os.path.relpath(place, TOP)


def scripts(folder: str) -> Iterator[str]:
    """The Python files right below a folder, and the executables there."""
    for name in sorted(os.listdir(os.path.join(TOP, folder))):
        path = os.path.join(folder, name)
        if name.endswith(".py") or os.path.isfile(os.path.join(TOP, path)) and "." not in name:
            yield path


def example() -> str:
    """Why the patterns miss a word, or find one where it is right."""
    wrong = ["It is told by the view behind.", "A view lies\n// nowhere.",
             "So many bytes have gone, as far\n// as it is."]
    right = ["A view that is gone, seen behind a colour, as `told` says.", "So much text that a pointer has gone up."]
    missed = [text for text in wrong if not list(in_text("a.rt", "// " + text))]
    missed += [text for text in ["fn is_told()", "IsBehind"] if not list(in_names("a.rt", text))]
    found = [text for text in right if list(in_text("a.rt", "// " + text))]
    found += [text for text in ['put(b"nobody")', "a_standard // told"] if list(in_names("a.rt", text))]
    return "".join("; '%s' is taken" % text for text in missed) + "".join("; '%s' is not" % text for text in found)


# the most words of a page, and of the references; lines of README
MOST, MOST_OF_REFERENCES, README_LINES = 3500, 5000, 150
REFERENCES = ("docs/SCRIPT.md", "docs/LAYOUT.md", "docs/FORMATS.md")
# the most words of all pages; it may only become lower
MOST_OF_ALL = 36000
# the most columns of a line of prose; a row of a table can't be broken
WIDEST = 200


def too_long(lengths: Dict[str, int]) -> str:
    """Which pages have more words than they may, and whether all together have. `lengths` is by path."""
    found = ["%s has %d words" % (path, count) for path, count in sorted(lengths.items())
             if count > (MOST_OF_REFERENCES if path in REFERENCES else MOST)]
    whole = sum(lengths.values())
    return "; ".join([*found, *(["all pages have %d words, more than %d" % (whole, MOST_OF_ALL)] if whole > MOST_OF_ALL else [])])


def too_wide(path: str, text: str) -> List[str]:
    """The lines of prose of a page that are wider than they may be."""
    return ["%s:%d has %d columns" % (path, number, len(line)) for number, line in prose(text)
            if len(line) > WIDEST and not line.lstrip().startswith("|")]


def pages_are_narrow() -> str:
    if too_wide("a", "a" * WIDEST + "\n|" + "a" * WIDEST) or not too_wide("a", "a" * (WIDEST + 1)):
        return "too wide a line is not found"
    found: List[str] = []
    for path in ["README.md", "CONTRIBUTING.md", *below("docs", ".md")]:
        with open(os.path.join(TOP, path), encoding="utf-8") as file:
            found += too_wide(path, file.read())
    return "; ".join(found)


def pages_are_short() -> str:
    pages = ["README.md", "CONTRIBUTING.md", *below("docs", ".md")]
    lengths = {}
    for path in pages:
        with open(os.path.join(TOP, path), encoding="utf-8") as file:
            text = file.read()
        lengths[path] = len(text.split())
        if path == "README.md" and text.count("\n") > README_LINES:
            return "README.md has %d lines, more than %d" % (text.count("\n"), README_LINES)
    if too_long({"docs/A.md": MOST}) or not too_long({"docs/A.md": MOST + 1}) or not too_long({"docs/A.md": MOST_OF_ALL + 1}):
        return "too long a page is not found"
    return too_long(lengths)


def checks() -> Checks:
    yield "words: the patterns themselves", example
    yield "words: no page is too long", pages_are_short
    yield "words: no line of a page is too wide", pages_are_narrow
    for name in sorted(os.listdir(os.path.join(TOP, "crates"))):
        yield "words of crates/" + name, partial(problem, list(below("crates/" + name, tuple(MARKS))))
    yield "words of the pages", partial(problem, ["README.md", "CHANGELOG.md", *below("docs", ".md"), *below("ci", ".md")])
    yield "words of the launcher and the gate", partial(problem, ["vindaesk", ".ci/run"])
    for folder in ("tools", *subpackages(), "ci", "bench"):
        yield "words of %s/" % folder, partial(problem, list(scripts(folder)))
