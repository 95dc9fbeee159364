"""What pages name is there: names of code, files, links and their anchors; and lists are whole.

- In the pages about the code, each name between backquotes is a word of a file of the repository that is no page, and each path
  is the end of the path of a file or a folder.
- In every page a link leads to a file or a heading that is there, a numbered list goes 1, 2, 3, and each row of a table has as many
  cells as its head.
- Each tool has a row in docs/TOOLS.md.
- A figure that several pages have is the same on all of them.
"""
import fnmatch
import functools
import glob
import os
import re
import subprocess
from functools import partial
from typing import Dict, Iterator, List, Set, Tuple

from running import TOP, Checks
from vindaesk.command_line import catalogue

ABOUT_CODE = ("ARCHITECTURE.md", "PROOFS.md", "PROMISES.md", "DECISIONS.md", "STYLE.md", "CONTRIBUTING.md")
QUOTED = re.compile(r"`([^`\n]+)`")
LINK = re.compile(r"\]\(([^()\s]+)\)")
NUMBERED = re.compile(r"( *)(\d+)\. ")
# a path: parts with slashes between, or a file's name with an ending of the repository's
PATH = re.compile(r"[\w.*-]+(?:/[\w.*-]*)+|[\w*-]+\.(?:rt|antt|py|md|txt|edit|json|sh|toml)")
# a part of a name that a program can look for; what has a star is a pattern
WORD = re.compile(r"(?<![\w*.\\-])[A-Za-z_][\w'-]*(?![\w*'-])")
UNREAD = (".md", ".png", ".apk", ".arsc", ".xml")
# words of pages that are examples of names, and no names of the repository
EXAMPLES = re.compile(r"\.\.|^cit.$|\bNAME\b|\bTOOL\b|m/f|FramePlan|frame_plan|_at_key|list-axioms")
SHOWN = 12
# figures that more than one page has, by what they are of; a page may break a line in them
FIGURES = {
    "the time of the tests": r"in at most (\S+ minutes)(?: on 4 cores)?\b",
    "the time of the gate": r"(?:From|from) nothing,? (?:it takes )?([\w ]+?) on 4 cores",
    "frames beside Android": r"of ([\d ]+) (?:random )?frames with edits between",
    "frames as Android has them": r"([\d ]+) are as Android has them",
    "layouts of apps that are made": r"(?:of (\d+) layouts in|\d+ of (\d+); six)",
    "views of apps": r"(?:of their (\d+) views|\d+ of (\d+) \(\d+ %\))",
    "the share of exact views": r"(?:and (\d+) % of their|\((\d+) %\)\|)",
    "the version of replies": r"(?:`replies (\d+)`|#versions-of-replies\) (\d+),)",
}


def text_of(path: str) -> str:
    with open(os.path.join(TOP, path), encoding="utf-8", errors="replace") as file:
        return file.read()


def pages() -> List[str]:
    """All pages."""
    found = [path for place in ("*.md", "docs/*.md") for path in glob.glob(os.path.join(TOP, place))]
    return sorted(os.path.relpath(path, TOP) for path in found)


def plain_lines(text: str) -> Iterator[Tuple[int, str]]:
    """The lines of a page that are in no block, each with its number."""
    is_block = False
    for number, line in enumerate(text.split("\n"), 1):
        if line.startswith("```"):
            is_block = not is_block
        elif not is_block:
            yield number, line


@functools.lru_cache(maxsize=None)
def repository() -> List[str]:
    """The paths of all files that git knows, or would take."""
    words = ["git", "-C", TOP, "ls-files", "-z", "--cached", "--others", "--exclude-standard"]
    found = subprocess.run(words, stdout=subprocess.PIPE, check=True).stdout.decode().split("\0")
    return [path for path in found if path and os.path.isfile(os.path.join(TOP, path))]


@functools.lru_cache(maxsize=None)
def words_of_code() -> Set[str]:
    """The words of all files that are no pages, and of their paths."""
    found: Set[str] = set()
    for path in repository():
        if not path.endswith(UNREAD):
            found.update(WORD.findall(text_of(path)))
        found.update(WORD.findall(path.replace("/", " ")))
    return found


@functools.lru_cache(maxsize=None)
def ends_of_paths() -> Set[str]:
    """Each end of the path of a file or a folder, from a slash on."""
    found: Set[str] = set()
    for path in repository():
        parts = path.split("/")
        found.update("/".join(parts[begun:end]) for end in range(1, len(parts) + 1) for begun in range(end))
    return found


def is_there(path: str) -> bool:
    """Whether a path is the end of one of the repository, which may lack the ending of a file of code or of definitions."""
    plain = path.rstrip("/")
    if plain.startswith("./"):
        plain = plain[2:]
    if "*" in plain:
        return bool(fnmatch.filter(ends_of_paths(), plain))
    return any(plain + ending in ends_of_paths() for ending in ("", ".antt", ".rt"))


def unknown(text: str) -> Iterator[str]:
    """What the text of a page about the code names, and is not there."""
    for number, line in plain_lines(text):
        for quoted in QUOTED.findall(line):
            first = quoted.split(" ")[0]
            if EXAMPLES.search(quoted) or first.startswith("/"):
                continue
            if PATH.fullmatch(first):
                missing = [] if is_there(first) else [first]
            else:
                missing = [word for word in WORD.findall(quoted) if word not in words_of_code()]
            yield from ("line %d: there is no `%s`" % (number, it) for it in missing[:1])


def anchors(text: str) -> Set[str]:
    """The anchors of the headings of a page, as GitHub makes them."""
    found: Dict[str, int] = {}
    for _, line in plain_lines(text):
        if line.startswith("#"):
            plain = re.sub(r"[^\w\- ]", "", line.lstrip("#").strip().lower()).replace(" ", "-")
            found[plain] = found.get(plain, -1) + 1
    return {name if not count else "%s-%d" % (name, count) for name, most in found.items() for count in range(most + 1)}


def broken_links(page: str, text: str) -> Iterator[str]:
    """The links of a page that lead nowhere; those to other machines are not followed."""
    for number, line in plain_lines(text):
        for link in LINK.findall(line):
            path, _, anchor = link.partition("#")
            target = os.path.normpath(os.path.join(os.path.dirname(page), path)) if path else page
            if "://" in link:
                continue
            if not os.path.exists(os.path.join(TOP, target)):
                yield "line %d: there is no %s" % (number, target)
            elif anchor and target.endswith(".md") and anchor not in anchors(text if target == page else text_of(target)):
                yield "line %d: %s has no heading #%s" % (number, target, anchor)


def gaps(text: str) -> Iterator[str]:
    """The numbered items that do not follow the one before; a list begins at 1."""
    last: Dict[int, int] = {}
    for number, line in plain_lines(text):
        found = NUMBERED.match(line)
        if found:
            margin, item = len(found[1]), int(found[2])
            if item not in (1, last.get(margin, 0) + 1):
                yield "line %d: item %d follows item %d" % (number, item, last.get(margin, 0))
            last = {at: it for at, it in last.items() if at < margin}
            last[margin] = item
        elif line.startswith("#"):
            last = {}


def cells_of(row: str) -> int:
    """How many cells a row of a table has; a bar after a backslash is no border."""
    return len(re.findall(r"(?<!\\)\|", row)) - 1


def ragged(text: str) -> Iterator[str]:
    """The rows of tables that have fewer or more cells than the first row, and tables without a line below their head."""
    rows: List[str] = []
    for number, line in [*plain_lines(text), (0, "")]:
        row = line.strip()
        if not row.startswith("|"):
            rows = []
            continue
        rows.append(row)
        if len(rows) == 2 and not re.fullmatch(r"[|:-]+", row):
            yield "line %d: no line of dashes is below the head" % number
        if cells_of(row) != cells_of(rows[0]):
            yield "line %d: %d cells in a table of %d" % (number, cells_of(row), cells_of(rows[0]))


def problems(page: str, text: str) -> List[str]:
    """All that is wrong in a page."""
    found = [*broken_links(page, text), *gaps(text), *ragged(text)]
    return [*found, *(unknown(text) if os.path.basename(page) in ABOUT_CODE else ())]


def problem(page: str) -> str:
    found = problems(page, text_of(page))
    return "; ".join(found[:SHOWN]) + ("; and %d more" % (len(found) - SHOWN) if len(found) > SHOWN else "")


def tools_without_row() -> str:
    rows = [line for _, line in plain_lines(text_of("docs/TOOLS.md")) if line.startswith(("| [", "|["))]
    tools = [*(it.name for it in catalogue.tools()), *catalogue.CHECKOUT_ALONE]
    missing = [name for name in tools if not any("`tools/%s" % name in row for row in rows)]
    return "docs/TOOLS.md has no row of %s" % ", ".join(missing) if missing else ""


def figures_in(texts: Dict[str, str], pattern: str) -> Dict[str, Set[str]]:
    """What the pages have for a figure, each with the pages that have it."""
    found: Dict[str, Set[str]] = {}
    for page, text in texts.items():
        for match in re.finditer(pattern, re.sub(r"\s+", " ", text)):
            figure = next(group for group in match.groups() if group is not None)
            found.setdefault(figure.strip(), set()).add(page)
    return found


def unequal(texts: Dict[str, str]) -> Iterator[str]:
    """The figures for which pages have several numbers, or which less than two pages have."""
    for what, pattern in FIGURES.items():
        found = figures_in(texts, pattern)
        if len(found) > 1:
            yield "%s: %s" % (what, " and ".join("%s in %s" % (it, ", ".join(sorted(found[it]))) for it in sorted(found)))
        elif len({page for pages_with in found.values() for page in pages_with}) < 2:
            yield "%s: less than two pages have it" % what


def figures_are_equal() -> str:
    texts = {page: text_of(page) for page in pages() if page != "CHANGELOG.md"}
    found = list(unequal(texts))
    for what, pattern in FIGURES.items():
        page, figure = next(((page, figure) for figure, with_it in figures_in(texts, pattern).items() for page in with_it), ("", ""))
        flat = re.sub(r"\s+", " ", texts.get(page, ""))
        match = re.search(pattern, flat)
        if match and not found:
            at = next(match.start(k) for k in range(1, len(match.groups()) + 1) if match[k] is not None)
            changed = {**texts, page: flat[:at] + "9" + flat[at:]}
            if not any(it.startswith(what) for it in unequal(changed)):
                return "another figure for %s is not found (%s in %s)" % (what, figure, page)
    return "; ".join(found)


def finds_faults() -> str:
    """Each kind of fault, put into the text of a page, is found, and what is right there is not."""
    right = "# A page\n1. one\n   1. in it\n2. two\n\n[here](#a-page) `crates.txt` `text_of` `src/lib.rt` `*.md`\n| a ||\n|---|---|\n|b|`c\\|`|\n"
    wrong = ("1. one\n3. three", "2. two", "`no_such_name_%s`" % "x", "`src/no_such_file.rt`", "[there](#no-heading)",
             "[there](NO-PAGE.md)", "|a|b|\n|---|---|\n|c|\n", "|a|b|\n|c|d|\n")
    found = problems("docs/STYLE.md", right)
    if found:
        return "found where nothing is wrong: %s" % found
    return "; ".join("nothing is found in %r" % it for it in wrong if not problems("docs/STYLE.md", it))


def checks() -> Checks:
    yield "names: faults are found", finds_faults
    for page in pages():
        yield "names of " + page, partial(problem, page)
    yield "names: each tool has its row in docs/TOOLS.md", tools_without_row
    yield "names: figures of several pages are the same", figures_are_equal
