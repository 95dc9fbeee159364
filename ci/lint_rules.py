"""Tries each rule of tools/lint over the examples of tools/vindaesk/lint/rules.md: one in which it finds what is noted
there, by line and column, and one in which it finds nothing, each by itself and as it is printed. What is noted was
worked out by hand from docs/LAYOUT.md, docs/PAINTING.md and docs/FOCUS.md; contrasts are those that WebAIM's checker says
of these colours."""
import os
from functools import partial

from running import Checks, difference, named
from tools import place, unlike
from vindaesk.lint import rules, sections
from vindaesk.lint.sections import Files, Section


def unlike_in(name: str, files: Files, finds: str) -> str:
    """Why a rule does not find in the first of some files what it has to."""
    with place() as it:
        for path, text in files.items():
            os.makedirs(os.path.join(it.folder, os.path.dirname(path)), exist_ok=True)
            it.put(path, text)
        status, out, said = it.call("lint", next(iter(files)), "--only", name)
    # a line that makes a circle is refused too
    why = "" if name == "cycle" and finds else said
    return difference(finds.encode(), 1 if finds else 0, out, status) or why


def tries(it: Section) -> str:
    """Why an example is not as it should be."""
    if it.finds.count(" %s: " % it.name) != 1 or it.finds.count("\n") != 1:
        return "it finds %r" % it.finds
    fails, passes = (printed(it.text(), words) for words in (sections.FAILS, sections.PASSES))
    if (fails, passes) != (it.fails, it.passes):
        return "the examples are printed as %s and %s" % (fails, passes)
    if list(passes) != list(fails) or passes == fails:
        return "the examples are the same, or have other files"
    return unlike_in(it.name, fails, it.finds) or unlike_in(it.name, passes, "")


def printed(text: str, words: str) -> Files:
    """The files of an example as `--explain` prints it below some words: each below its name, indented."""
    found: Files = {}
    below, name = "", ""
    for line in text.split("\n"):
        if line in (sections.FAILS, sections.PASSES):
            below = line
        elif line.startswith("    ") and below == words and name != "It finds":
            found[name] = found.get(name, "") + line[4:] + "\n"
        elif line.endswith(":"):
            name = line[:-1]
    return found


def page_has_all() -> str:
    """Each rule has a section, in the order of the rules, with its severity, Android's names and its sentence."""
    found = sections.read()
    if list(found) != list(rules.RULES):
        return "the rules are %s, and the sections %s" % (list(rules.RULES), list(found))
    for name, it in rules.RULES.items():
        section = found[name]
        android = ", ".join("`%s`" % at for at in it.android)
        weight = "; Android: ".join(filter(None, (it.severity.word.capitalize(), android)))
        if (section.weight, section.android) != (weight, it.android) or not section.meaning.startswith(it.says + " "):
            return "%s: %s, %s" % (name, section.weight, section.meaning)
    return ""


def explains() -> str:
    """A rule is explained by its name and by Android's; of one of a user's own there is its sentence."""
    with place() as it:
        it.put("own.py", "from vindaesk.lint import rule\n\n@rule('own')\ndef own(it, page):\n    '''It is so.'''\n    yield from ()\n")
        text = it.call("lint", "--explain", "no-size")[1].decode()
        words = ["no-size\n\nError\n\nA view with a text", "\n\nFails:\n\na.script:\n\n    window 320 200\n",
                 "\n\nIt finds:\n\n    a.script:3:1: error", "\n\nPasses:\n\na.script:\n\n    window 320 200\n"]
        why = "%r" % text if not all(word in text for word in words) else ""
        for words_of, wanted in ((["small-text"], b"small-text\n\nWarning; Android: `SmallSp`\n"),
                                 (["Overdraw"], b"overdraw\n\n"),
                                 (["own", "--rules", "own.py"], b"own                 warning  It is so.\n")):
            found = it.call("lint", "--explain", *words_of)
            why = why or ("" if found[0] == 0 and found[1].startswith(wanted) else "%s: %r" % (words_of, found))
        why = why or unlike(it.call("lint", "--explain", "other"), 2, b"", "there is no rule 'other'")
        both = it.call("lint", "--explain", "Overdraw")[1].split(b"\n")
        # the tool ran in this process, where the rule is still
        rules.RULES.pop("own", None)
        return why or ("" if b"hidden-background" in both else "of two rules: %r" % both)


def checks() -> Checks:
    yield from named("lint rules", (page_has_all, explains))
    for name, it in sections.read().items():
        yield "lint rules: " + name, partial(tries, it)
