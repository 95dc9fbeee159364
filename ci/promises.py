"""docs/PROMISES.md, made of the contracts: a row a promise, what it says in a sentence, and its clauses with links.

`ci/promises` writes the page; the check compares it with the sources."""
import os
import re
from typing import Dict, Iterator, List, Sequence, Tuple

from public_calls import Call, Clause, Item, call_named, crates, items, record_named
from running import TOP, Checks

PAGE = os.path.join(TOP, "docs", "PROMISES.md")
HEAD = """# Promises

`ci/promises` makes this page of the sources' comments; links lead to the clauses. A clause is proved for all arguments, whatever was called before;
its crate's `specs/` has its terms. [PROOFS](PROOFS.md) has what is trusted, and what is not promised.

If a call runs out of memory, only what a clause says of that is promised. A clause that reads a script or files presumes that contracts see these
bytes, as those of objects in memory.
"""
TOOL = """
## The call `tool`

Program and library of C are this call. A clause in bold is a record of the rows after it.

|promise|clauses|
|---|---|
"""
CALLS = """
## The calls of the crates

What crates export, the lowest first: functions with their clauses; types with what always holds of their values, and their calls.

|call|what for|clauses or calls|
|---|---|---|
"""
TESTED = """
## Only tested

|what|where|
|---|---|
|Adapters do what their devices do|`crates/integration_tests/src/adapters.rt`|
|`main` passes arguments and real objects to `tool`, and ends with its status|the stored run of `crates/view_tool`, `ci/checks`|
|A call reports no memory exactly where a request was refused|`ci/examples.py`, `ci/out_of_memory.py`|
|An empty script runs in 32 KiB of stack, any other in 128 KiB|`ci/memory.py`, on request|
|A short reply is one write; how often a run measures at least|`crates/integration_tests/src/runs.rt`|
|Between a caller and the library of C: its header's two functions, Python, Java|`ci/native.py`|
|The WebAssembly module, its heap and loader|`ci/web_module.py`|
|The launcher, the tools and the packages|`./vindaesk test`|
|`dist/view_tool` is what the proof built|`.ci/run`|
"""
# the most words of a sentence that the page takes of a source
LONG = 16
# what functions are for whose sentence does not fit the page, by crate and name
SHORT = {
    "geom_core::blend": "How an opaque colour looks under another one.",
    "geom_core::meet": "The common pixels of two rectangles, 0 0 0 0 without any.",
    "geom_core::child_spec": "The spec that a parent gives a child of this dimension.",
    "geom_core::resolve": "The size of a view that takes no more than it wants, unless required.",
    "view_model::child_spec_within": "The spec that a group gives a child on one axis.",
    "view_model::greater_need": "The greater of an earlier need and a child's size with margins.",
    "view_model::px": "The pixels of a dimension's word at a density, or `None`.",
    "view_model::weight": "The weight of a float's word in 256ths, or `None`.",
    "axml_reader::print": "Writes the lines of what a document holds.",
    "cell_text::first_line": "Where the first line of a text in lines of `n` cells ends.",
    "cell_text::cell": "The character in a cell of a text, if there is one.",
    "cell_text::glyph": "A column of a character's cell, a bit for each row.",
    "cell_text::cells_in": "How many cells a line of this width has, at least one.",
    "attr_table::take": "What an element of a layout file sets.",
    "frame_layout::place": "The rectangle of a child of this size in its group.",
    "scroll_view::place": "The rectangle of a child before it is moved up.",
    "scroll_view::range": "How far a group's child can be moved up.",
    "scroll_view::range_in": "How far a child in one rectangle can be moved up in another.",
    "measure_pass::measure": "Measures a view under two specs; the result is its size.",
    "measure_pass::remeasure": "Measures the children of a marked view, and removes the mark.",
    "scroll_offsets::bring_one": "Brings the offset of a scroll view into its range.",
    "traversal::frame": "Lays out the tree in a window, in at most two passes.",
    "saved_state::read": "Reads a saved state, or reports its first wrong byte.",
    "saved_state::restore": "Sets the saved offsets and texts of a tree's views.",
    "saved_state::save": "The bytes of the offsets and texts of views with ids.",
    "script_lines::edits_written": "The edits of a hook by the text that its command has.",
    "seen_parts::part_seen": "What is seen of a view in a rectangle of a canvas.",
    "seen_parts::children_canvas": "The canvas of a view's children, if they can be seen.",
    "seen_parts::is_seen_within": "Whether a view is surely seen within a rectangle alone.",
    "seen_parts::follow": "Follows a view to its present bounds, and adds the damage.",
    "focus_finder::next": "The view that gets the focus next.",
    "tree_painter::paint": "Paints a tree over black in a rectangle of the window.",
    "touch_event::split": "What a view that follows only these pointers gets of an event.",
    "touch_event::split_action": "What an action is to a view that has a part of the pointers.",
    "touch_dispatch::dispatch": "Sends an event to the root, and returns its answer.",
    "touch_dispatch::cancel_view": "Cancels the gesture of a view that goes away.",
    "seen_edits::restore_views": "Sets the saved offsets and texts, and adds the damage.",
    "seen_edits::note_scrolled": "Adds to the damage what is seen of scrolled views.",
    "vindaesk_c::vindaesk_focus": "Carries out a script, then says which view gets the focus next.",
}
# crates whose functions are steps of the calls of another crate: each is a link in one row
STEPS = {"sibling_orders": "view_tree", "world_parts": "view_world", "world_replies": "view_world"}
UNNAMED = "clause"
# in a cell: one link a line
BREAK = "<br>"


def link(text: str, path: str, line: int) -> str:
    return "[`%s`](../%s#L%d)" % (text, path, line)


def cell(text: str) -> str:
    return text.replace("|", "\\|")


def first_sentence(text: str) -> str:
    """The first sentence of a comment, up to its full stop; a link of the documentation's own form loses its brackets."""
    found = re.match(r".*?\.(?=\s|$)", text)
    return re.sub(r"\[(`[^`]+`)\]", r"\1", found[0] if found else text)


def fits(sentence: str) -> bool:
    """Whether a sentence is short enough for the page, and says its own without the one before it."""
    return len(sentence.split()) <= LONG and not sentence.startswith("The same")


def is_function(item: Item) -> bool:
    return [call.owner for call in item.calls] == [""]


def purpose(crate: str, item: Item) -> str:
    """What a function is for, in a whole sentence: the first of its comment, or one of `SHORT`."""
    sentence = first_sentence(item.summary)
    return cell(sentence if fits(sentence) else SHORT.get("%s::%s" % (crate, item.name), sentence))


def clause_links(path: str, clauses: Sequence[Clause]) -> str:
    return BREAK.join(link(clause.name, path, clause.line) if clause.name
                      else "[%s](../%s#L%d)" % (UNNAMED, path, clause.line) for clause in clauses)


def rows_of(path: str, clauses: Sequence[Clause]) -> Iterator[str]:
    """A row for each comment among clauses, with the clauses after it."""
    for promise in dict.fromkeys(clause.promise for clause in clauses):
        same = [clause for clause in clauses if clause.promise == promise]
        yield "|%s|%s|" % (cell(promise), clause_links(path, same))


def rows_of_tool(call: Call) -> Iterator[str]:
    """The rows of its clauses; those of a clause that is a record of the crate's definitions are those of the record's
    fields, after one in bold that has the clause."""
    crate = call.path.split(os.sep)[1]
    for clause in call.clauses:
        record = record_named(crate, clause.head)
        if record:
            yield "|**%s**||" % clause_links(call.path, [clause])
            yield from rows_of(record.path, record.fields)
        else:
            yield from rows_of(call.path, [clause])


def row_of_item(crate: str, item: Item) -> str:
    if is_function(item):
        what, found = purpose(crate, item), clause_links(item.path, item.calls[0].clauses)
    else:
        what = ""
        calls = BREAK.join(link(call.name, call.path, call.line) for call in item.calls)
        found = BREAK.join(part for part in (clause_links(item.path, item.invariants), calls) if part)
    return "|%s|%s|%s|" % (link(item.name, item.path, item.line), what, found)


def rows_of_crate(crate: str) -> Iterator[str]:
    found = items(crate)
    if found and crate in STEPS:
        calls = BREAK.join(link(item.name, item.path, item.line) for item in found)
        yield "|**%s**|steps of `%s`|%s|" % (crate, STEPS[crate], calls)
    elif found:
        yield "|**%s**|||" % crate
        yield from (row_of_item(crate, item) for item in found)


def page() -> str:
    """The text of the page."""
    tool = call_named("whole_tool", "tool")
    if tool is None:
        raise ValueError("crates/whole_tool has no function `tool`")
    below = [row for crate in crates() if crate != "whole_tool" for row in rows_of_crate(crate)]
    return HEAD + TOOL + "\n".join(rows_of_tool(tool)) + "\n" + CALLS + "\n".join(below) + "\n" + TESTED


def write() -> None:
    with open(PAGE, "w", encoding="utf-8") as file:
        file.write(page())


def is_fresh() -> str:
    """Whether the page is the one that the sources give."""
    with open(PAGE, encoding="utf-8") as file:
        kept = file.read().split("\n")
    made = page().split("\n")
    wrong = next((number for number, pair in enumerate(zip(kept, made), 1) if pair[0] != pair[1]), None)
    if kept == made:
        return ""
    return "line %d of docs/PROMISES.md is not that of the sources: run ci/promises" % (wrong or min(len(kept), len(made)))


def sentences() -> Dict[str, str]:
    """The first sentence about each function that the page has, by crate and name."""
    return {"%s::%s" % (crate, item.name): first_sentence(item.summary)
            for crate in crates() if crate != "whole_tool" and crate not in STEPS for item in items(crate) if is_function(item)}


def unfit(found: Dict[str, str], short: Dict[str, str]) -> List[str]:
    """What is wrong where functions have these sentences, and the page these short ones for what does not fit."""
    unfitting = {name for name, sentence in found.items() if not fits(sentence)}
    wrong = ["%s has no sentence" % name for name, sentence in found.items() if not sentence]
    wrong += ["%s has a sentence that does not fit, and no short one" % name for name in sorted(unfitting - set(short))]
    wrong += ["%s needs no short sentence" % name for name in sorted(set(short) - unfitting)]
    wrong += ["the sentence of %s is not whole" % name for name, sentence in sorted({**found, **short}.items())
              if name not in unfitting - set(short) and not (fits(sentence) and re.fullmatch(r"[A-Z].*\.", sentence))]
    return wrong


def sentences_are_whole() -> str:
    long = "A " * LONG + "b."
    if unfit({"a::b": "A b.", "a::c": long}, {"a::c": "A c."}):
        return "found where nothing is wrong"
    faults: List[Tuple[Dict[str, str], Dict[str, str]]] = [
        ({"a::b": ""}, {}), ({"a::b": long}, {}), ({"a::b": "A b."}, {"a::b": "A b."}), ({}, {"a::b": "A b."}),
        ({"a::b": long}, {"a::b": long}), ({"a::b": long}, {"a::b": "a b."}), ({"a::b": long}, {"a::b": "A b,"})]
    missed = [fault for fault in faults if not unfit(*fault)]
    return "nothing is found in %s" % missed if missed else "; ".join(unfit(sentences(), SHORT))


def checks() -> Checks:
    yield "promises: each sentence about a function is whole", sentences_are_whole
    yield "promises: docs/PROMISES.md is made of the sources", is_fresh
