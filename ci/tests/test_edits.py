"""The places at which edits that must fail were refused, as `rt ci` prints them."""
import os
import unittest
from unittest import mock

import edits
from running import TOP

NOTE = "it is not proved that what the function ensures holds when it returns"
LOG = """\
rt: must-fail slab_link/one.edit: refused, as it must be: note: src/link.rt:%d:5: NOTE (`returns-then-self-eq0`); the
rt: must-fail slab_link/cut.edit: refused, as it must be: note: src/link.rt:%d:5: NOTE (`returns-then-self-eq0-clau
rt: must-fail view_model/two.edit: refused, as it must be: ./proofs/NumberLaws.antt:17:12: error: `refusals`: as
rt: must-fail view_model/short.edit: refused, as it must be: ./proofs/NumberLaws.antt:17:12: error: `refu
rt: must-fail view_model/three.edit: NOT REFUSED: the crate is still proved
""".replace("NOTE", NOTE)
SOURCE = """\
fn first() -> u8 {
}

/// What comes next.
#[tactic(auto,
    using(crate::proofs::Laws::next))]
fn second() -> u8
    ensures { result ≡ 0 }
{
"""


class Refusals(unittest.TestCase):
    def test_a_function_is_named_with_its_goal_and_a_law_by_itself(self) -> None:
        with open(os.path.join(TOP, "crates", "slab_link", "src", "link.rt"), encoding="utf-8") as file:
            number = next(number for number, line in enumerate(file, 1) if "fn none(" in line) + 3
        self.assertEqual(edits.refusals(LOG % (number, number)), {
            ("slab_link", "one"): "src/link.rt none returns",
            ("slab_link", "cut"): "src/link.rt none",
            ("view_model", "two"): "proofs/NumberLaws.antt refusals",
            ("view_model", "short"): "proofs/NumberLaws.antt",
        })

    def test_a_line_is_of_the_function_that_it_is_in_or_that_it_is_an_attribute_of(self) -> None:
        with mock.patch("builtins.open", mock.mock_open(read_data=SOURCE)):
            found = [edits.function_at("a", "src/b.rt", number) for number in (1, 2, 5, 7, 9)]
        self.assertEqual(found, ["first", "first", "second", "second", "second"])

    def test_of_a_goal_the_branches_do_not_count(self) -> None:
        kept = {
            "returns-else-dim-eq-MATCH-clause-value": "value", "returns-clause-value": "value", "returns-in-Ok": "returns",
            "then-put-2-requires-clause-room": "room", "else-get-requires": "requires", "loop-next-preserved": "loop",
            "invariant_of-self-2": "invariant_of", "overflow_sub-depth": "overflow_sub", "left_of_is_0": "left_of_is_0",
        }
        self.assertEqual({it: edits.of_goal(it) for it in kept}, kept)


class Clauses(unittest.TestCase):
    def test_the_line_comes_after_the_one_that_says_why_and_in_the_place_of_others(self) -> None:
        edit = edits.Edit("a", "b", ["# why: x", "file: src/lib.rt", "# clause: src/lib.rt f returns", "old: 1"])
        self.assertEqual(edit.with_clauses("src/lib.rt g returns", "src/lib.rt h"), [
            "# why: x", "# clause: src/lib.rt g returns", "# clause: src/lib.rt h", "file: src/lib.rt", "old: 1"])

    def test_an_edit_that_is_refused_elsewhere_is_named(self) -> None:
        def edit(name: str, *clauses: str) -> edits.Edit:
            return edits.Edit("a", name, ["# why: x", *(edits.CLAUSE + it for it in clauses)])

        found = [edit("here", "a.rt f kept"), edit("several", "a.rt g", "a.rt f kept"), edit("cut", "a.rt f kept"),
                 edit("whole", "a.rt f"), edit("other", "a.rt f kept"), edit("lost", "a.rt f kept"), edit("silent")]
        refused = {"here": "a.rt f kept", "several": "a.rt f kept", "cut": "a.rt f", "whole": "a.rt f value",
                   "other": "a.rt f value", "silent": "a.rt f value"}
        with mock.patch("edits.edits", lambda: iter(found)):
            wrong = edits.refused_elsewhere({("a", name): place for name, place in refused.items()})
        self.assertEqual(wrong, "a/other: refused at a.rt f value, not at a.rt f kept; "
                                "a/lost: refused at nowhere that the log says, not at a.rt f kept")


if __name__ == "__main__":
    unittest.main()
