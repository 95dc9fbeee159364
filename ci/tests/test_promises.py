"""The rows of the page of promises, and where the names in them are."""
import unittest

from promises import rows_of
from public_calls import Source, record_named

DEFINITIONS = Source("specs/A.antt", """-- What is said.
pub record Says (n : ℕ) : Type 0 where
  -- One sentence
  -- in two lines.
  pub first : n ≡ n
  pub second : (m : ℕ)
      → m ≡ m
  -- Another one.
  pub third : n ≡ n

-- another definition
pub record More : Type 0 where
  pub fourth : ℕ""".split("\n"))

HEAD = Source("src/a.rt", """pub fn f(n: u32) -> u32
    // What is said.
    ensures says { Says result }
    ensures { result ≡ n }
{
    n
}""".split("\n"))


class Promises(unittest.TestCase):
    def test_fields_of_a_record(self) -> None:
        fields = list(DEFINITIONS.fields(1))
        self.assertEqual([(it.name, it.line, it.promise) for it in fields],
                         [("first", 5, "One sentence in two lines."), ("second", 6, "One sentence in two lines."),
                          ("third", 9, "Another one.")])

    def test_rows(self) -> None:
        self.assertEqual(list(rows_of("specs/A.antt", list(DEFINITIONS.fields(1)))), [
            "|One sentence in two lines.|[`first`](../specs/A.antt#L5)<br>[`second`](../specs/A.antt#L6)|",
            "|Another one.|[`third`](../specs/A.antt#L9)|"])

    def test_head_of_a_clause(self) -> None:
        call, = HEAD.calls()
        self.assertEqual([(it.name, it.head, it.promise) for it in call.clauses],
                         [("says", "Says", "What is said."), ("", "result", "What is said.")])

    def test_record_of_the_tool(self) -> None:
        record = record_named("whole_tool", "WritesPages")
        self.assertIsNotNone(record)
        self.assertIn("dump", [it.name for it in record.fields] if record else [])
        self.assertIsNone(record_named("whole_tool", "result"))


if __name__ == "__main__":
    unittest.main()
