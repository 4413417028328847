#!/usr/bin/env python3
"""Tests of together.py, over a file of functions and what the checker says of them."""
import pathlib
import sys
import tempfile
import unittest

sys.dont_write_bytecode = True
sys.path.insert(0, str(pathlib.Path(__file__).resolve().parent))
import together  # noqa: E402

SOURCE = """//! Numbers.
use fare_law::List;

/// One more.
pub fn one_more(number: u64) -> u64
    requires { number < 9 }
    ensures { result ≡ number + 1 }
{
    number + 1
}

impl<K: Spread, V> Rows<K, V> {
    /// How many there are.
    pub fn len(
        &self,
        least: usize,
    ) -> usize {
        self.rows.len()
    }
}

impl PartialEq for Row {
    fn eq(&self, other: &Row) -> bool {
        self.key == other.key
    }
}

#[cycle(walk)]
fn walk(number: u64) -> u64 {
    turn(number)
}

#[cycle(walk)]
fn turn(number: u64) -> u64 {
    walk(number)
}
"""

SAID = """./proofs/part/Rows/len/Answers.antt:3:5: error: `returns`: the two types differ
./proofs/part/+walk/Answers.antt:3:5: error: `measure`: `omega`: the goal does not follow
./proofs/part/RowPartialEq/eq/Answers.antt:3:5: error: `returns`: record `After` has no field `key`
struct some::part::Row: proved
note: src/part.rt:6:1: it is not proved that what the function ensures holds when it returns (`returns`)
fn some::part::one_more: no proof: expected answers in ./proofs/part/one_more/Answers.antt; `search` did not prove `returns`
fn some::part::Rows::len: not proved
fn some::part::RowPartialEq::eq: not proved
fn some::part::walk: not proved
fn some::part::turn: no proof: it calls `some::part::walk`, which is not proved
fn some::part::kept: proved
logic=not-proved
"""


class Together(unittest.TestCase):
    def setUp(self):
        room = tempfile.TemporaryDirectory()
        self.addCleanup(room.cleanup)
        self.folder = pathlib.Path(room.name)
        (self.folder / "src").mkdir()
        (self.folder / "src" / "part.rt").write_text(SOURCE)

    def edit(self, old, new, name="one"):
        file = self.folder / f"{name}.edit"
        file.write_text(f"file: src/part.rt\nold: {old}\nnew: {new}\n")
        return file

    def body(self, old):
        return together.body_of(self.folder, self.edit(old, "0"))

    def judged(self, old):
        edit = self.edit(old, "0")
        return together.judged(together.body_of(self.folder, edit), edit, "some", *together.told(SAID, "some"))

    def test_the_body_that_an_edit_is_in(self):
        self.assertEqual(("one_more", None), (self.body("    number + 1").name, self.body("    number + 1").owner))
        self.assertEqual(("len", "Rows"), (self.body("self.rows.len()").name, self.body("self.rows.len()").owner))
        self.assertEqual(("eq", "Row"), (self.body("self.key == other.key").name, self.body("self.key == other.key").owner))
        self.assertEqual("walk", self.body("    turn(number)").cycle)

    def test_no_body(self):
        self.assertIsNone(self.body("number < 9"))
        self.assertIsNone(self.body("result ≡ number + 1"))
        self.assertIsNone(self.body("is not there"))

    def test_what_a_check_says(self):
        self.assertEqual("rt: must-fail some/one.edit: refused, as it must be: note: src/part.rt:6:1: it is not proved that what the function ensures holds when it returns (`returns`)", self.judged("    number + 1"))
        self.assertIn("refused, as it must be: ./proofs/part/Rows/len/", self.judged("self.rows.len()"))
        self.assertIn("refused, as it must be: ./proofs/part/+walk/", self.judged("    turn(number)"))
        self.assertIs(together.WAITING, self.judged("    walk(number)"))
        self.assertIs(together.ALONE, self.judged("self.key == other.key"))

    def test_one_edit_of_a_cycle_a_check(self):
        tries = [(name, self.body(old)) for name, old in (("a", "    turn(number)"), ("b", "    walk(number)"), ("c", "    number + 1"))]
        now, later = together.next_round(tries)
        self.assertEqual((["a", "c"], ["b"]), ([name for name, _ in now], [name for name, _ in later]))


if __name__ == "__main__":
    unittest.main()
