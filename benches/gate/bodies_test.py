#!/usr/bin/env python3
"""A test of bodies.py: whether it takes what a check says for what is said of a body, and which bodies it tries at once.

    python3 -B benches/gate/bodies_test.py

It proves nothing and takes a second: what a check says is written here. `bodies.py --selftest` asks the prover.
"""

import importlib
import pathlib
import sys
import tempfile
import unittest

sys.path.insert(0, str(pathlib.Path(__file__).parent))
trying = importlib.import_module("bodies")

# A crate in which functions of two types and one of none are called alike, the name of a type begins with that of another,
# and a type has a trait twice.
SMALL = {
    "lib.rt": """fn first() -> u8
    ensures { result ≡ 1 }
{
    1
}
""",
    "item.rt": """const LONGEST: u8 = 31;

impl Item<'_> {
    pub fn len(self) -> u8
        ensures { result ≡ 2 }
    {
        2
    }
}

impl<T: Into<u8>> ItemList<T> {
    pub fn len(self) -> u8
        ensures { result ≡ 3 }
    {
        3
    }
}
""",
    "lines.rt": """pub fn len(line: &[u8]) -> usize
    ensures { result ≡ length line.now }
{
    line.len()
}

fn longest() -> u8
    ensures { result ≡ 31 }
{
    crate::item::LONGEST
}
""",
    "fault.rt": """impl From<AllocError> for Fault {
    fn from(_error: AllocError) -> Fault {
        Fault::Memory
    }
}

impl<T: Drop> From<AllocFailed<T>> for Fault {
    fn from(failed: AllocFailed<T>) -> Fault {
        failed.fault()
    }
}

impl Task<()> for Fault {
    fn run(&self) {}
}
""",
}
BODIES = {
    "two_of_an_item": ("`Item::len`", "item.rt", "        2", "        1 + 1"),
    "three_of_a_list": ("`ItemList::len`", "item.rt", "        3", "        4"),
    "a_byte_more": ("`len`", "lines.rt", "line.len()", "line.len() + 1"),
    "a_byte_less": ("`len`", "lines.rt", "line.len()", "line.len() - 1"),
    "the_same_longest": ("`longest`", "lines.rt", "crate::item::LONGEST", "{ crate::item::LONGEST }"),
    "longest_of_32": ("`longest`", "item.rt", "LONGEST: u8 = 31", "LONGEST: u8 = 32"),
    "first_of_two": ("`first`", "lib.rt", "    1", "    2"),
    "from_another_fault": ("`Fault::from`", "fault.rt", "failed.fault()", "Fault::Device"),
    "from_any_fault": ("`Fault::from`", "lines.rt", "line.len()", "line.len() + 2"),
}

# What a check says of an open goal, in the code and in a proof, and of a function.
IN_CODE = "note: src/{}: it is not proved that what the function ensures holds when it returns (`returns`)"
IN_PROOF = "./proofs/{}/Answers.antt:8:27: error: `returns`: the two sides differ"
OPEN = "fn small::{}: no proof: `search` did not prove `returns`"
PROVED = "fn small::{}: proved"


class Bodies(unittest.TestCase):
    def setUp(self):
        room = tempfile.TemporaryDirectory()
        self.addCleanup(room.cleanup)
        self.folder = pathlib.Path(room.name)
        (self.folder / "src").mkdir()
        for name, text in SMALL.items():
            (self.folder / "src" / name).write_text(text, encoding="utf-8")

    def body(self, name):
        where, file, old, new = BODIES[name]
        path = self.folder / f"{name}.edit"
        lines = f"# falls at the clause of {where}: as it is called", f"file: src/{file}", f"old: {old}", f"new: {new}"
        path.write_text("\n".join(lines), encoding="utf-8")
        return trying.body_of(path, "small", self.folder / "src")

    def told(self, name, *said):
        _, told, _ = trying.judge(self.body(name), "\n".join(said), trying.places_in(self.folder), [""])
        return told

    def test_what_is_said_of_a_namesake_refuses_nothing(self):
        item, of_list, line = "item::Item::len", "item::ItemList::len", "lines::len"
        said = [IN_CODE.format("item.rt:13:5"), OPEN.format(of_list), PROVED.format(item), PROVED.format(line)]
        self.assertEqual(self.told("three_of_a_list", *said), "refused at `returns`")
        for name in ("two_of_an_item", "a_byte_more"):
            self.assertEqual(self.told(name, *said), "NOT REFUSED: the function is proved with it")
        in_proof = [IN_PROOF.format("item/Item/len"), "fn small::item::Item::len: not proved", PROVED.format(line)]
        self.assertEqual(self.told("two_of_an_item", *in_proof), "refused at `returns`")
        self.assertEqual(self.told("a_byte_more", *in_proof), "NOT REFUSED: the function is proved with it")
        self.assertIn("says nothing of it", self.told("three_of_a_list", *in_proof))

    def test_a_type_may_be_of_another_module(self):
        self.assertEqual(self.told("three_of_a_list", OPEN.format("list::ItemList::len")), "refused at `returns`")
        for name, other in (("a_byte_more", "item::len"), ("first_of_two", "item::first")):
            self.assertIn("says nothing of it", self.told(name, OPEN.format(other)))

    def test_the_one_that_is_edited_is_meant(self):
        self.assertEqual(self.body("from_another_fault").function.called, "FaultFromAllocFailed::from")
        with self.assertRaisesRegex(trying.Unfit, "2 functions are called Fault::from"):
            self.body("from_any_fault")
        called = [one.called for one in trying.functions(self.folder / "src")]
        self.assertEqual(called[:3], ["FaultFromAllocError::from", "FaultFromAllocFailed::from", "FaultTaskUnit::run"])

    def test_what_edits_a_constant_is_tried_by_itself(self):
        names = [name for name in BODIES if name != "from_any_fault"]
        rounds = [[body.name for body in some] for some in trying.rounds([self.body(name) for name in names])]
        together = [name for name in names if name not in ("a_byte_less", "longest_of_32")]
        self.assertEqual(rounds, [together, ["a_byte_less"], ["longest_of_32"]])


if __name__ == "__main__":
    unittest.main()
