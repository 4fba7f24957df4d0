"""Tests of what tests/edits reads: functions of a text, edits, what a check says. They need no rt.

usage: python3 tests/gate/test_edits.py
"""
import os
import sys
import tempfile
import unittest

sys.dont_write_bytecode = True
HERE = os.path.dirname(os.path.realpath(__file__))
sys.path.append(os.path.join(os.path.dirname(os.path.dirname(HERE)), "docs", "tools"))
import edits
import names
import renames
import rounds
import source
import told

TEXT = '''
/// Says "{" and '}'.
pub fn outer<'a>(text: &'a str) -> [u8; 2]
    requires some { 0 < length text.now }
    ensures { (λ x. { x }) result ≡ '{' }
{
    let mark = '{';
    let words = r#"a " } "#;
    fn inner() -> u8 { 1 }
    loop
        invariant { i ≤ 2 }
    { if mark == '\\'' { inner(); } }
}

trait Desk {
    ghost state: { 1 ≤ 2 };
    fn read(&self) -> u8
        ensures { result ≡ 0 };
    fn both(&self) -> u8 { self.read() }
}

impl<'a, T: Fn(u8) -> u8> Desk for Held<'a, T> {
    fn read(&self) -> u8 { outer("x{")[0] }
}

fn last() { }
'''


class Functions(unittest.TestCase):
    def setUp(self):
        self.found = source.functions_of(TEXT, "a.b")

    def test_each_function_with_a_body_is_found_once(self):
        self.assertEqual([it.name for it in self.found], ["outer", "both", "read", "last"])

    def test_clauses_are_no_body_and_braces_in_strings_do_not_count(self):
        begin, end = self.found[0].body
        self.assertTrue(TEXT[begin:].startswith("{\n    let mark"))
        self.assertEqual(TEXT[end:].split("\n")[2], "trait Desk {")

    def test_lines(self):
        self.assertEqual(source.lines_of(TEXT, self.found[0]), (3, 13))

    def test_who_holds_a_function(self):
        self.assertEqual([it.holder.partition(" ")[0] for it in self.found], ["", "trait", "impl<'a,", ""])
        self.assertEqual(names.type_and_trait(self.found[2].holder), ("Held", "Desk"))

    def test_what_a_function_may_call(self):
        outer, both, read, last = self.found
        self.assertEqual(source.reach_of(both, self.found), {read, outer})
        self.assertEqual(source.reach_of(last, self.found), set())

    def test_modules(self):
        paths = ["src/lib.rt", "src/main.rt", "src/a/b.rt", "src/a/mod.rt"]
        self.assertEqual([source.module_of(it) for it in paths], ["", "", "a.b", "a"])

    def test_the_name_for_the_check(self):
        known = ["a.b.DeskDesk.read", "a.b.Held.read", "a.b.HeldDesk.read", "a.b.last", "c.last"]
        self.assertEqual(names.path_of(self.found[2], known), "a.b.HeldDesk.read")
        self.assertEqual(names.path_of(self.found[3], known), "a.b.last")
        self.assertIsNone(names.path_of(self.found[0], known))


class Crate:
    """A crate of one file, in a folder of its own."""

    def __init__(self, folder):
        self.name, self.folder = "pb_x", folder
        os.makedirs(f"{folder}/src")
        with open(f"{folder}/src/lib.rt", "w", encoding="utf-8") as file:
            file.write("fn low() -> u8 { 1 }\nfn high() -> u8 { low() + 1 }\nfn other() -> u8 { 7 }\nconst A: u8 = 9;\n")


class Edits(unittest.TestCase):
    def setUp(self):
        room = tempfile.TemporaryDirectory()
        self.addCleanup(room.cleanup)
        self.crate = Crate(f"{room.name}/pb_x")
        self.trial = rounds.Trial(None, self.crate, 1)
        self.trial.path_of = lambda function: function.name

    def edit(self, *lines):
        file = f"{self.crate.folder}/e{len(os.listdir(self.crate.folder))}.edit"
        with open(file, "w", encoding="utf-8") as text:
            text.write("\n".join(lines) + "\n")
        return edits.Edit(file)

    def body(self, old, new):
        return self.edit("file: src/lib.rt", f"old: {old}", f"new: {new}")

    def why(self, *several):
        return [found.why for _, found in self.trial.sorted_out(several)[2]]

    def test_an_edit_finds_its_function(self):
        placed, others, unfit = self.trial.sorted_out([self.body(" 7 ", " 8 "), self.body("= 9", "= 8")])
        self.assertEqual([it.path for it in placed], ["other"])
        self.assertEqual([it.why for it in others], ["it changes what stands outside of a body"])
        self.assertEqual(unfit, [])

    def test_what_cannot_be_applied_is_told(self):
        self.assertEqual(self.why(self.body("u8", "u16")), ["an old text occurs in src/lib.rt 4 times, and not once"])
        self.assertEqual(self.why(self.body("u9", "u16")), ["an old text occurs in src/lib.rt 0 times, and not once"])
        self.assertEqual(self.why(self.edit("file: src/none.rt", "old: a", "new: b")), ["there is no file src/none.rt"])
        self.assertEqual(self.why(self.edit("file: src/../x.rt", "old: a", "new: b")), ["src/../x.rt names no file of src/, specs/ or proofs/"])
        self.assertEqual(self.why(self.edit("file: src/lib.rt")), ["it has no pair of an old and a new text"])
        self.assertEqual(self.why(self.body(" 7 ", " 7 ")), ["it changes nothing"])

    def test_what_changes_several_bodies_may_concern_all(self):
        two = self.edit("file: src/lib.rt", "old: { 1 }", "new: { 2 }", "old:  7 ", "new:  8 ")
        _, others, _ = self.trial.sorted_out([two])
        self.assertEqual([it.why for it in others], ["it changes several bodies"])

    def test_rounds_keep_apart_what_calls_one_another(self):
        several = [self.body("{ 1 }", "{ 2 }"), self.body("low() +", "low() -"), self.body(" 7 ", " 8 "), self.body("{ 7 }", "{ 9 }")]
        placed, _, _ = self.trial.sorted_out(several)
        made = [[it.function.name for it in them] for them in self.trial.rounds_of(placed)]
        self.assertEqual(made, [["low", "other"], ["high", "other"]])

    def test_rounds_are_as_many_as_can_be_tried_at_once(self):
        self.trial.lanes = 4
        placed, _, _ = self.trial.sorted_out([self.body("{ 1 }", "{ 2 }"), self.body(" 7 ", " 8 ")])
        self.assertEqual(len(self.trial.rounds_of(placed)), 2)

    def test_the_edits_of_both_folders(self):
        for part in ("must-fail", "edits"):
            os.makedirs(f"{self.crate.folder}/{part}")
            for name in ("a.edit", "README.md"):
                open(f"{self.crate.folder}/{part}/{name}", "w").close()
        found = [os.path.relpath(it, self.crate.folder) for it in edits.edits_of(self.crate.folder)]
        self.assertEqual(found, ["must-fail/a.edit", "edits/a.edit"])


class Told(unittest.TestCase):
    def kind(self, *rows):
        return told.judged(told.words_at("\n".join(rows), "src/a.rt", (3, 9), "proofs/a/f"), "not proved").kind

    def test_a_goal_that_is_shown_false_counts(self):
        self.assertEqual(self.kind("./proofs/a/f/Answers.antt:2:1: error: `returns`: the types differ"), told.REFUSED)

    def test_a_goal_that_is_open_counts(self):
        self.assertEqual(self.kind("note: src/a.rt:9:5: it is not proved that it ensures (`returns`)"), told.REFUSED)

    def test_what_is_said_of_another_function_does_not(self):
        self.assertEqual(self.kind("note: src/a.rt:10:5: it is not proved that it ensures (`returns`)"), told.AGAIN)
        self.assertEqual(self.kind("./proofs/a/g/Answers.antt:2:1: error: `returns`: the types differ"), told.AGAIN)

    def test_an_answer_that_lost_its_goal_leaves_one_open(self):
        lost = "./proofs/a/f/Answers.antt:2:1: error: `old`: record `Goals` has no `old`"
        self.assertEqual(self.kind(lost, "note: src/a.rt:9:5: it is not proved that it holds (`new`)"), told.NAMES)
        self.assertEqual(self.kind(lost, *[f"note: src/a.rt:9:5: it is not proved that it holds (`{it}`)" for it in ("a", "b")]), told.REFUSED)

    def test_a_name_that_is_gone_says_nothing(self):
        self.assertEqual(self.kind("./proofs/a/f/Answers.antt:2:1: error: `count` is not in scope"), told.NAMES)

    def test_a_message_goes_on_in_the_lines_behind_it(self):
        rows = ["./proofs/a/f/Answers.antt:2:1: error: `returns`: the record", "  has no field `count`"]
        self.assertEqual(self.kind(*rows), told.NAMES)

    def test_a_text_that_does_not_compile_is_not_read(self):
        self.assertFalse(told.is_read("src/a.rt:3:1: error[E0425]: cannot find value\nonly=not-proved"))
        self.assertTrue(told.is_read("fn pb_x::f: proved\nonly=proved"))


class Renames(unittest.TestCase):
    def test_words_that_stand_for_others(self):
        pair = ("src/a.rt", "let count = read(count);", "let amount = read(amount);")
        self.assertEqual(renames.renamed_words([pair]), {"count": "amount"})
        self.assertIsNone(renames.renamed_words([("src/a.rt", "count + 1", "count + 2")]))
        self.assertIsNone(renames.renamed_words([("src/a.rt", "a(b)", "a(b, b)")]))

    def test_what_is_carried_into_a_proof(self):
        text = "returns-then-count = s.count; ensures.count; recount"
        self.assertEqual(renames.carried(text, {}, {"count": "amount"}), "returns-then-amount = s.amount; ensures.count; recount")
        self.assertEqual(renames.carried("f returns-a b", {"returns-a": "returns-b"}, {}), "f returns-b b")


if __name__ == "__main__":
    unittest.main()
