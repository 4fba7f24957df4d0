"""Tests of what tests/quick decides: which crates are above, which steps there are, and how they run. They need no rt.

usage: python3 tests/gate/test_work.py
"""
import os
import sys
import unittest

sys.dont_write_bytecode = True
HERE = os.path.dirname(os.path.realpath(__file__))
sys.path.append(os.path.join(os.path.dirname(os.path.dirname(HERE)), "docs", "tools"))
import changes
import steps
import work
from build_plan import Cost, Limits


class Changes(unittest.TestCase):
    USES = {"low": [], "middle": ["low"], "beside": ["low"], "high": ["middle"], "alone": []}

    def test_which_crates_stand_above(self):
        self.assertEqual(changes.above({"low"}, self.USES), {"middle", "beside", "high"})
        self.assertEqual(changes.above({"middle", "alone"}, self.USES), {"high"})
        self.assertEqual(changes.above(set(), self.USES), set())


class Steps(unittest.TestCase):
    def run_all(self, *several):
        told_of = []
        made = [steps.Command("step", name, {f"step of {it}" for it in needs}, Cost(1, 0.1), words, "/") for name, needs, words in several]
        ended = steps.run_all(made, Limits(4, 8), lambda step, jobs, _: told_of.append(step.crate))
        return told_of, {it.rpartition(" ")[2]: found for it, found in ended.items()}

    def test_a_step_waits_for_what_it_needs(self):
        names, ended = self.run_all(("last", ["middle"], ["true"]), ("middle", ["first"], ["echo", "2 passed, 0 failed"]), ("first", [], ["true"]))
        self.assertEqual(names, ["first", "middle", "last"])
        self.assertEqual(ended["middle"].said, "2 passed, 0 failed\n")

    def test_what_needs_a_step_that_failed_is_not_run(self):
        names, ended = self.run_all(("first", [], ["false"]), ("beside", [], ["true"]), ("above", ["first"], ["true"]), ("top", ["above"], ["true"]))
        self.assertEqual(sorted(names), ["beside", "first"])
        self.assertFalse(ended["first"].passed)

    def test_the_jobs_of_a_command(self):
        _, ended = self.run_all(("one", [], ["echo", "JOBS"]))
        self.assertEqual(ended["one"].said, "4\n")

    def test_how_much_passed(self):
        step = steps.Command(work.EDITS, "pb_x", [], Cost(1, 1), [], "/")
        counts = lambda passed, said: work.counts_of(step, steps.Ended(passed, said, 0, 0))
        self.assertEqual(counts(True, "pb_x/a: refused\n3 passed, 0 failed\n"), (3, 0))
        self.assertEqual(counts(False, "3 passed, 2 failed, 1 skipped\n"), (3, 2))
        self.assertEqual(counts(False, "Traceback"), (0, 1))


class Shop:
    """A workshop of crates of these kinds: p a program, s a static library, t a crate of tests; in upper case one that was built."""

    class One:
        def __init__(self, kind):
            self.is_program, self.is_static, self.is_tests, self.is_kept = kind in "pP", kind in "sS", kind in "tT", kind.isupper()

        def has_tests(self):
            return self.is_tests

    def __init__(self, **kinds):
        self.crates = {name: self.One(kind) for name, kind in kinds.items()}

    def has_kept(self, crate):
        return crate.is_kept


class WorkToDo(unittest.TestCase):
    USES = {"low": [], "high": ["low"], "samples": ["low"], "rows": ["high", "samples"], "app": ["high"], "c": ["high"]}

    def work(self, changed, is_asked=False, c="S"):
        return work.Work(Shop(low="L", high="L", samples="L", rows="T", app="P", c=c), self.USES, changed, is_asked, 16)

    def test_what_is_proved(self):
        self.assertEqual(self.work({"low"}).proved, {"low", "high", "app", "c"})
        self.assertEqual(self.work({"app"}).proved, {"low", "high", "app"})
        self.assertEqual(self.work({"samples"}).proved, {"low", "high", "app", "samples"})

    def test_a_static_library_that_was_never_built_is_left_out(self):
        todo = self.work({"high"}, c="s")
        self.assertEqual(todo.proved, {"low", "high", "app"})
        self.assertEqual(todo.left_out()[-1], "c, which was never built here")

    def test_which_tests_of_crates_are_run(self):
        self.assertEqual(self.work({"low"}).to_test(), [])
        self.assertEqual(self.work({"low"}, True).to_test(), ["rows"])
        self.assertEqual(self.work({"rows"}).to_test(), ["rows"])
        self.assertEqual(self.work({"app"}, True).to_test(), [])


if __name__ == "__main__":
    unittest.main()
