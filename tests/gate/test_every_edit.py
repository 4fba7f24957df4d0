"""Tests that each edit of the repository can be applied: each of its old texts stands exactly once in the file that it names.

The gate passes over an edit that cannot be applied, so that nothing would be refused by it.

usage: python3 tests/gate/test_every_edit.py
"""
import os
import re
import sys
import unittest

sys.dont_write_bytecode = True
HERE = os.path.dirname(os.path.realpath(__file__))
sys.path.append(os.path.join(os.path.dirname(os.path.dirname(HERE)), "docs", "tools"))
import edits
from crate_list import TOP, uses_of

# A line of an edit that says something; all others are notes and blanks.
SAYS = re.compile(r"(file|old|new):")


def every_edit():
    """The files of all edits, each with its crate's folder."""
    folders = [f"{TOP}/crates/{name}" for name in uses_of(TOP)]
    return [(folder, file) for folder in folders for file in edits.edits_of(folder)]


class EveryEdit(unittest.TestCase):
    def test_each_can_be_applied(self):
        for folder, file in every_edit():
            with self.subTest(os.path.relpath(file, TOP)):
                edits.Edit(file).applied({}, folder)

    def test_no_line_is_passed_over(self):
        # An old text without a new one after it, or a pair before any file's name, would be lost.
        for _, file in every_edit():
            with open(file, encoding="utf-8") as text:
                words = [found.group(1) for found in map(SAYS.match, text) if found]
            with self.subTest(os.path.relpath(file, TOP)):
                self.assertRegex(" ".join(words), r"^file( old new)+( file( old new)+)*$")

    def test_none_stands_where_nobody_looks(self):
        known = {file for _, file in every_edit()}
        found = {f"{at}/{name}" for at, _, names in os.walk(f"{TOP}/crates") for name in names
                 if name.endswith(".edit") and "/out/" not in at + "/"}
        self.assertEqual(sorted(found - known), [])
        self.assertGreater(len(known), 100)


if __name__ == "__main__":
    unittest.main()
