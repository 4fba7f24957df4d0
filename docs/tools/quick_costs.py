"""What the steps of tests/quick cost, in seconds of a processor by one job.

What was measured is in quick_seconds.json beside this file; `tests/quick --measure` writes it. What it lacks is guessed.
"""

import json
import os

from build_plan import FIXED_SECONDS
from crate_list import TOP

TABLE = os.path.join(TOP, "docs", "tools", "quick_seconds.json")
# After a change of a body, a proof over kept work takes this share of the seconds of one from nothing.
AGAIN_SHARE = 0.08
# Of an edit, of the tests of a crate, and of those of the program.
EDIT, TESTS, PROGRAM = 12, 190, 60


def read_table():
    """What was measured: by crates the seconds of `again`, a proof over kept work, of `edits` and of `tests`; the program's own
    tests stand as `tests` of `tests/run`."""
    if not os.path.isfile(TABLE):
        return {}
    with open(TABLE, encoding="utf-8") as file:
        return json.load(file)


def write_table(measured):
    """Writes what was measured in the place of what stood there, a crate a line."""
    table = read_table()
    for name, seconds in measured.items():
        table[name] = {**table.get(name, {}), **seconds}
    rows = ['"%s": %s' % (name, json.dumps(table[name], sort_keys=True)) for name in sorted(table)]
    with open(TABLE, "w", encoding="utf-8") as file:
        file.write("{\n%s\n}\n" % ",\n".join(rows))


class QuickCosts:
    """The seconds of each step, with what was measured of a crate in known."""

    def __init__(self):
        self.known = read_table()

    def of(self, name, what, guess):
        return self.known.get(name, {}).get(what, guess)

    def is_known(self, name, what):
        return what in self.known.get(name, {})

    def again(self, name, from_nothing):
        """Of a crate's proof over kept work, after a change of a body in it or below it."""
        return self.of(name, "again", FIXED_SECONDS + AGAIN_SHARE * from_nothing)

    def edits(self, name, number):
        """Of a try of all edits of a crate."""
        return self.of(name, "edits", EDIT * number)

    def tests(self, name):
        """Of `rt test` in a crate of tests."""
        return self.of(name, "tests", TESTS)

    def program(self):
        """Of tests/run."""
        return self.of("tests/run", "tests", PROGRAM)
