"""How LRAT is made of what solvers say of why there is no model: their texts, and the race of those who make it.

What is made is checked by the rules of LRAT, in this file.
"""

import io
import itertools
import os
import random
import sys
import tempfile
import unittest
import unittest.mock

HERE = os.path.dirname(os.path.realpath(__file__))
sys.path[:0] = [HERE, os.path.dirname(HERE)]

from stub_solver import Tree  # noqa: E402

from pbcnf.tools import hints, reasons  # noqa: E402
from pbcnf.tools.solvers import Attempt, Files, Reasons, Verdict  # noqa: E402
from pbcnf.tools.statuses import Stop  # noqa: E402
from pbcnf.tools.watch import Watch  # noqa: E402
from pbcnf.tools.workspace import Workspace  # noqa: E402

# All clauses over two variables; no values satisfy these, and an analysis of them has two steps.
SQUARE = [[1, 2], [1, -2], [-1, 2], [-1, -2]]


def refutes(clauses, lines):
    """True if an LRAT text ends in an empty clause, and each of its clauses follows from its hints, looked at in their order."""
    live = dict(enumerate(clauses, 1))
    last, is_empty = len(clauses), False
    for line in lines:
        words = line.split()
        if words[1] == "d":
            for word in words[2:-1]:
                del live[int(word)]
            continue
        literals, named = [[int(word) for word in part] for part in (words[1:words.index("0")], words[words.index("0") + 1:-1])]
        false = set(literals)
        for hint in named:
            free = {literal for literal in live[hint] if literal not in false}
            if not free:
                break
            if len(free) == 1:
                false.add(-free.pop())
        else:
            return False
        if int(words[0]) <= last:
            return False
        last = int(words[0])
        live[last] = literals
        is_empty = not literals
    return is_empty


class Folder(unittest.TestCase):
    def setUp(self):
        temporary = tempfile.TemporaryDirectory()
        self.addCleanup(temporary.cleanup)
        self.folder = temporary.name

    def put(self, name, content):
        path = os.path.join(self.folder, name)
        with open(path, "w") as file:
            file.write(content)
        return path

    def cnf(self, clauses):
        variables = max((abs(literal) for clause in clauses for literal in clause), default=0)
        return self.put("cnf", "p cnf %d %d\n" % (variables, len(clauses)) + "".join("%s 0\n" % " ".join(map(str, clause)) for clause in clauses))


class Texts(Folder):
    """Refutations in FRAT."""

    def lrat(self, clauses, *lines):
        """The LRAT text of a FRAT text that begins with the clauses, if no line does so."""
        given = () if lines and lines[0].startswith("o ") else ["o %d %s 0" % (id, " ".join(map(str, clause))) for id, clause in enumerate(clauses, 1)]
        return list(hints.lrat_lines(self.cnf(clauses), self.put("frat", "".join(line + "\n" for line in (*given, *lines)))))

    def test_hints_are_put_in_order(self):
        # The last ones come first in an analysis; those of one literal, and of clauses that are false at once, are not named.
        for lines in (("a 5 1 0 l 2 1 0", "a 6 2 0 l 3 0", "a 7 0 l 4 0"), ("a 5 1 0 l 1 2 0", "d 1 1 2 0", "a 6 0 l 4 3 0", "f 5 1 0"),
                      ("a 5 1 0 l 1 2 0", "a 6 2 0 l 3 5 0", "a 7 0"), ("a 5 1 0 l 2 1 0", "a 6 -1 0 l 3 4 0", "a 7 0 l 6 0")):
            made = self.lrat(SQUARE, *lines)
            self.assertTrue(refutes(SQUARE, made), made)

    def test_hints_against_a_unit(self):
        """Where all hints are used, what they make true is false by a clause of one literal, which is not named."""
        with unittest.mock.patch("pbcnf.tools.frat._Search", side_effect=AssertionError("nothing has to be looked for")):
            clauses = [[-3], [1, 2, 3], [-1, 3], [-2, 3]]
            self.assertTrue(refutes(clauses, self.lrat(clauses, "a 5 2 0 l 3 2 0", "a 6 0 l 4 5 0")))
            self.assertTrue(refutes(clauses, self.lrat(clauses, "a 5 2 0 l 3 2 0", "a 6 0 l 5 4 4 0")))

    def test_clauses_without_hints(self):
        for lines in (("a 5 1 0", "a 6 0"), ("a 5 1 0 l 1 0", "a 6 0 l 4 0"), ("a 5 1 2 0", "a 6 1 0 l 5 0", "a 7 0")):
            made = self.lrat(SQUARE, *lines)
            self.assertTrue(refutes(SQUARE, made), made)
        # Clauses of one literal are written twice as they are read, and so clauses have other ids than in the CNF.
        clauses = [[1], [-1, 2], [-2, -3], [3, -1]]
        made = self.lrat(clauses, "o 1 1 0", "a 2 1 0", "d 1 1 0", "o 3 -1 2 0", "a 4 2 0 l 3 2 0", "o 5 -2 -3 0", "o 6 3 -1 0", "a 7 0")
        self.assertTrue(refutes(clauses, made), made)

    def test_only_what_is_needed(self):
        made = self.lrat(SQUARE + [[3, 4]], "a 6 1 0 l 2 1 0", "a 7 3 4 1 0 l 5 0", "a 8 0 l 4 3 6 0")
        self.assertEqual(made, ["6 1 0 1 2 0\n", "6 d 1 2 0\n", "7 0 6 3 4 0\n", "7 d 6 3 4 0\n"])

    def test_empty_clause_of_the_cnf(self):
        self.assertTrue(refutes([[], [1]], self.lrat([[], [1]], "o 1 0")))

    def test_texts_that_refute_nothing(self):
        for lines in (("a 5 1 0 l 2 1 0",), ("a 5 3 0 l 1 2 0", "a 6 0 l 5 0"), ("a 5 1 0 l 6 0", "a 6 0 l 5 0"), ("a 6 0",), ("a 5 0 l",), ("a 5 one 0", "a 6 0"),
                      ("a 5",)):
            with self.assertRaises(Stop) as raised:
                self.lrat(SQUARE + [[3, 4]] if lines[0].startswith("a 6") else SQUARE, *lines)
            self.assertEqual(raised.exception.status, 1, lines)

    def test_drawn_problems(self):
        """Refutations of a search tree, whose hints are turned round, cut short and left out."""
        draw = random.Random(5)
        refuted = 0
        while refuted < 60:
            clauses = [draw.sample(list(itertools.chain(*((variable, -variable) for variable in range(1, 6)))), 3) for _ in range(30)]
            clauses = [clause for clause in clauses if all(-literal not in clause for literal in clause)] + [[draw.choice((1, -1))]]
            tree = Tree(clauses)
            if tree.search([])[0] is not None:
                continue
            refuted += 1
            lines = []
            for line in tree.lines:
                words = line.split()
                named = words[words.index("0") + 1:-1][::-1][draw.randint(0, 1):]
                lines.append("a " + " ".join(words[:words.index("0") + 1]) + (" l %s 0" % " ".join(named) if named and draw.random() < 0.7 else ""))
            self.assertTrue(refutes(clauses, self.lrat(clauses, *lines)))
            # The same without any hint, in DRAT.
            drat = self.put("drat", "".join(" ".join(line.split()[1:line.split().index("0") + 1]) + "\n" for line in tree.lines))
            self.assertTrue(refutes(clauses, hints.lrat_lines(self.cnf(clauses), drat)))

    def test_command(self):
        cnf, frat = self.cnf(SQUARE), self.put("frat", "".join("o %d %d %d 0\n" % (id, *clause) for id, clause in enumerate(SQUARE, 1)) + "a 5 1 0\na 6 0\n")
        said = io.StringIO()
        with unittest.mock.patch("pbcnf.tools.hints.say", said.write), unittest.mock.patch("pbcnf.tools.hints.test_output"):
            self.assertEqual(hints.main([cnf, frat]), 0)
        self.assertTrue(refutes(SQUARE, said.getvalue().splitlines()))


class Played:
    """Stands for a solver, its run and the program that runs: it takes some seconds, and writes a text."""

    def __init__(self, watch, kind, text, seconds="0", name="played", verdict=Verdict.NO_MODEL):
        self.watch, self.reasons, self.text, self.seconds, self.name, self.said = watch, kind, text, seconds, name, verdict

    def start(self, files):
        with open(files.reasons, "w") as file:
            file.write(self.text)
        self.running = self.watch.start(["sleep", self.seconds])
        return self

    def verdict(self):
        return self.said

    def attempt(self, workspace, cnf):
        files = Files(cnf, workspace.path("model." + self.name), workspace.path("reasons." + self.name))
        return Attempt(self, files, self.start(files))


class Races(Folder):
    """Who makes the text first."""

    FRAT = "".join("o %d %d %d 0\n" % (id, *clause) for id, clause in enumerate(SQUARE, 1)) + "a 5 1 0 l 2 1 0\na 6 0\n"
    DRAT = "1 0\n0\n"

    def race(self, first, *others, size=0):
        with Watch() as watch, Workspace() as workspace, unittest.mock.patch("pbcnf.tools.reasons._LONG", size), unittest.mock.patch("shutil.which", return_value=None):
            cnf = self.cnf(SQUARE)
            first, *others = [Played(watch, *words).attempt(workspace, cnf) for words in (first, *others)]
            watch.wait([first.run.running])
            with open(reasons.make_lrat([first, *others], watch, workspace)[1]) as lrat:
                return refutes(SQUARE, lrat)

    def test_first_text_is_taken(self):
        drat, frat = (Reasons.DRAT, self.DRAT), (Reasons.FRAT, self.FRAT)
        self.assertTrue(self.race(drat))
        self.assertTrue(self.race(frat))
        self.assertTrue(self.race(drat, (*frat, "0", "rival")))
        # One that never ends, fails, or has no reasons.
        self.assertTrue(self.race(drat, (*frat, "900", "rival")))
        self.assertTrue(self.race(drat, (*frat, "0", "rival", Verdict.UNKNOWN)))
        self.assertTrue(self.race(drat, (Reasons.FRAT, "", "0", "rival")))
        self.assertTrue(self.race((Reasons.DRAT, "1 2 0\n"), (*frat, "0.3", "rival")))
        # The rival has ended before the other one.
        self.assertTrue(self.race(frat, (*drat, "900", "other")))
        self.assertTrue(self.race((Reasons.FRAT, "o 1 1 2 0\n"), (*drat, "0.3", "other")))
        self.assertTrue(self.race((Reasons.FRAT, "o 1 1 2 0\n"), (*drat, "0.3", "other"), size=1000))

    def test_nobody_makes_one(self):
        for others in ((), ((Reasons.FRAT, "o 1 1 2 0\n", "0", "rival"),)):
            with self.assertRaises(Stop) as raised:
                self.race((Reasons.DRAT, "1 2 0\n"), *others)
            self.assertEqual(raised.exception.status, 9)
            self.assertRegex(raised.exception.words, "^the solver's reasons: .* so that nothing is refuted$")

    def test_what_takes_long(self):
        with Watch() as watch, Workspace() as workspace:
            for text, trim, kind, wanted in (("1 0\n" * 500001, None, Reasons.DRAT, True), ("1 0\n" * 500001, "drat-trim", Reasons.DRAT, False),
                                             ("1 0\n" * 500001, None, Reasons.LRAT, False), ("1 0\n", None, Reasons.DRAT, False)):
                attempt = Played(watch, kind, text).attempt(workspace, "cnf")
                with unittest.mock.patch("shutil.which", return_value=trim):
                    self.assertEqual((reasons.takes_long([attempt]), reasons.is_long(attempt)), (wanted, wanted))
                    self.assertFalse(reasons.takes_long([attempt, attempt]))


if __name__ == "__main__":
    unittest.main()
