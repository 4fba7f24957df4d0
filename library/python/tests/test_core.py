"""Problems without solutions: what `pbcnf-core` prints has none, by all assignments here, and each statement of it is needed."""

import itertools
import os
import re
import shutil
import subprocess
import sys
import tempfile
import unittest

from pbcnf.tools import program, tracing
from pbcnf.tools.opb_text import statements
from pbcnf.tools.statuses import Stop

BIG = 10 ** 28


def clause(*literals):
    return " ".join("+1 %sx%d" % ("~" if literal < 0 else "", abs(literal)) for literal in literals) + " >= 1 ;"


def pigeons(count):
    """So many pigeons in one hole less."""
    holes = range(count - 1)
    each = [clause(*(1 + pigeon * (count - 1) + hole for hole in holes)) for pigeon in range(count)]
    alone = [" ".join("+1 x%d" % (1 + pigeon * (count - 1) + hole) for pigeon in range(count)) + " <= 1 ;" for hole in holes]
    return each + alone


def filler(first, count):
    """Statements over other variables, which have solutions together with whatever else."""
    return ["+2 x%d +3 ~x%d +1 x%d >= 3 ;" % (first, first + 1, first + 2 + number % 2) for number in range(count)]


def parity(*numbers):
    return " ".join("+1 x%d" % number for number in numbers) + " = 1 ;"


# Each is the lines of a text, and those of the one core that it has, counted from 1; none where there are several.
PROBLEMS = {
    "pigeons": (pigeons(3), [1, 2, 3, 4, 5]),
    "pigeons among others": (filler(7, 3) + pigeons(3) + filler(8, 2), [4, 5, 6, 7, 8]),
    "more pigeons": (pigeons(4), [1, 2, 3, 4, 5, 6, 7]),
    "two among many": (filler(2, 30) + ["+1 x1 >= 1 ;"] + filler(4, 30) + ["+1 x1 <= 0 ;"] + filler(5, 9), [31, 62]),
    "parity": ([parity(1, 2), parity(2, 3), parity(1, 4), parity(1, 3), parity(4, 5)], [1, 2, 4]),
    "halves of equalities": (["+1 x1 +1 x2 +1 x3 = 2 ;", "+1 x4 = 1 ;", "+1 x1 +1 x2 +1 x3 = 1 ;"], [1, 3]),
    "weights": (["+5 x1 +4 x2 +3 x3 +2 x4 >= 9 ;", "+1 x1 >= 0 ;", "+5 x1 +4 x2 +3 x3 +2 x4 <= 8 ;"], [1, 3]),
    "by itself": (filler(1, 5) + ["+1 x1 +1 x2 >= 3 ;"] + filler(1, 5), [6]),
    "nothing": (["+1 x1 >= 1 ;", ">= 1 ;"], [2]),
    "an even sum": (["+1 x3 >= 1 ;", "+2 x1 +2 x2 +4 x3 = 5 ;", "+1 x1 >= 1 ;"], [2]),
    "products": (["+1 x1 x2 +1 x3 ~x4 >= 1 ;", "+1 x5 x6 >= 1 ;", "+1 ~x1 >= 1 ;", "+1 x2 x3 >= 0 ;", "+1 x4 >= 1 ;"], [1, 3, 5]),
    "products alone": (["+1 x1 x2 x3 >= 1 ;", "+1 x1 +1 x2 +1 x3 <= 2 ;", "+1 x1 x4 >= 0 ;"], [1, 2]),
    "names": (["+1 rain +1 sun >= 1 ;", "+1 ~rain +1 wet >= 1 ;", "+1 wind >= 1 ;", "+1 wet <= 0 ;", "-1 sun >= 0 ;"], [1, 2, 4, 5]),
    "a chain": ([clause(1)] + [clause(-k, k + 1) for k in range(1, 10)] + [clause(3, 5), clause(-10), clause(11)], [1, *range(2, 11), 12]),
    "an objective": (["min: +3 x1 +2 x2 x3 ;", "+1 x1 +1 x2 >= 2 ;", "+1 x3 >= 0 ;", "+1 x1 +1 x2 <= 1 ;"], [2, 4]),
    "over lines": (["+1 x1 * the first ; of two", "+1 x2 >= 2 ;", "+1 x3 >= 1 ;", "+1 x1", "+1 x2", "<= 1", ";"], [1, 4]),
    "one line": (["+1 x2 >= 1 ; +1 x1 >= 1 ; +1 x3 >= 1 ; +1 x1 <= 0 ;"], [1, 1]),
    "great numbers": (["+%d x1 +%d x2 >= %d ;" % (BIG, BIG - 1, 2 * BIG - 1), "+1 x3 >= 1 ;", "-1 x1 -1 x2 >= -1 ;"], [1, 3]),
    "at most one": ([" ".join("+1 x%d" % k for k in range(1, 9)) + " <= 1 ;", "+1 x2 +1 x5 +1 x7 +1 x8 >= 2 ;", "+1 x1 +1 x3 >= 0 ;"], [1, 2]),
    "colours": ([parity(1, 2), parity(3, 4), parity(5, 6), parity(7, 8)] + [clause(-a, -b) for a, b in ((1, 3), (2, 4), (1, 5), (2, 6), (3, 5), (4, 6), (5, 7), (6, 8))],
                None),
    "negative": (["-3 x1 -2 ~x2 >= -1 ;", "+1 x3 +1 ~x3 >= 1 ;", "-1 x2 +1 x1 >= 0 ;"], [1, 3]),
    "several cores": ([clause(1), clause(-1), clause(2), clause(-2), clause(1, 2), clause(-1, -2)], None),
    "all signs": ([clause(*(k if signs >> k & 1 else -k for k in range(1, 4))) for signs in range(0, 16, 2)] + filler(4, 5), list(range(1, 9))),
}
WAYS = [[], ["--general", "tree", "--equal", "joint"], ["--general=adder", "--card=counter", "--amo=pairwise"]]


def holds(statement, values):
    """True if a statement is true; what is here of the grammar is enough for the ones above."""
    words = re.sub(r"\*[^\n]*", "", statement).replace(";", "").split()
    at = next(number for number, word in enumerate(words) if word in (">=", "<=", "="))
    total = coefficient = 0
    literals = []
    for word in words[:at] + ["+0"]:
        if re.match(r"[-+]?\d+$", word):
            total += coefficient * all(values[literal.lstrip("~")] != literal.startswith("~") for literal in literals)
            coefficient, literals = int(word), []
        else:
            literals.append(word)
    right = int(words[at + 1])
    return {">=": total >= right, "<=": total <= right, "=": total == right}[words[at]]


def is_satisfiable(kept):
    names = sorted(set(re.findall(r"[a-z]\w*", "\n".join(kept))))
    return any(all(holds(statement, dict(zip(names, values))) for statement in kept) for values in itertools.product((False, True), repeat=len(names)))


def missing():
    try:
        program.find(os.environ)
    except Stop as stop:
        return stop.words
    return None if shutil.which("cadical") else "there is no cadical"


class Tracing(unittest.TestCase):
    """Texts by hand: what they rest on can be seen by looking."""

    def test_clauses(self):
        cnf = [b"p cnf 3 5\n", b"1 2 0\n", b"-2 0\n", b"-1 0\n", b"3 0\n", b"-3 2 0\n"]
        self.assertEqual(tracing.clauses_behind(cnf, [b"c why\n", b"6 1 0 1 2 0\n", b"7 3 0 4 0\n", b"6 d 1 0\n", b"8 0 6 3 0\n", b"9 0 7 5 2 0\n"]), {1, 2, 3})
        self.assertEqual(tracing.clauses_behind(cnf, [b"9 0 4 5 2 0\n"]), {2, 4, 5})
        self.assertEqual(tracing.clauses_behind(cnf + [b"0\n"], []), {6})

    def test_loaded(self):
        proof = [b"pseudo-Boolean derivation profile 1\n", b"f 4\n", b"* five\n", b"pol 1 2 + 3 d\n", b"out 5\n", b"red +1 x9 >= 1 ; x9 -> 1\n", b"\n",
                 b"pol 3 2 * x1 w x2 + s\n", b"rup +1 x1 >= 1 ; 7 6\n", b"out 8\n", b"out 4\n", b"del 5\n", b"rup +1 x2 >= 1 ;\n", b"out 6\n", b"end\n"]
        for clauses, wanted in (({1}, {1, 2}), ({2}, {3}), ({3}, {4}), ({4}, set()), ({1, 3}, {1, 2, 4})):
            self.assertEqual(tracing.loaded_behind(proof, clauses), (4, wanted), clauses)

    def test_statements(self):
        posed = statements(b"min: +1 x1 ;\n+1 x1 x2 >= 1 ; +1 x1 = 1 ;\n\n* x ;\n+1 x2\n<= 0 ;\n")
        self.assertEqual([(each.number, each.line, each.relation) for each in posed], [(1, 2, b">="), (2, 2, b"="), (3, 5, b"<=")])
        for loaded, wanted in (({1}, []), ({2, 3}, []), ({4}, [1]), ({5}, [2]), ({6, 3}, [2]), ({7, 4}, [1, 3])):
            self.assertEqual([each.number for each in tracing.statements_behind(posed, 7, loaded)], wanted, loaded)


@unittest.skipIf(missing(), missing())
class Cores(unittest.TestCase):
    def setUp(self):
        folder = tempfile.TemporaryDirectory()
        self.addCleanup(folder.cleanup)
        self.folder = folder.name

    def run_core(self, text, *words):
        """The exit status, and the lines of both streams."""
        path = os.path.join(self.folder, "a.opb")
        with open(path, "w", encoding="ascii") as file:
            file.write(text)
        done = subprocess.run([sys.executable, "-m", "pbcnf.tools.core", path, *words], stdout=subprocess.PIPE, stderr=subprocess.PIPE,
                              env={**os.environ, "TMPDIR": self.folder}, check=False)
        self.assertEqual([name for name in os.listdir(self.folder) if name.startswith("pbcnf")], [])
        return done.returncode, done.stdout.decode().splitlines(), done.stderr.decode()

    def core_of(self, lines, *words):
        """The lines and the statements of the core."""
        status, said, told = self.run_core("\n".join(lines) + "\n", *words)
        self.assertEqual((status, said[-1:]), (20, ["refuted"]), told)
        found = [line.split(": ", 1) for line in said[:-1]]
        return [int(number) for number, _ in found], [statement for _, statement in found], told

    def test_there_are_enough(self):
        self.assertGreaterEqual(len(PROBLEMS), 20)

    def test_cores(self):
        for number, (name, (lines, wanted)) in enumerate(PROBLEMS.items()):
            with self.subTest(name=name):
                found, kept, told = self.core_of(lines, *WAYS[number % len(WAYS)])
                self.assertFalse(is_satisfiable(kept))
                for left_out in range(len(kept)):
                    self.assertTrue(is_satisfiable(kept[:left_out] + kept[left_out + 1:]), kept[left_out])
                if wanted is not None:
                    self.assertEqual(found, wanted)
                self.assertRegex(told, "%d statements?, of which each is needed" % len(kept))

    def test_a_core_is_a_problem(self):
        """What is kept has the same core, and the program refutes it by itself."""
        keep = os.path.join(self.folder, "core.opb")
        _, kept, _ = self.core_of(PROBLEMS["pigeons among others"][0], "--keep", keep)
        with open(keep, encoding="ascii") as file:
            text = file.read()
        self.assertEqual(re.findall(r"^\* line (\d+)$", text, re.MULTILINE), ["4", "5", "6", "7", "8"])
        self.assertEqual([line for line in text.splitlines() if not line.startswith("*")], kept)
        self.assertEqual(self.core_of(text.splitlines())[1], kept)

    def test_time(self):
        """Without time the core is that of the refutation, and it is refuted all the same."""
        found, kept, told = self.core_of(filler(10, 3) + pigeons(3), "--seconds", "0.001")
        self.assertEqual(found, [4, 5, 6, 7, 8])
        self.assertFalse(is_satisfiable(kept))
        self.assertIn("the time is over", told)

    def test_a_solution(self):
        status, said, told = self.run_core("min: +2 x1 ;\n+1 x1 +1 x2 >= 2 ;\n")
        self.assertEqual((status, said), (0, ["o 2", "s SATISFIABLE", "v x1 x2"]))
        self.assertIn("there is no core", told)

    def test_statuses(self):
        self.assertEqual(self.run_core("x1 >= 1 ;")[0], 1)
        self.assertEqual(self.run_core("+1 x1 >= 1 ;", "--seconds", "none")[0], 2)
        self.assertEqual(self.run_core("+1 x1 >= 1 ;", "--solver", "no-such-solver")[0], 69)
        self.assertEqual(self.run_core(">= 1 ;", "--keep", "no/such/folder")[0], 5)


if __name__ == "__main__":
    unittest.main()
