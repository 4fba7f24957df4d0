"""The search over constraints: its solutions, its bounds, and the derivations that it writes, which the program that PBCNF names judges.

What is right is what a search through all assignments finds, in this file.
"""

import io
import itertools
import os
import random
import subprocess
import sys
import tempfile
import unittest
import unittest.mock

sys.path.insert(0, os.path.join(os.path.dirname(os.path.realpath(__file__)), os.pardir))

from pbcnf.tools import learning, loading, sums  # noqa: E402
from pbcnf.tools.children import can_learn, learn  # noqa: E402

NAMES = ("x3", "x1", "rain", "x7[a]", "_b")


def drawn(draw, size):
    """A problem of some names, products, negations, relations and weights, in the words of OPB."""
    def literal():
        return draw.choice(("", "~")) + draw.choice(NAMES[:size])

    def terms(count, most):
        return " ".join("%+d %s" % (draw.randint(-most, most), " ".join(literal() for _ in range(draw.choice((1, 1, 1, 2, 3))))) for _ in range(count))

    statements = ["%s %s %d" % (terms(draw.randint(1, 4), draw.choice((1, 1, 3, 10 ** 20))), draw.choice((">=", ">=", "<=", "=")), draw.randint(-2, 2)) for _ in range(draw.randint(0, 5))]
    return "* a comment; +1 x99 >= 1 ;\nmin: %s ;\n%s" % (terms(draw.randint(0, 5), draw.choice((1, 5, 10 ** 25))), "".join("%s ; * +1 y >= 1 ;\n" % one for one in statements))


def solutions(text):
    """The values of all solutions, by a reading of its own: a term counts where all its literals are true."""
    words = [part.split() for part in "".join(line.split("*")[0] for line in text.split("\n")).replace("min:", "").split(";")]
    names = sorted({word.lstrip("~") for part in words for word in part if word.lstrip("~")[:1].isalpha() or word.lstrip("~")[:1] == "_"})

    def total(part, values):
        held, terms = 0, []
        for word in part:
            if word[-1].isdigit() and word[0] in "+-":
                terms.append([int(word), True])
            else:
                terms[-1][1] = terms[-1][1] and values[word.lstrip("~")] != word.startswith("~")
        for weight, is_true in terms:
            held += weight if is_true else 0
        return held

    def holds(part, values):
        left, right = total(part[:-2], values), int(part[-1])
        return {">=": left >= right, "<=": left <= right, "=": left == right}[part[-2]]

    every = (dict(zip(names, taken)) for taken in itertools.product((False, True), repeat=len(names)))
    return [total(words[0], values) for values in every if all(holds(part, values) for part in words[1:-1])]


class Reading(unittest.TestCase):
    def test_numbers(self):
        text = b"* #variable= 4 #constraint= 2\nmin: +1 sun +2 x2 ~sun ;\n-1 x02 +3 rain x2 <= 2 ;* +1 y >= 1 ;\n+2 x1 +1 ~x1 = 2 ;\n"
        loaded = loading.load(text)
        # sun and rain are 5 and 6, the products of x2 with them 7 and 8.
        self.assertEqual((loaded.variables, loaded.objective), (8, [(1, 5), (2, 7)]))
        self.assertEqual([sorted(terms) + [degree] for terms, degree in loaded.constraints], [
            [(1, -7), (1, 2), 1], [(1, -7), (1, -5), 1], [(1, -2), (1, 5), (1, 7), 1], [(1, -8), (1, 2), 1], [(1, -8), (1, 6), 1], [(1, -6), (1, -2), (1, 8), 1],
            [(1, 2), (3, -8), 1], [(1, 1), 1], [(1, -1), 0]])

    def test_products_that_are_none(self):
        loaded = loading.load(b"+2 x1 ~x2 +1 x2 ~x2 +1 x1 x1 >= 3 ;")
        self.assertEqual((loaded.variables, loaded.objective, loaded.constraints[-1]), (3, None, ([(2, 3), (1, 1)], 3)))


class Learning(unittest.TestCase):
    def setUp(self):
        temporary = tempfile.TemporaryDirectory()
        self.addCleanup(temporary.cleanup)
        self.folder = temporary.name

    def path(self, name):
        return os.path.join(self.folder, name)

    def put(self, name, content):
        with open(self.path(name), "w") as file:
            file.write(content)
        return self.path(name)

    def values(self, text, bound):
        """The values of the solutions that are found, in their order; the derivation that there is no other is put into a file."""
        loaded = loading.load(text.encode())
        with open(self.path("proof"), "w") as proof:
            found = [value for value, _ in learning.Learner(loaded, bound, proof).solutions()]
        self.put("cnf", "p cnf %d 1\n0\n" % loaded.variables)
        return found

    def refutes(self, text, bound):
        """True if the program takes the derivation for this bound."""
        option = "--at-most%s=%d" % ("-minus" if bound < 0 else "", abs(bound))
        run = subprocess.run([os.environ["PBCNF"], "refute", self.put("opb", text), self.path("cnf"), self.path("proof"), self.put("lrat", ""), option],
                             stdout=subprocess.PIPE, check=False)
        return run.stdout == b"refuted\n"

    def test_drawn_problems(self):
        draw = random.Random(7)
        for count in range(400):
            text = drawn(draw, draw.randint(1, len(NAMES)))
            every = solutions(text)
            bound = draw.choice([10 ** 27, *every])
            found = self.values(text, bound)
            self.assertEqual(found, sorted(set(found), reverse=True), text)
            self.assertTrue(set(found) <= set(every), text)
            if any(value <= bound for value in every):
                self.assertEqual(found[-1], min(every), text)
            else:
                self.assertEqual(found, [], text)
            if os.environ.get("PBCNF"):
                self.assertTrue(self.refutes(text, found[-1] - 1 if found else bound), text)

    def test_sums(self):
        """What one sum refutes: items that weigh more than so few bins hold, and a pigeon more than holes. The program takes the line."""
        weights = [50, 48, 48, 44, 43, 41, 39, 39, 35, 33, 32, 29, 26, 26, 21, 21, 19, 18]
        text = "min: %s ;\n" % " ".join("+1 y%d" % bin for bin in range(9))
        for item in range(len(weights)):
            text += " ".join("+1 i%d_%d" % (item, bin) for bin in range(9)) + " = 1 ;\n"
        for bin in range(9):
            text += " ".join("+%d i%d_%d" % (weight, item, bin) for item, weight in enumerate(weights)) + " -100 y%d <= 0 ;\n" % bin
        loaded = loading.load(text.encode())
        made = sums.Sums(loaded.constraints)
        for bound, wanted in ((6, True), (5, True), (7, False)):
            words = made.refute(loading.at_most(loaded.objective, bound))
            self.assertEqual(words is not None, wanted)
            if words is not None and os.environ.get("PBCNF"):
                last = len(loaded.constraints) + 1
                self.put("proof", "pseudo-Boolean derivation profile 1\nf %d\npol %s\nrup >= 1 ; %d\nout %d\nend\n" % (last, words, last + 1, last + 2))
                self.put("cnf", "p cnf %d 1\n0\n" % loaded.variables)
                self.assertTrue(self.refutes(text, bound))

    def test_drawn_sums(self):
        """What a sum refutes has no solution, and the program says so too."""
        draw = random.Random(8)
        count = 0
        for _ in range(300):
            text = drawn(draw, draw.randint(1, len(NAMES)))
            loaded = loading.load(text.encode())
            bound = min(solutions(text), default=0) - draw.randint(-1, 9)
            words = sums.Sums(loaded.constraints).refute(loading.at_most(loaded.objective, bound))
            if words is None:
                continue
            count += 1
            self.assertFalse(any(value <= bound for value in solutions(text)), text)
            if os.environ.get("PBCNF"):
                last = len(loaded.constraints) + 1
                self.put("proof", "pseudo-Boolean derivation profile 1\nf %d\npol %s\nrup >= 1 ; %d\nout %d\nend\n" % (last, words, last + 1, last + 2))
                self.put("cnf", "p cnf %d 1\n0\n" % loaded.variables)
                self.assertTrue(self.refutes(text, bound), text)
        self.assertGreater(count, 30)

    def test_restarts_and_forgets(self):
        # Pigeons, each in a hole, which no clause of few literals refutes.
        text = "min: ;" + "".join(" ".join("+1 x%d" % (7 * pigeon + hole + 1) for hole in range(6)) + " >= 1 ;\n" for pigeon in range(7))
        text += "".join("+1 ~x%d +1 ~x%d >= 1 ;\n" % (7 * one + hole + 1, 7 * two + hole + 1) for hole in range(6) for one in range(7) for two in range(one))
        with unittest.mock.patch("pbcnf.tools.learning._KEPT", 20), unittest.mock.patch("pbcnf.tools.learning._UNIT", 10), unittest.mock.patch("pbcnf.tools.learning._GREAT", 10.0):
            self.assertEqual(self.values(text, 0), [])
        with open(self.path("proof")) as proof:
            self.assertIn("\ndel ", proof.read())
        if os.environ.get("PBCNF"):
            self.assertTrue(self.refutes(text, 0))

    def run_main(self, *words):
        said = io.StringIO()
        with unittest.mock.patch("sys.stdout", said):
            self.assertEqual(learning.main(list(words)), 0)
        return said.getvalue().splitlines()

    def test_words(self):
        opb = self.put("opb", "min: +1 x1 +3 x2 ; +1 x1 +1 x2 >= 1 ;")
        said = self.run_main(opb, "9")
        self.assertEqual((said[-3:], self.run_main(opb, "0")), (["v 1 -2 0", "o 1", "s OPTIMUM FOUND"], ["s OPTIMUM FOUND"]))
        cnf, proof = self.path("cnf"), self.path("proof")
        self.assertEqual(self.run_main(opb, "1", cnf, proof), ["s SATISFIABLE", "v 1 -2 0"])
        self.assertEqual(self.run_main(opb, "0", cnf, proof), ["s UNSATISFIABLE"])
        with open(cnf) as file:
            self.assertEqual(file.read(), "p cnf 2 1\n0\n")
        run = subprocess.run(learn(opb, "9"), stdout=subprocess.PIPE, check=True)
        self.assertEqual(run.stdout.decode().splitlines()[-1], "s OPTIMUM FOUND")
        self.assertEqual((can_learn(b" " * 2000000), can_learn(b" " * 2000001)), (True, False))


if __name__ == "__main__":
    unittest.main()
