#!/usr/bin/env python3
"""Tests pbcnf.pysat by brute force: the models of what its encoders give are, over the literals, just the values that the constraint
allows. Where PySAT is installed its own encoders are held against them, and its pool of variables is used.

usage: pysat_names.py [-v]
"""

import doctest
import itertools
import random
import unittest
import warnings

import pbcnf.pysat.card
import pbcnf.pysat.pb
from pbcnf.pysat import CNF, CardEnc, IDPool, ITotalizer, PBEnc
from plain_solver import model_of

try:
    import pycryptosat
except ImportError:
    pycryptosat = None
try:
    import pysat.card
    import pysat.formula
    import pysat.pb
except ImportError:
    pysat = None

CARD, PB = pbcnf.pysat.card.EncType, pbcnf.pysat.pb.EncType
RELATIONS = {"atmost": lambda sum, bound: sum <= bound, "atleast": lambda sum, bound: sum >= bound, "equals": lambda sum, bound: sum == bound}


def allowed(clauses, variables, assumed=()):
    """The values of these variables that extend to a model."""
    cases = itertools.product(*((-variable, variable) for variable in variables))
    return {case for case in cases if model_of(clauses, {*case, *assumed}) is not None}


def due(variables, holds):
    """The values under which this holds of the true literals."""
    return {case for case in itertools.product(*((-variable, variable) for variable in variables)) if holds(set(case))}


def fresh_of(cnf, taken):
    return {abs(literal) for clause in cnf.clauses for literal in clause} - set(taken)


class Encoders(unittest.TestCase):
    def setUp(self):
        self.draws = random.Random(11)
        warnings.simplefilter("error")

    def literals(self, most):
        return [self.draws.choice([1, -1]) * variable for variable in range(1, self.draws.randint(0, most) + 1)]

    def test_cardinalities(self):
        for turn in range(120):
            lits = self.literals(6)
            bound, name = self.draws.randint(-1, len(lits) + 1), self.draws.choice(list(RELATIONS))
            encoding = self.draws.choice([CARD.pairwise, CARD.seqcounter, CARD.ladder, CARD.totalizer])
            top = self.draws.choice([None, 3, 9])
            cnf = getattr(CardEnc, name)(lits, bound, top, encoding=encoding)
            variables = [abs(literal) for literal in lits]
            self.assertEqual(allowed(cnf.clauses, variables), due(variables, lambda true: RELATIONS[name](sum(literal in true for literal in lits), bound)))
            self.assertTrue(all(variable > max([top or 0, *variables]) for variable in fresh_of(cnf, variables)))
            self.assertGreaterEqual(cnf.nv, max([top or 0, *variables]))
            self.assertEqual(max([cnf.nv, *fresh_of(cnf, variables)]), cnf.nv)

    def test_weights(self):
        for turn in range(120):
            lits = self.literals(5)
            weights = [self.draws.randint(-3, 6) for _ in lits]
            bound, name = self.draws.randint(-4, 14), self.draws.choice(list(RELATIONS))
            given = (lits, weights) if self.draws.random() < 0.5 else (list(zip(lits, weights)), None)
            conditionals = self.draws.choice([None, [], [7], [-7, 8]])
            cnf = getattr(PBEnc, name)(*given, bound, 8, encoding=self.draws.choice([PB.best, PB.bdd, PB.adder]), conditionals=conditionals)
            variables = [*map(abs, lits), 7, 8]

            def holds(true):
                value = sum(weight for literal, weight in zip(lits, weights) if literal in true)
                return not set(conditionals or ()) <= true or RELATIONS[name](value, bound)

            self.assertEqual(allowed(cnf.clauses, variables), due(variables, holds), (lits, weights, name, bound, conditionals))
            self.assertTrue(all(variable > 8 for variable in fresh_of(cnf, variables)))

    def test_other_names(self):
        self.assertEqual(PBEnc.leq([1, 2], [2, 3], 4).clauses, PBEnc.atmost([1, 2], [2, 3], 4).clauses)
        self.assertEqual(PBEnc.geq([1, 2], [2, 3], 4).clauses, PBEnc.atleast([1, 2], [2, 3], 4).clauses)
        self.assertRaises(ValueError, PBEnc.leq, [1, 2], [1], 1)

    def test_encodings_that_are_not_here(self):
        for encoder, kinds, others in ((CardEnc, CARD, ("sortnetwrk", "cardnetwrk", "bitwise", "mtotalizer", "kmtotalizer")),
                                       (PBEnc, PB, ("seqcounter", "sortnetwrk", "binmerge"))):
            for name in others:
                with self.assertWarnsRegex(UserWarning, "the default family is taken") as caught:
                    cnf = encoder.atmost([1, 2, 3], bound=1, encoding=getattr(kinds, name))
                self.assertEqual(caught.filename, __file__)
                self.assertEqual(len(allowed(cnf.clauses, [1, 2, 3])), 4)
                self.assertRaises(pbcnf.pysat.card.NoSuchEncodingError, encoder.atmost, [1, 2, 3], bound=1, encoding=getattr(kinds, name), strict=True)
            for number in (kinds.native, 77):
                self.assertRaises(pbcnf.pysat.card.NoSuchEncodingError, encoder.atmost, [1, 2, 3], bound=1, encoding=number)


class Pools(unittest.TestCase):
    def test_objects(self):
        pool = IDPool(start_from=5, occupied=[[6, 8], [10, 10]])
        self.assertEqual([pool.id("a"), pool.id("b"), pool.id("a"), pool.id(), pool.id(("c", 1))], [5, 9, 5, 11, 12])
        self.assertEqual((pool.obj(9), pool.obj(11), pool.top), ("b", None, 12))
        pool.occupy(13, 20)
        self.assertEqual((pool.id("d"), pool.top), (21, 21))
        pool.restart()
        self.assertEqual((pool.id("d"), pool.obj2id, pool.id2obj), (1, {"d": 1}, {1: "d"}))

    def hold(self, pool):
        lits = [pool.id(("x", number)) for number in range(5)]
        pool.occupy(pool.top + 3, pool.top + 6)
        taken, made = set(lits), []
        for cnf in (CardEnc.atmost(lits, 2, vpool=pool), PBEnc.geq(lits, [1, 2, 3, 4, 5], 7, vpool=pool), CardEnc.equals(lits, 3, vpool=pool)):
            fresh = fresh_of(cnf, lits)
            self.assertTrue(fresh and not fresh & taken and not fresh & {8, 9, 10, 11} and max(fresh) == cnf.nv <= pool.top)
            taken |= fresh
            made.append(cnf)
        self.assertGreater(pool.id("next"), max(taken))
        values = [number + 1 for number in range(5)]
        for cnf, holds in zip(made, (lambda n, w: n <= 2, lambda n, w: w >= 7, lambda n, w: n == 3)):
            self.assertEqual(allowed(cnf.clauses, lits), due(lits, lambda true: holds(
                sum(literal in true for literal in lits), sum(value for literal, value in zip(lits, values) if literal in true))))

    def test_fresh_variables_are_drawn(self):
        self.hold(IDPool())

    @unittest.skipUnless(pysat, "there is no pysat, of python-sat")
    def test_and_from_a_pool_of_pysat(self):
        self.hold(pysat.formula.IDPool())


class Totalizers(unittest.TestCase):
    def test_each_bound_is_an_assumption(self):
        for lits in ([1], [1, -2], [-1, 2, 3, -4], [2, 3, 5, 7, 8]):
            variables = [abs(literal) for literal in lits]
            with ITotalizer(lits, ubound=1, top_id=9) as totalizer:
                self.assertEqual(len(totalizer.rhs), min(2, len(lits)))
                self.assertEqual(totalizer.nof_new, len(totalizer.cnf.clauses))
                totalizer.increase(ubound=len(lits))
                self.assertEqual((totalizer.nof_new, len(totalizer.rhs)), (0, len(lits)))
                self.assertEqual(allowed(totalizer.cnf.clauses, variables), due(variables, lambda true: True))
                for bound, more in enumerate(totalizer.rhs):
                    self.assertEqual(allowed(totalizer.cnf.clauses, variables, [-more]),
                                     due(variables, lambda true: sum(literal in true for literal in lits) <= bound))
                fresh = fresh_of(totalizer.cnf, variables)
                self.assertTrue(all(variable > 9 for variable in fresh))
                self.assertEqual(max([9, *fresh]), totalizer.top_id)

    def test_without_literals(self):
        self.assertEqual((ITotalizer([], 1).rhs, ITotalizer([], 1).cnf.clauses), ([], []))

    def test_a_variable_stands_once(self):
        self.assertRaises(ValueError, ITotalizer, [1, 2, -1], 1)


class Formulas(unittest.TestCase):
    def test_clauses(self):
        self.assertEqual((CNF([[1, -5], []]).nv, CNF().nv), (5, 0))
        cnf = CNF([[1, -5], []], 6)
        cnf.extend([(2,), [-7, 1]])
        self.assertEqual((list(cnf), len(cnf), cnf.nv), ([[1, -5], [], [2], [-7, 1]], 4, 7))


@unittest.skipUnless(pysat, "there is no pysat, of python-sat")
class Beside(unittest.TestCase):
    """What PySAT's own encoders allow is the same."""

    def test_both(self):
        for lits, bound in itertools.product(([1, 2, 3, 4], [1, -2, 3]), range(4)):
            for name in RELATIONS:
                variables = [abs(literal) for literal in lits]
                theirs = getattr(pysat.card.CardEnc, name)(lits, bound)
                self.assertEqual(allowed(theirs.clauses, variables), allowed(getattr(CardEnc, name)(lits, bound).clauses, variables))


@unittest.skipUnless(pycryptosat, "there is no pycryptosat, of python3-cryptominisat")
class Optima(unittest.TestCase):
    """A program that lowers a bound by assumptions finds what brute force finds."""

    def least_cover(self, edges, last):
        """The fewest corners that touch all edges, and of whose weights no more than a given sum is chosen."""
        corners = list(range(1, last + 1))
        totalizer = ITotalizer(corners, ubound=last)
        weights = PBEnc.leq(corners, [corner % 3 + 1 for corner in corners], 2 * last - 3, top_id=totalizer.top_id)
        odd = CardEnc.atleast(corners[::2], 1, top_id=weights.nv)
        solver = pycryptosat.Solver()
        for clause in [*edges, *totalizer.cnf, *weights, *odd]:
            solver.add_clause(clause)
        bounds = [bound for bound, more in enumerate(totalizer.rhs) if solver.solve([-more])[0]]
        return min(bounds, default=None)

    def test_least_covers(self):
        draws = random.Random(5)
        for _ in range(20):
            last = draws.randint(3, 7)
            edges = [draws.sample(range(1, last + 1), 2) for _ in range(draws.randint(1, 9))]
            sizes = [sum(case) for case in itertools.product([0, 1], repeat=last)
                     if all(case[a - 1] or case[b - 1] for a, b in edges) and any(case[::2])
                     and sum(value * ((corner + 1) % 3 + 1) for corner, value in enumerate(case)) <= 2 * last - 3]
            found = self.least_cover(edges, last)
            self.assertEqual(found if found is not None else last, min(sizes, default=last))


def load_tests(loader, tests, pattern):
    for module in (pbcnf.pysat.card, pbcnf.pysat.formula, pbcnf.pysat.pb):
        tests.addTests(doctest.DocTestSuite(module))
    return tests


if __name__ == "__main__":
    unittest.main()
