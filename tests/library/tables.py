#!/usr/bin/env python3
"""Tests pbcnf.Table by brute force: under what is assumed for a bound, just the values of a sum at most that are the fronts of models,
and unit propagation reaches all that the bound forces.

usage: tables.py [-v]
"""

import copy
import itertools
import pickle
import random
import unittest

import pbcnf
from plain_solver import PlainSolver, model_of


def values_of(variables):
    """All assignments of these variables, each as its true literals."""
    return itertools.product(*((-variable, variable) for variable in variables))


def value_of(terms, true):
    return sum(coefficient for coefficient, literal in terms if literal in true)


def reached(clauses, literals):
    """What unit propagation reaches from these literals, or None for a conflict."""
    true, more = set(), set(literals)
    while more:
        true |= more
        if any(-literal in true for literal in true):
            return None
        left = [[literal for literal in clause if -literal not in true] for clause in clauses if true.isdisjoint(clause)]
        if not all(left):
            return None
        more = {clause[0] for clause in left if len(clause) == 1}
    return true


def drawn(seed):
    """Terms over a few variables, some of which may occur several times, and how many variables there are."""
    draw = random.Random(seed)
    variables = draw.randint(1, 4)
    weight = draw.choice([1, 3, 9, 1 << 70])
    terms = []
    for _ in range(draw.randint(0, 5)):
        terms.append((draw.randint(-weight, weight), draw.choice((-1, 1)) * draw.randint(1, variables)))
    return terms, variables


class Bounds(unittest.TestCase):
    def bounds_of(self, table):
        """Each value that a row has, those next to it, and those outside."""
        edges = {table.least, table.greatest, *(value for value, _ in table.rows)}
        return sorted({edge + step for edge in edges for step in (-1, 0, 1)})

    def test_models_are_just_the_values_at_most_the_bound(self):
        for seed in range(150):
            terms, variables = drawn(seed)
            table = pbcnf.Table(terms, first=variables + 1)
            sums = {true: value_of(terms, true) for true in values_of(range(1, variables + 1))}
            self.assertEqual((table.least, table.greatest), (min(sums.values()), max(sums.values())))
            for true, value in sums.items():
                self.assertIsNotNone(model_of(table, true))
                for bound in self.bounds_of(table):
                    found = model_of(table, [*true, *table.assume(bound)])
                    self.assertEqual(found is not None, value <= bound, (terms, true, bound))

    def test_propagation_reaches_what_a_bound_forces(self):
        for seed in range(60):
            terms, variables = drawn(seed)
            table = pbcnf.Table(terms, first=variables + 1)
            sums = {true: value_of(terms, true) for true in values_of(range(1, variables + 1))}
            for bound in self.bounds_of(table):
                for partial in itertools.product(*((-variable, 0, variable) for variable in range(1, variables + 1))):
                    given = {literal for literal in partial if literal}
                    left = [set(true) for true, value in sums.items() if value <= bound and given.issubset(true)]
                    found = reached(table, [*given, *table.assume(bound)])
                    if left:
                        self.assertTrue(found is not None and set.intersection(*left) <= found, (terms, given, bound))
                    else:
                        self.assertIsNone(found, (terms, given, bound))

    def test_one_literal_is_assumed(self):
        table = pbcnf.Table([(3, 1), (5, -2), (-4, 3)], first=9)
        self.assertEqual({len(table.assume(bound)) for bound in range(table.least, table.greatest)}, {1})
        self.assertEqual((table.assume(table.greatest), table.assume(table.greatest + 100)), ([], []))
        self.assertEqual(len(table.assume(table.least - 1)), 2)

    def test_a_bound_comes_down_to_the_least_value(self):
        costs, solver = [(4, 1), (3, 2), (6, 3), (2, 4)], PlainSolver()
        table = pbcnf.Table(costs, first=5)
        covers = pbcnf.constraints([([(1, 1), (1, 2)], ">=", 1), ([(1, 2), (1, 3), (1, 4)], ">=", 2)], first=table.next_free)
        for clause in [*table, *covers]:
            solver.add_clause(clause)
        found, bound = [], table.greatest
        while (model := model_of(solver.clauses, table.assume(bound))) is not None:
            found.append(value_of(costs, model))
            bound = found[-1] - 1
        self.assertEqual((found, found[-1]), (sorted(found, reverse=True), 5))


class Tables(unittest.TestCase):
    def test_fresh_variables_begin_where_they_are_to(self):
        table = pbcnf.Table([(1, 1), (1, 2), (2, 3)], first=100)
        fresh = {abs(literal) for clause in table for literal in clause} - {1, 2, 3}
        self.assertEqual((min(fresh), max(fresh), table.variables, table.next_free, table.original), (100, table.variables, max(fresh), max(fresh) + 1, 99))

    def test_they_are_the_rows_and_clauses_of_an_objective(self):
        opb = "min: +3 x1 +2 x2 -2 ~x3 ;"
        table = pbcnf.Table([(3, 1), (2, 2), (-2, -3)], first=4)
        self.assertEqual(table, pbcnf.encode(opb, table=True))
        self.assertEqual(table.rows, pbcnf.bounds(opb))

    def test_sums_that_are_one_value(self):
        for terms in ([], [(0, 1)], [(7, 2), (7, -2), (-7, 2), (-7, -2)]):
            table = pbcnf.Table(iter(terms), first=3)
            self.assertEqual((table.rows, table.least, table.greatest, list(table)), ([], 0, 0, []))
            self.assertEqual((table.assume(0), sorted(map(abs, table.assume(-1)))[0]), ([], max(1, abs(terms[0][1]) if terms else 1)))
            self.assertEqual(sum(table.assume(-1)), 0)
        self.assertEqual(pbcnf.Table([], first=1).variables, 0)

    def test_copies(self):
        table = pbcnf.Table([(3, 1), (2, 2)], first=3)
        for copied in (copy.deepcopy(table), pickle.loads(pickle.dumps(table))):
            self.assertEqual((copied, copied.rows, copied.assume(3)), (table, table.rows, table.assume(3)))

    def test_what_is_refused(self):
        for terms, first, words in (([(1, 4)], 4, "term 1 is 4, and not of a variable from 1 to 3"), ([(1, 1), (1, 0)], 4, "term 2 is 0"),
                                    ([], 0, "first fresh variable is 0"), ([(1, 1)], (1 << 31) + 1, "first fresh variable")):
            self.assertRaisesRegex(pbcnf.Usage, words, pbcnf.Table, terms, first=first)
        self.assertRaisesRegex(pbcnf.Usage, "budget is 0", pbcnf.Table, [], first=1, budget=0)
        doubles = [(1 << var, var) for var in range(1, 20)]
        for terms, budget, limit in ((doubles, 50_000, "bounds"), ([(1 << 100, 1)], 50_000, "weight"), ([(1 << 126, 1)], 50_000, "weight")):
            with self.assertRaises(pbcnf.LimitPassed) as caught:
                pbcnf.Table(terms, first=20, budget=budget)
            error = caught.exception
            self.assertEqual((error.limit, error.file, error.line, error.column), (limit, None, None, None))
        for terms in ([(1.5, 1)], [("1", 1)], [(1, "x1")]):
            self.assertRaises(TypeError, pbcnf.Table, terms, first=3)


if __name__ == "__main__":
    unittest.main()
