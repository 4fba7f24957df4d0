#!/usr/bin/env python3
"""Tests pbcnf.model by brute force: constraints drawn over few variables allow just what Python's own arithmetic allows, and solvers
find the least value of an objective.

usage: modelling.py [-v]
"""

import doctest
import itertools
import operator
import os
import random
import sys
import unittest

import pbcnf
import pbcnf.model
from pbcnf.model import Model, total
from plain_solver import PlainSolver, TupleSolver, model_of

COMPARISONS = {"<=": operator.le, ">=": operator.ge, "==": operator.eq, "<": operator.lt, ">": operator.gt}


def fronts(model):
    """The values of the model's variables that its clauses allow."""
    clauses = list(model.encode())
    variables = range(1, len(model.names) + 1)
    cases = itertools.product(*((-variable, variable) for variable in variables))
    return {tuple(literal > 0 for literal in case) for case in cases if model_of(clauses, case) is not None}


class Drawn:
    """Constraints and objectives over some variables, with what they say of values."""

    def __init__(self, seed):
        self.random = random.Random(seed)

    def sum(self, variables):
        """A sum, and its value under given values."""
        made, parts = self.random.randint(-2, 2), []
        constant = made
        for _ in range(self.random.randint(0, 4)):
            place, factor, negated = self.random.randrange(len(variables)), self.random.randint(-3, 4), self.random.random() < 0.4
            literal = ~variables[place] if negated else variables[place]
            made = made + factor * literal if self.random.random() < 0.5 else factor * literal + made
            parts.append((place, factor, negated))
        return made, lambda values: constant + sum(factor * (values[place] != negated) for place, factor, negated in parts)

    def constraint(self, variables):
        """A constraint, and whether given values satisfy it."""
        name = self.random.choice(list(COMPARISONS))
        (left, of_left), (right, of_right) = self.sum(variables), self.sum(variables)
        made = COMPARISONS[name](left, right)
        conditions = [self.random.randrange(len(variables)) for _ in range(self.random.choice([0, 0, 1, 2]))]
        if conditions and not isinstance(made, bool):
            made = made.only_if(*(variables[place] for place in conditions))
        else:
            conditions = []
        return made, lambda values: not all(values[place] for place in conditions) or COMPARISONS[name](of_left(values), of_right(values))


class Models(unittest.TestCase):
    def test_clauses_are_those_of_the_constraints(self):
        draws = Drawn(3)
        for turn in range(150):
            model = Model()
            variables, holds = model.bools("v", 3) + [model.bool("rain")], []
            for _ in range(draws.random.randint(0, 3)):
                made, says = draws.constraint(variables)
                model += made
                holds.append(says)
            due = {values for values in itertools.product([False, True], repeat=4) if all(says(values) for says in holds)}
            self.assertEqual(fronts(model), due, model.opb())

    def hold_optimum(self, draws, solver):
        model = Model()
        variables = model.bools("v", 4)
        (first, says), (objective, value) = draws.constraint(variables), draws.sum(variables)
        model += first
        least = draws.random.random() < 0.5
        if isinstance(objective, int):
            objective = objective + 0 * variables[0]
        (model.minimize if least else model.maximize)(objective)
        found = model.solve(solver)
        values = [value(case) for case in itertools.product([False, True], repeat=4) if says(case)]
        self.assertEqual(found and found.objective, (min(values) if least else max(values)) if values else None, model.opb())
        if found:
            case = tuple(bool(found[variable]) for variable in variables)
            self.assertTrue(says(case) and value(case) == found.objective == found[objective])

    def test_optima_in_process(self):
        draws = Drawn(4)
        for turn in range(60):
            self.hold_optimum(draws, draws.random.choice([PlainSolver, TupleSolver])())

    def test_optima_by_a_command(self):
        draws = Drawn(5)
        command = [sys.executable, os.path.join(os.path.dirname(os.path.abspath(__file__)), "plain_solver.py")]
        for turn in range(6):
            self.hold_optimum(draws, command)

    def test_a_solution_without_an_objective(self):
        model = Model()
        rain, sun = model.bool("rain"), model.bool("sun")
        model += rain + sun == 1
        model += rain <= 0
        found = model.solve(PlainSolver())
        self.assertEqual((found[rain], found[sun], found[2 * sun - rain + 5], found.objective), (0, 1, 7, None))
        model += sun <= 0
        self.assertIsNone(model.solve(PlainSolver()))

    def test_a_solver_that_says_nothing_finds_nothing(self):
        model = Model()
        model += model.bool("rain") >= 1
        self.assertRaises(pbcnf.NoModel, model.solve, [sys.executable, "-c", "print('s UNKNOWN')"])
        self.assertRaises(OSError, model.solve, "no-such-solver")

    def test_options_are_handed_on(self):
        model = Model()
        model += total((place + 3) * literal for place, literal in enumerate(model.bools("v", 9))) <= 30
        self.assertNotEqual(model.encode(general="tree"), model.encode())
        self.assertRaises(TypeError, model.encode, sorter=1)
        self.assertRaises(pbcnf.Usage, model.solve, PlainSolver(), budget=0)


class Mistakes(unittest.TestCase):
    def setUp(self):
        self.model = Model()
        self.a, self.b = self.model.bool("a"), self.model.bool("b")

    def test_what_is_no_truth(self):
        for call in (lambda: bool(self.a), lambda: bool(self.a + 1), lambda: bool(self.a <= 1), lambda: self.a != self.b, lambda: 0 <= self.a <= 1,
                     lambda: self.a * self.b, lambda: self.a + 0.5, lambda: 1.5 * self.a, lambda: self.a == "a"):
            self.assertRaises(TypeError, call)

    def test_names(self):
        for name in ("a", "x1", "x007", "", "1a", "a b", "a.b", "a" * 256, "~a", "min:"):
            self.assertRaises(ValueError, self.model.bool, name)
        for name in ("x", "X1", "x1a", "_", "b[1]", "a-b^{c}", "a" * 255):
            self.assertEqual(repr(self.model.bool(name)), name)
            self.assertEqual(pbcnf.names("+1 %s >= 0 ;" % name), {1: name})

    def test_variables_of_another_model(self):
        other = Model().bool("c")
        for call in (lambda: self.model.__iadd__(self.a + other <= 1), lambda: self.model.minimize(other), lambda: self.model.__iadd__((self.a <= 0).only_if(other))):
            self.assertRaises(ValueError, call)

    def test_they_are_shown(self):
        self.assertEqual(repr(2 * ~self.a - self.b + 3), "+2 ~a -1 b +3")
        self.assertEqual(repr((self.a + 1 <= 2 * self.b).only_if(self.b, ~self.a)), "+1 a -2 b <= -1 if b, ~a")
        self.assertEqual(len({self.a, self.b, self.a}), 2)

    def test_numbers_alone(self):
        self.model += total([]) <= 3
        self.model += sum([]) <= 3
        self.assertEqual(len(fronts(self.model)), 4)
        self.model += sum([]) >= 3
        self.assertEqual(fronts(self.model), set())


def load_tests(loader, tests, pattern):
    tests.addTests(doctest.DocTestSuite(pbcnf.model))
    tests.addTests(doctest.DocTestSuite(pbcnf.expressions, extraglobs={"Model": pbcnf.model.Model}))
    return tests


if __name__ == "__main__":
    unittest.main()
