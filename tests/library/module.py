#!/usr/bin/env python3
"""Tests what the Python module itself does: its classes, its exceptions, and what it says to values that are none.

It looks for the library as a user's program would. usage: module.py [-v]
"""

import concurrent.futures
import copy
import doctest
import os
import pickle
import random
import subprocess
import sys
import unittest

import pbcnf
from pbcnf import _native
from pbcnf.conditions import conditioned

OPB = "min: +3 rain -2 sun ;\n+2 rain +1 sun +1 x1 x2 >= 2 ;\n+1 rain +1 x1 = 1 ;\n"


class Encodings(unittest.TestCase):
    def test_clauses(self):
        encoding = pbcnf.encode("+2 x1 +1 x2 +1 x3 >= 3 ;", general="tree")
        self.assertEqual(encoding.clauses, [[1], [2, 3]])
        self.assertEqual((encoding.variables, encoding.original, encoding.next_free), (3, 3, 4))
        self.assertEqual(list(encoding.integers), [1, 0, 2, 3, 0])

    def test_bytes_are_a_text(self):
        self.assertEqual(pbcnf.encode(OPB.encode()), pbcnf.encode(OPB))

    def test_a_sequence_of_clauses(self):
        encoding = pbcnf.encode(" ".join("+%d x%d" % (n % 7 + 1, n) for n in range(1, 121)) + " >= 200 ;")
        integers, clauses = list(encoding.integers), []
        self.assertGreater(len(integers), 30000)
        while integers:
            end = integers.index(0)
            clauses.append(integers[:end])
            del integers[:end + 1]
        self.assertEqual((list(encoding), len(encoding), len(encoding.clauses)), (clauses, len(clauses), len(clauses)))
        self.assertEqual((encoding.clauses, encoding.clauses[:]), (clauses, clauses))
        self.assertEqual((encoding.clauses[0], encoding.clauses[-1], encoding.clauses[5:9:2]), (clauses[0], clauses[-1], clauses[5:9:2]))
        self.assertTrue(clauses[7] in encoding.clauses and [0] not in encoding.clauses)
        self.assertRaises(IndexError, encoding.clauses.__getitem__, len(clauses))
        self.assertNotEqual(encoding.clauses, clauses[1:])

    def test_what_is_frozen_is(self):
        encoding = pbcnf.encode("+1 x1 >= 1 ;")
        for change in (lambda: encoding.clauses.append([99]), lambda: encoding.integers.__setitem__(0, 77), lambda: setattr(encoding, "variables", 5)):
            self.assertRaises((AttributeError, TypeError), change)
        encoding.clauses[0].append(99)
        self.assertEqual((encoding.clauses, list(encoding.integers)), ([[1]], [1, 0]))
        same, other = pbcnf.encode("+1 x1 >= 1 ;"), pbcnf.encode("+1 x2 >= 1 ;")
        self.assertEqual((encoding, hash(encoding)), (same, hash(same)))
        self.assertNotEqual(encoding, other)
        for copied in (copy.copy(encoding), copy.deepcopy(encoding), pickle.loads(pickle.dumps(encoding))):
            self.assertEqual((copied, list(copied)), (encoding, [[1]]))

    def test_it_is_shown_in_short(self):
        self.assertEqual(repr(pbcnf.encode("+1 x1 >= 1 ;" * 1000)), "<Encoding: 1 of 1 variables, 1000 clauses>")

    def test_an_empty_clause(self):
        self.assertEqual(pbcnf.encode("+1 x1 >= 2 ;").clauses, [[]])
        self.assertEqual(pbcnf.encode("").clauses, [])

    def test_a_bound_is_one_more_statement(self):
        self.assertEqual(pbcnf.encode(OPB, at_most=-1), pbcnf.encode(OPB + "+3 rain -2 sun <= -1 ;\n"))

    def test_a_room_that_has_to_grow(self):
        text = " ".join("+%d x%d" % (3 * n % 101 + 1, n) for n in range(1, 41)) + " >= 900 ;"
        self.assertGreater(len(pbcnf.encode(text).integers), 2 * len(text) + 1024)
        terms = [(3 * n % 101 + 1, n) for n in range(1, 41)]
        self.assertEqual(pbcnf.constraint(terms, ">=", 900, first=41).integers, pbcnf.encode(text).integers)

    def test_results_are_their_own_where_a_room_is_used_again(self):
        made = []
        for bound in (1, 30, 7, 60, 2):
            terms = [(n % 9 + 1, n) for n in range(1, 31)]
            encoding = pbcnf.constraint(terms, "<=", bound, first=31)
            rows = pbcnf.bounds("min: +%d x1 -2 x2 ;" % bound)
            text = pbcnf.dimacs("+1 x%d >= 1 ;" % bound)
            made.append((encoding, encoding.integers.tolist(), rows, list(rows), text, "p cnf %d 1\n%d 0\n" % (bound, bound)))
        for encoding, integers, rows, copied, text, due in made:
            self.assertEqual((encoding.integers.tolist(), rows, text), (integers, copied, due))
        self.assertEqual(len({tuple(integers) for _, integers, *_ in made}), len(made))

    def test_many_constraints(self):
        draws = random.Random(5)
        relations = (">=", "<=", "=")
        for count in (0, 1, 2, 40):
            asked = []
            for _ in range(count):
                terms = [(draws.randint(-9, 9) << draws.choice((0, 0, 0, 70)), draws.choice((1, -1)) * draws.randint(1, 9)) for _ in range(draws.randint(0, 6))]
                asked.append((terms, draws.choice(relations), draws.randint(-9, 9)))
            chosen = {"equal": draws.choice(("split", "joint")), "budget": 1000}
            whole, first, clauses = pbcnf.constraints(asked, first=10, **chosen), 10, []
            for terms, relation, right in asked:
                one = pbcnf.constraint(terms, relation, right, first=first, **chosen)
                first, clauses = one.next_free, clauses + list(one)
            self.assertEqual((whole.clauses, whole.original, whole.next_free), (clauses, 9, first))
            text = "* #variable= 9 #constraint= %d\n" % count
            for terms, relation, right in asked:
                text += "%s %s %d ;\n" % (" ".join("%+d %sx%d" % (c, "~" * (l < 0), abs(l)) for c, l in terms), relation, right)
            self.assertEqual(pbcnf.derive_constraints(asked, first=10, **chosen), pbcnf.derive(text, **chosen))

    def test_conditions(self):
        draws = random.Random(6)
        for _ in range(60):
            asked, statements = [], []
            for _ in range(draws.randint(0, 3)):
                terms = [(draws.randint(-4, 4), draws.choice((1, -1)) * draws.randint(1, 5)) for _ in range(draws.randint(0, 4))]
                relation, right, condition = draws.choice((">=", "<=", "=")), draws.randint(-4, 6), draws.choice((0, 1, -1, 5))
                asked.append((terms, relation, right, condition) if condition or draws.randint(0, 1) else (terms, relation, right))
                for left, turned, bound in conditioned(terms, relation, right, [condition] if condition else []):
                    statements.append("%s %s %d ;\n" % (" ".join("%+d %sx%d" % (c, "~" * (l < 0), abs(l)) for c, l in left), turned, bound))
            text = "* #variable= 5 #constraint= %d\n%s" % (len(statements), "".join(statements))
            self.assertEqual(list(pbcnf.constraints(asked, first=6)), list(pbcnf.encode(text)))

    def test_one_constraint(self):
        one = pbcnf.constraint([(1, 1), (1, -2), (1, 3)], "<=", 1, first=10)
        self.assertEqual((one.clauses, one.original, one.next_free), ([[-1, 2], [-1, -3], [2, -3]], 9, 10))
        proof = pbcnf.derive_constraint([(1, 1), (1, -2), (1, 3)], "<=", 1, first=10)
        self.assertEqual(proof, pbcnf.derive("* #variable= 9\n+1 x1 +1 ~x2 +1 x3 <= 1 ;"))

    def test_bounds(self):
        self.assertEqual(pbcnf.bounds(OPB), [(0, 9), (1, 10), (3, 11)])
        self.assertEqual(pbcnf.encode(OPB, table=True).variables, 11)
        self.assertEqual(pbcnf.bounds("+1 x1 >= 1 ;"), [])
        self.assertEqual(pbcnf.bounds("min: -%d x1 -1 x2 ;" % (1 << 70)), [(-(1 << 70), 3), (-1, 4), (0, 5)])


class Models(unittest.TestCase):
    def test_softs(self):
        self.assertEqual(pbcnf.softs("min: +3 x1 -2 x2 +1 x1 x3 ;"), (-2, [(3, -1), (2, 2), (1, -4)]))
        self.assertEqual((pbcnf.softs("+1 x1 >= 1 ;"), pbcnf.softs(b"min: +1 x1 -1 x1 ;")), ((0, []), (0, [])))
        self.assertEqual(pbcnf.softs("min: -%d x1 ;" % (1 << 70), at_most=0), (-(1 << 70), [(1 << 70, 1)]))
        offset, rows = pbcnf.softs("min: %s ;" % " ".join("+%d x%d" % (n, n) for n in range(1, 200)))
        self.assertEqual((offset, sorted(rows)), (0, [(n, -n) for n in range(1, 200)]))
        self.assertRaises(pbcnf.Refused, pbcnf.softs, "min: +1 x1")
        self.assertRaises(pbcnf.LimitPassed, pbcnf.softs, "min: +1 x1 ;", at_most=1 << 101)

    def test_literals_or_a_text(self):
        solution = pbcnf.decode(OPB, [-1, -2, 3, 4])
        self.assertEqual(solution, pbcnf.decode(OPB, "s SATISFIABLE\nv -1 -2 3 4 0\n"))
        self.assertEqual(solution.text, "o 1\ns SATISFIABLE\nv -x1 -x2 rain sun\n")
        self.assertEqual((solution.objective, solution.values), (1, {"x1": False, "x2": False, "rain": True, "sun": True}))
        self.assertIsNone(pbcnf.decode("+1 x1 >= 1 ;", [1]).objective)

    def test_names(self):
        self.assertEqual(pbcnf.names(OPB), {3: "rain", 4: "sun"})


class Judgements(unittest.TestCase):
    UNSOLVED = "+1 x1 >= 1 ;\n+1 ~x1 >= 1 ;\n"

    def setUp(self):
        self.texts = self.UNSOLVED, pbcnf.dimacs(self.UNSOLVED), pbcnf.derive(self.UNSOLVED)

    def test_derivations(self):
        self.assertIsNone(pbcnf.check(*self.texts))
        with self.assertRaises(pbcnf.Rejected) as caught:
            pbcnf.check(self.UNSOLVED, "p cnf 1 2\n1 0\n1 0\n", self.texts[2])
        told = caught.exception
        self.assertEqual((str(told), told.line, told.reason), ("pbcnf: PROOF line 6: not implied by 4", 6, "not implied by 4"))
        with self.assertRaises(pbcnf.Refused) as caught:
            pbcnf.check(*self.texts[:2], "")
        self.assertEqual((caught.exception.file, caught.exception.line, caught.exception.column), ("PROOF", 1, 1))

    def test_refutations(self):
        self.assertIsNone(pbcnf.refute(*self.texts, "3 0 1 2 0\n"))
        with self.assertRaises(pbcnf.NotRefuted) as caught:
            pbcnf.refute(*self.texts, "")
        self.assertEqual((str(caught.exception), caught.exception.status), ("pbcnf: LRAT line 1: no empty clause", 10))

    def test_weights(self):
        self.assertEqual(pbcnf.wcnf("min: +3 x1 -2 x2 ;\n+1 x1 +1 x2 >= 1 ;\n"), "c offset -2\nh 1 2 0\n3 -1 0\n2 2 0\n")


class Faults(unittest.TestCase):
    def raised(self, kind, call, *given, **chosen):
        with self.assertRaises(kind) as caught:
            call(*given, **chosen)
        return caught.exception

    def test_the_constraint_to_blame(self):
        good, bad = ([(2, 1), (3, -2)], ">=", 3), ([(1, 1), (1, 7)], "<=", 1)
        self.assertEqual(str(self.raised(pbcnf.Usage, pbcnf.constraints, [good, good, bad], first=7)),
                         "pbcnf: usage: the literal of term 2 of constraint 3 is 7, and not of a variable from 1 to 6")
        self.assertEqual(str(self.raised(pbcnf.Usage, pbcnf.constraints, [good, ([], "<", 1)], first=7)),
                         "pbcnf: usage: the relation of constraint 2 is '<', and not one of >=, <= and =")
        for condition in (7, -7, 1 << 31, -(1 << 31), 1 << 200):
            self.assertEqual(str(self.raised(pbcnf.Usage, pbcnf.constraints, [good, (*good, condition), bad], first=7)),
                             "pbcnf: usage: the condition of constraint 2 is %d, and not of a variable from 1 to 6" % condition)
        error = self.raised(pbcnf.LimitPassed, pbcnf.constraints, [good, ([(2**101, 1)], ">=", 1), good], first=7)
        self.assertEqual((error.limit, error.constraint, error.line, str(error)), ("weight", 2, None, "pbcnf: constraint 2: limit weight"))
        self.assertEqual(pickle.loads(pickle.dumps(error)).constraint, 2)
        for first, chosen in ((0, {}), (7, {"budget": 0})):
            self.raised(pbcnf.Usage, pbcnf.constraints, [good], first=first, **chosen)

    def test_places(self):
        error = self.raised(pbcnf.Refused, pbcnf.encode, "+1 x1 >= ;")
        self.assertEqual((error.file, error.line, error.column, error.expected), ("OPB", 1, 10, "an integer"))
        self.assertEqual((str(error), error.status), ("pbcnf: OPB 1:10: expected an integer", 1))
        self.assertIsInstance(error, pbcnf.Error)

    def test_limits(self):
        error = self.raised(pbcnf.LimitPassed, pbcnf.encode, "+1 x2147483648 >= 1 ;")
        self.assertEqual((error.limit, error.file, error.line, error.column), ("variables", "OPB", 1, 4))

    def test_models(self):
        self.assertEqual(self.raised(pbcnf.NotASolution, pbcnf.decode, OPB, []).statement, 1)
        self.assertEqual(self.raised(pbcnf.NotASolution, pbcnf.decode, OPB, [3, 4], at_most=0).statement, 3)
        self.assertEqual(self.raised(pbcnf.NoModel, pbcnf.decode, OPB, "s UNSATISFIABLE\n").status, 9)

    def test_they_are_copied_and_pickled(self):
        for call in (lambda: pbcnf.encode("+1 x1 >= ;"), lambda: pbcnf.encode("+1 x2147483648 >= 1 ;"), lambda: pbcnf.encode("", budget=0),
                     lambda: pbcnf.decode(OPB, []), lambda: pbcnf.decode(OPB, "s UNSATISFIABLE\n"), lambda: pbcnf.check("", "", ""),
                     lambda: pbcnf.check("", "p cnf 0 0\n", "pbcnf proof 1\nend\n")):
            error = self.raised(pbcnf.Error, call)
            for made in (copy.copy(error), copy.deepcopy(error), pickle.loads(pickle.dumps(error))):
                self.assertEqual((type(made), str(made), made.status, vars(made)), (type(error), str(error), error.status, vars(error)))

    def test_a_pool_of_processes_hands_them_on(self):
        with concurrent.futures.ProcessPoolExecutor(1) as pool:
            self.assertEqual(pool.submit(pbcnf.encode, "+1 x1 >= ;").exception().column, 10)
            self.assertEqual(pool.submit(pbcnf.encode, OPB).result(), pbcnf.encode(OPB))


class Libraries(unittest.TestCase):
    def loaded(self, place):
        """What a program says that takes the library from there."""
        words = "import pbcnf\ntry:\n    pbcnf.encode('')\nexcept pbcnf.NoLibrary as error:\n    print(isinstance(error, OSError), error)"
        return subprocess.run([sys.executable, "-c", words], env={**os.environ, "PBCNF_LIBRARY": place}, stdout=subprocess.PIPE, text=True, check=True).stdout

    def test_there_is_none(self):
        self.assertRegex(self.loaded("/no/such/library"), "^True pbcnf: the C library was not found: /no/such/library: ")

    def test_another_library(self):
        self.assertRegex(self.loaded("libm.so.6"), "^True pbcnf: the library libm.so.6 is of another version: .*pbcnf_abi")

    def test_another_interface(self):
        class Other:
            @staticmethod
            def pbcnf_abi():
                return _native.ABI + 1

        self.assertIsNone(_native._judge_interface(_native.library()))
        self.assertRaisesRegex(pbcnf.NoLibrary, "has the interface 2, and this module 1", _native._judge_interface, Other())


class Threads(unittest.TestCase):
    def test_several_at_once(self):
        due = pbcnf.encode(OPB)
        with concurrent.futures.ThreadPoolExecutor(4) as pool:
            self.assertTrue(all(encoding == due for encoding in pool.map(pbcnf.encode, [OPB] * 400)))


def load_tests(loader, tests, pattern):
    for module in (pbcnf, pbcnf.errors, pbcnf.results, pbcnf.tables):
        tests.addTests(doctest.DocTestSuite(module, extraglobs={"pbcnf": pbcnf}))
    return tests


if __name__ == "__main__":
    unittest.main()
