#!/usr/bin/env python3
"""Tests what the Python module takes as a text, a number, a literal or an option, and what it says to values that are none.

It looks for the library as a user's program would. usage: values.py [-v]
"""

import array
import mmap
import re
import tempfile
import unittest

import pbcnf

try:
    import numpy
except ImportError:
    numpy = None

OPB = "min: +3 x1 -2 x2 ;\n+1 x1 +1 x2 >= 1 ;\n"
UNSATISFIABLE = b"s UNSATISFIABLE\n"


class Whole:
    """A whole number by `__index__` alone, as those of other libraries are."""

    def __init__(self, value):
        self.value = value

    def __index__(self):
        return self.value


class Cases(unittest.TestCase):
    def raises(self, kind, call, *given, **chosen):
        with self.assertRaises(kind) as caught:
            call(*given, **chosen)
        return caught.exception


class Texts(Cases):
    def test_bytes_of_any_kind(self):
        due = pbcnf.encode(OPB)
        for kind in (str.encode, lambda text: bytearray(text.encode()), lambda text: memoryview(text.encode()),
                     lambda text: memoryview(b"12" + text.encode())[2:], lambda text: array.array("B", text.encode())):
            self.assertEqual(pbcnf.encode(kind(OPB)), due)

    def test_a_solver_says_so_in_bytes_of_any_kind(self):
        for kind in (bytes.decode, bytes, bytearray, memoryview, lambda text: array.array("B", text)):
            self.raises(pbcnf.NoModel, pbcnf.decode, "+1 x1 >= 0 ;", kind(UNSATISFIABLE))

    def test_a_file_in_memory(self):
        with tempfile.TemporaryFile() as file:
            file.write(UNSATISFIABLE)
            file.flush()
            with mmap.mmap(file.fileno(), 0) as text:
                self.raises(pbcnf.NoModel, pbcnf.decode, "+1 x1 >= 0 ;", text)

    def test_what_is_no_text(self):
        for value in (5, 0, False, None, [], [43, 49], {}, object(), array.array("i", [43]), open):
            self.raises(TypeError, pbcnf.encode, value)
            self.raises(TypeError, pbcnf.names, value)
            self.raises(TypeError, pbcnf.check, OPB, "", value)


class Literals(Cases):
    def test_models_of_any_kind(self):
        for model in ([1, -2], (0, -2, 0, 1, 0), {1, -2}, iter([1, -2]), range(1, 2), array.array("i", [1, -2]), array.array("b", [1, -2]),
                      [Whole(1), Whole(-2)], [1, 900]):
            self.assertEqual(pbcnf.decode(OPB, model).text, "o 3\ns SATISFIABLE\nv x1 -x2\n", model)

    def test_what_is_no_literal(self):
        for model in ({1: False}, ["-1"], ["1 0\ns UNSATISFIABLE\nv -1"], [1.0], [True, False], [None], 5, None):
            self.raises(TypeError, pbcnf.decode, OPB, model)

    def test_literals_that_no_model_has(self):
        self.assertEqual(str(self.raises(pbcnf.Usage, pbcnf.decode, OPB, [1, 2, -1])), "pbcnf: usage: the model has both 1 and -1")
        self.assertEqual(str(self.raises(pbcnf.Usage, pbcnf.decode, OPB, [1 << 31])), "pbcnf: usage: no variable has the literal 2147483648")


class Numbers(Cases):
    ONE = [(1, 1), (2, 2)]

    def test_whole_numbers_of_other_libraries(self):
        kinds = [Whole] + ([numpy.int64, numpy.int32] if numpy else [])
        due = pbcnf.constraint(self.ONE, ">=", 2, first=3, budget=9)
        for kind in kinds:
            terms = [(kind(coefficient), kind(literal)) for coefficient, literal in self.ONE]
            self.assertEqual(pbcnf.constraint(terms, ">=", kind(2), first=kind(3), budget=kind(9)), due)
            self.assertEqual(pbcnf.constraints(iter([(iter(terms), ">=", kind(2))]), first=kind(3), budget=kind(9)), due)
            self.assertEqual(pbcnf.encode(OPB, at_most=kind(0)), pbcnf.encode(OPB, at_most=0))
            self.assertEqual(pbcnf.decode(OPB, [kind(2)]), pbcnf.decode(OPB, [2]))

    def test_numbers_of_128_bits(self):
        wide = pbcnf.constraint([(1 << 70, 1), (Whole(1 << 70), 2)], ">=", 1 << 70, first=3)
        self.assertEqual(wide.clauses, [[1, 2]])
        self.assertEqual(self.raises(pbcnf.LimitPassed, pbcnf.constraint, [(1 << 126, 1)], ">=", 1, first=3).limit, "weight")
        for call in (lambda: pbcnf.constraint([(1 << 127, 1)], ">=", 1, first=3), lambda: pbcnf.constraint([(1, 1)], ">=", 1 << 127, first=3),
                     lambda: pbcnf.encode(OPB, at_most=1 << 200), lambda: pbcnf.constraints([([(1 << 127, 1)], ">=", 1)], first=3)):
            self.assertIn("does not fit in 128 bits", str(self.raises(pbcnf.Usage, call)))
        error = self.raises(pbcnf.Usage, pbcnf.constraints, [([], ">=", 0), ([(1, 1)], ">=", -1 << 128)], first=3)
        self.assertEqual(str(error), "pbcnf: usage: the right side of constraint 2 does not fit in 128 bits")

    def test_what_is_no_whole_number(self):
        for call in (lambda: pbcnf.constraint([(1.0, 1)], ">=", 1, first=2), lambda: pbcnf.constraint([(1, "1")], ">=", 1, first=2),
                     lambda: pbcnf.constraint([(1, 1)], ">=", 1.0, first=2), lambda: pbcnf.constraint([(1, 1)], ">=", 1, first=None),
                     lambda: pbcnf.encode(OPB, at_most="3"), lambda: pbcnf.encode(OPB, budget=1e3),
                     lambda: pbcnf.constraints([([(1.0, 1)], ">=", 1)], first=2), lambda: pbcnf.constraints([([(1, "1")], ">=", 1)], first=2),
                     lambda: pbcnf.constraints([([(1, 1)], ">=", None)], first=2), lambda: pbcnf.constraints([([(1, 1)], ">=", 1)], first="2"),
                     lambda: pbcnf.constraints([None], first=2)):
            self.raises(TypeError, call)

    def test_usage_says_which_number(self):
        for due, terms, first, chosen in (
                ("the literal of term 2 is 0, and not of a variable from 1 to 8", [(1, 1), (1, 0)], 9, {}),
                ("the literal of term 1 is -9, and not of a variable from 1 to 8", [(1, -9)], 9, {}),
                ("the literal of term 1 is 1099511627776, and not of a variable from 1 to 8", [(1, 1 << 40)], 9, {}),
                ("the first fresh variable is 0, and not from 1 to 2147483648", [(1, 1)], 0, {}),
                ("the first fresh variable is -1, and not from 1 to 2147483648", [(1, 1)], -1, {}),
                ("the first fresh variable is 2147483649, and not from 1 to 2147483648", [(1, 1)], (1 << 31) + 1, {}),
                ("the budget is 0, and not from 1 to 10000000", [(1, 0)], 0, {"budget": Whole(0)}),
                ("the literal of term 1 is 9, and not of a variable from 1 to 8", [(1, Whole(9))], Whole(9), {}),
                ("general is one of diagram, tree, adder, and not 'sorter'", [(1, 1)], 9, {"general": "sorter"})):
            for call in (pbcnf.constraint, pbcnf.derive_constraint):
                error = self.raises(pbcnf.Usage, call, terms, ">=", 1, first=first, **chosen)
                self.assertEqual((str(error), error.status), ("pbcnf: usage: " + due, 2))
            for call in (pbcnf.constraints, pbcnf.derive_constraints):
                error = self.raises(pbcnf.Usage, call, [([], "=", 0), (terms, ">=", 1)], first=first, **chosen)
                self.assertEqual(str(error), "pbcnf: usage: " + re.sub(r"(term \d)", r"\1 of constraint 2", due))
        self.assertIn("relation", str(self.raises(pbcnf.Usage, pbcnf.constraint, [(1, 1)], ">", 1, first=2)))

    def test_no_budget_is_cut(self):
        for budget in (0, -1, 10000001, 1 << 32, (1 << 32) + 5, -(1 << 32) + 5, 1 << 64):
            for call, given in ((pbcnf.encode, {"opb": "+1 x1 >="}), (pbcnf.constraint, {"terms": [], "relation": ">=", "right": 1, "first": 1})):
                error = self.raises(ValueError, call, **given, budget=budget)
                self.assertEqual(str(error), "pbcnf: usage: the budget is %d, and not from 1 to 10000000" % budget)


class Options(Cases):
    def test_stray_options(self):
        one = [(1, 1)], ">=", 1
        for call, given in ((pbcnf.encode, [OPB]), (pbcnf.bounds, [OPB]), (pbcnf.wcnf, [OPB])):
            self.raises(TypeError, call, *given, sorter=1)
        for call in (pbcnf.constraint, pbcnf.derive_constraint):
            self.raises(TypeError, call, *one, first=2, table=True)
        for call in (pbcnf.constraints, pbcnf.derive_constraints):
            self.raises(TypeError, call, [one], first=2, table=True)
        for call in (pbcnf.bounds, pbcnf.wcnf):
            self.raises(TypeError, call, OPB, table=False)


if __name__ == "__main__":
    unittest.main()
