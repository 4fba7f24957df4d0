#!/usr/bin/env python3
"""Tests what the Python module makes of its arguments and of the library's answers at their edges: long texts, other letters than
ASCII's, a limit that has no place, and out of memory.

It looks for the library as a user's program would. usage: edges.py [-v]
"""

import resource
import unittest

import pbcnf


def chain(count):
    """A problem of the clauses `k k+1`."""
    return "".join("+1 x%d +1 x%d >= 1 ;\n" % (k, k + 1) for k in range(1, count + 1))


def pairs(count):
    """A problem of statements, each that at most one of the 40 variables of its own is true, and the integers of all their pairs."""
    groups = [range(10000001 + 40 * k, 10000041 + 40 * k) for k in range(count)]
    opb = "".join("%s >= -1 ;\n" % " ".join("-1 x%d" % var for var in group) for group in groups)
    integers = [number for group in groups for i in group for j in range(i + 1, group.stop) for number in (-i, -j, 0)]
    return opb, integers


def raised(kind, call, *given, **chosen):
    """The exception of this kind that the call raises."""
    try:
        call(*given, **chosen)
    except kind as error:
        return error
    raise AssertionError("%s is not raised" % kind.__name__)


class Texts(unittest.TestCase):
    def test_long_ones_are_whole(self):
        count = 100000
        cnf = "p cnf %d %d\n" % (count + 1, count) + "".join("%d %d 0\n" % (k, k + 1) for k in range(1, count + 1))
        self.assertGreater(len(cnf), 1 << 20)
        self.assertTrue(pbcnf.dimacs(chain(count)) == cnf)

    def test_what_is_much_longer_than_its_text_is_whole(self):
        # The room that is tried first is of more than a million integers, and too small.
        opb, integers = pairs(1200)
        self.assertGreater(2 * len(opb), 1 << 20)
        self.assertGreater(len(integers), 4 * len(opb))
        self.assertTrue(list(pbcnf.encode(opb, amo="pairwise").integers) == integers)

    def test_letters_are_those_of_utf8(self):
        self.assertEqual(pbcnf.encode("* \u2602 gr\u00fcn\n+1 x1 >= 1 ;").clauses, [[1]])
        self.assertEqual(raised(pbcnf.Refused, pbcnf.encode, "+1 gr\u00fcn >= 1 ;").column, 4)

    def test_names_keep_their_last_sign(self):
        self.assertEqual(pbcnf.decode("+1 a- +1 b >= 1 ;", [1]).values, {"a-": True, "b": False})


class Limits(unittest.TestCase):
    def test_a_limit_without_a_text_or_a_place_has_none(self):
        error = raised(pbcnf.LimitPassed, pbcnf.encode, "min: +1 x1 +2 x2 +4 x3 ;", table=True, budget=2)
        self.assertEqual((error.limit, error.file, error.line, error.column), ("bounds", None, None, None))


class Memory(unittest.TestCase):
    def test_want_of_memory_is_told(self):
        opb = chain(200000).encode()
        cnf, proof = pbcnf.dimacs(opb).encode(), pbcnf.derive(opb).encode()
        with open("/proc/self/statm", encoding="ascii") as file:
            taken = int(file.read().split()[0]) * resource.getpagesize()
        before = resource.getrlimit(resource.RLIMIT_AS)
        # The library needs some 50 MB for these texts, and Python none.
        resource.setrlimit(resource.RLIMIT_AS, (taken + (4 << 20), before[1]))
        try:
            error = raised(pbcnf.OutOfMemory, pbcnf.check, opb, cnf, proof)
        finally:
            resource.setrlimit(resource.RLIMIT_AS, before)
        self.assertIsInstance(error, MemoryError)
        self.assertEqual((str(error), error.status), ("pbcnf: out of memory", 6))
        pbcnf.check(opb, cnf, proof)


if __name__ == "__main__":
    unittest.main()
