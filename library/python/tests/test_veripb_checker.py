"""The checker of VeriPB's format by itself: proofs made by hand, right and wrong. What is expected was worked out on paper."""

from __future__ import annotations

import unittest
from typing import List

from veripb_checker import Wrong, check
from veripb_constraints import Constraint, added, divided, implies, normal, opposite, saturated, substituted, weakened

# Two of three are taken, and not both of the first, so that the third is.
PROBLEM = """\
+2 a1 +2 a2 +2 a3 >= 3 ;
+1 ~a1 +1 ~a2 >= 1 ;
"""

PROOF = """\
pseudo-Boolean proof version 2.0
f 2
pol 1 2 d
red +1 ~y1 +1 a2 >= 1 ; y1 -> 0
red +1 y1 +1 ~a2 >= 1 ; y1 -> 1
rup +1 ~a2 +1 a3 >= 1 ;
rup +1 ~y1 +1 a3 >= 1 ; ~ 4 2 3
del id 6
rup +1 a3 >= 1 ; ~ 3 2
output NONE
conclusion NONE
end pseudo-Boolean proof
"""

# What is wrong, the line that is changed, what is put in its place, and the line at which the checker is to stop.
WRONG = [
    ("another version", 1, "pseudo-Boolean proof version 1.2", 1),
    ("another number of constraints", 2, "f 3", 2),
    ("a division by another number", 3, "pol 1 3 d", 7),
    ("a division by nothing", 3, "pol 1 0 d", 3),
    ("an id off by one", 3, "pol 2 2 d", 7),
    ("an id that is not there yet", 3, "pol 3 2 d", 3),
    ("two constraints left on the stack", 3, "pol 1 2 d 2", 3),
    ("a sum of one", 3, "pol 1 2 d +", 3),
    ("a variable weakened that was needed", 3, "pol 1 a1 w 2 d", 7),
    ("a weakened literal", 3, "pol 1 ~a1 w 2 d", 3),
    ("a degree changed", 6, "rup +1 ~a2 +1 a3 >= 2 ;", 6),
    ("a literal negated", 4, "red +1 ~y1 +1 ~a2 >= 1 ; y1 -> 0", 5),
    ("a coefficient changed", 4, "red +2 ~y1 +1 a2 >= 2 ; y1 -> 0", 5),
    ("a witness left out", 4, "red +1 ~y1 +1 a2 >= 1 ;", 4),
    ("a witness of the other value", 4, "red +1 ~y1 +1 a2 >= 1 ; y1 -> 1", 4),
    ("a witness that is taken out of the problem", 4, "red +1 ~a2 >= 1 ; a2 -> 0", 4),
    ("a witness that breaks an earlier constraint", 5, "red +1 y1 +1 ~a3 >= 1 ; y1 -> 1", 5),
    ("a witness of another variable", 5, "red +1 y1 +1 ~a2 >= 1 ; y2 -> 1", 5),
    ("no semicolon", 5, "red +1 y1 +1 ~a2 >= 1 y1 -> 1", 5),
    ("a hint left out", 7, "rup +1 ~y1 +1 a3 >= 1 ; ~ 4 3", 7),
    ("hints in another order", 7, "rup +1 ~y1 +1 a3 >= 1 ; 3 ~ 4 2", 7),
    ("the negation not among the hints", 7, "rup +1 ~y1 +1 a3 >= 1 ; 4 2 3", 7),
    ("a deleted id used", 9, "pol 6 2 +", 9),
    ("a deleted id deleted", 9, "del id 6", 9),
    ("a constraint deleted that was needed", 8, "del id 6 3", 9),
    ("a constraint of the formula deleted", 8, "del id 2", 8),
    ("a deletion without its word", 8, "del 6", 8),
    ("an unknown rule", 9, "add >= 1 ;", 9),
    ("a name of one letter", 9, "rup +1 y >= 0 ;", 9),
    ("a conclusion that does not follow", 11, "conclusion UNSAT : 8", 11),
    ("a conclusion from a constraint that is not there", 11, "conclusion UNSAT : 9", 11),
    ("no contradiction named", 11, "conclusion UNSAT", 11),
    ("another output", 10, "output ALL", 10),
    ("no output", 10, "", 11),
    ("no conclusion", 11, "", 12),
    ("a line after the conclusion", 12, "rup >= 0 ;", 12),
]


def replaced(line: int, text: str) -> str:
    lines: List[str] = PROOF.splitlines()
    lines[line - 1] = text
    return "\n".join(lines) + "\n"


class Proofs(unittest.TestCase):
    def test_right(self) -> None:
        verdict = check(PROBLEM, PROOF)
        self.assertEqual(verdict.conclusion, "NONE")
        self.assertEqual(verdict.live[8], Constraint({"a3": 1}, 1))
        self.assertEqual(sorted(verdict.live), [1, 2, 3, 4, 5, 7, 8])

    def test_wrong(self) -> None:
        for what, line, text, due in WRONG:
            with self.subTest(what), self.assertRaisesRegex(Wrong, f"^line {due}: "):
                check(PROBLEM, replaced(line, text))

    def test_an_end_is_due(self) -> None:
        with self.assertRaisesRegex(Wrong, "no end"):
            check(PROBLEM, PROOF[:PROOF.index("end ")])

    def test_another_problem(self) -> None:
        """With a lesser right side one of the three will do, and it may be the second."""
        with self.assertRaisesRegex(Wrong, "^line 6: "):
            check(PROBLEM.replace(">= 3", ">= 2"), PROOF)

    def test_products_are_not_read(self) -> None:
        with self.assertRaises(Wrong):
            check("+1 a1 a2 >= 1 ;\n", PROOF)

    def test_an_equality_is_two(self) -> None:
        """The lower bound is the first: 1 and 2 add up to 0 >= 0, 1 and 3 to a contradiction."""
        proof = "pseudo-Boolean proof version 2.0\nf 3\npol %s +\noutput NONE\nconclusion UNSAT : 4\nend pseudo-Boolean proof\n"
        problem = "+1 a1 +1 a2 = 1 ;\n+1 a1 +1 a2 >= 2 ;\n"
        self.assertEqual(check(problem, proof % "2 3").conclusion, "UNSAT")
        for ids in ("1 2", "1 3"):
            with self.assertRaisesRegex(Wrong, "^line 5: "):
                check(problem, proof % ids)


class Rules(unittest.TestCase):
    def test_normal_form(self) -> None:
        self.assertEqual(normal([(-3, "a1"), (2, "a2"), (1, "~a2")], -1), Constraint({"~a1": 3, "a2": 1}, 1))
        self.assertEqual(normal([(1, "a1"), (1, "~a1")], 1), Constraint({}, 0))

    def test_addition_cancels(self) -> None:
        sum_of_both = added(Constraint({"a1": 3, "a2": 1}, 3), Constraint({"~a1": 2, "a2": 1}, 1))
        self.assertEqual(sum_of_both, Constraint({"a1": 1, "a2": 2}, 2))

    def test_rounding_and_cutting(self) -> None:
        one = Constraint({"a1": 5, "a2": 3, "a3": 1}, 4)
        self.assertEqual(divided(one, 2), Constraint({"a1": 3, "a2": 2, "a3": 1}, 2))
        self.assertEqual(saturated(one), Constraint({"a1": 4, "a2": 3, "a3": 1}, 4))
        self.assertEqual(weakened(one, "a3"), Constraint({"a1": 5, "a2": 3}, 3))

    def test_negation_and_implication(self) -> None:
        one = Constraint({"a1": 2, "a2": 1}, 2)
        self.assertEqual(opposite(one), Constraint({"~a1": 2, "~a2": 1}, 2))
        self.assertTrue(implies(one, Constraint({"a1": 1}, 0)))
        self.assertTrue(implies(Constraint({"a1": 1, "a2": 1}, 2), Constraint({"a1": 1}, 1)))
        self.assertFalse(implies(Constraint({"a1": 1, "a2": 1}, 1), Constraint({"a1": 1}, 1)))

    def test_substitution(self) -> None:
        one = Constraint({"a1": 2, "~a2": 1, "a3": 1}, 2)
        self.assertEqual(substituted(one, {"a1": "1"}), Constraint({"~a2": 1, "a3": 1}, 0))
        self.assertEqual(substituted(one, {"a2": "1", "a3": "~a1"}), Constraint({"a1": 1}, 1))


if __name__ == "__main__":
    unittest.main()
