"""Texts of other spellings, rewritten: they say what they said before, by the meaning that is given here beside each.

The meaning is a condition in Python, written by hand. Where the library is there, the program's own `decode` judges every assignment
of the rewritten text, and the clauses of `encode` go to CaDiCaL where that is on the path.
"""

import bz2
import contextlib
import functools
import gzip
import io
import itertools
import lzma
import math
import os
import random
import shutil
import subprocess
import tempfile
import unittest

import pbcnf
from pbcnf.tools import opb_text, tidy
from pbcnf.tools.causes import Unreadable
from pbcnf.tools.mending import mend

BIG = 10 ** 29 + 7


def case(text, names, holds, value=None):
    """A text, its variables in the rewritten text, whether an assignment is a solution, and what `o` line it has."""
    return text, names.split(), holds, value


TEXTS = [
    case("x1 + x2 >= 1 ;", "x1 x2", lambda a, b: a + b >= 1),
    case("+1 x1 + x2 - x3 >= 1 ;", "x1 x2 x3", lambda a, b, c: a + b - c >= 1),
    case("+ 3 x1 - 2 x2 >= 1 ;", "x1 x2", lambda a, b: 3 * a - 2 * b >= 1),
    case("3x1 +2x2 >=4;", "x1 x2", lambda a, b: 3 * a + 2 * b >= 4),
    case("3x1+2x2>=4;", "x1 x2", lambda a, b: 3 * a + 2 * b >= 4),
    case("+2*x1 +1*x2 +3*x3 >= 4 ;", "x1 x2 x3", lambda a, b, c: 2 * a + b + 3 * c >= 4),
    case("+2*x1+1*x2+3*x3>=4;", "x1 x2 x3", lambda a, b, c: 2 * a + b + 3 * c >= 4),
    case("+2 * x1 +1 * x2 +3 * x3 >= 4 ;\n+1 * x1 >= 0 ;", "x1 x2 x3", lambda a, b, c: 2 * a + b + 3 * c >= 4),
    case("* a title\n2 * x1\n + 1 * x2 >= 2;\n", "x1 x2", lambda a, b: 2 * a + b >= 2),
    case("max: +2 x1 -1 x2 +3 x3 ;\n+1 x1 +1 x2 +1 x3 <= 2 ;", "x1 x2 x3", lambda a, b, c: a + b + c <= 2, lambda a, b, c: -(2 * a - b + 3 * c)),
    case("Maximize: x1 + ~x2 ;\nx1 + x2 >= 1;", "x1 x2", lambda a, b: a + b >= 1, lambda a, b: -(a + (1 - b))),
    case("MIN: +2 x1 +1 x2 ;\n+1 x1 +1 x2 >= 1 ;", "x1 x2", lambda a, b: a + b >= 1, lambda a, b: 2 * a + b),
    case("min : 2 x1 ;\n+1 x1 +1 x2 >= 1 ;", "x1 x2", lambda a, b: a + b >= 1, lambda a, b: 2 * a),
    case("min +2 x1 +1 x2 ;\n+1 x1 +1 x2 >= 1 ;", "x1 x2", lambda a, b: a + b >= 1, lambda a, b: 2 * a + b),
    case("+1 x1 +1 x2 >= 1 ;\nmin: x1 + 2 x2 ;", "x1 x2", lambda a, b: a + b >= 1, lambda a, b: a + 2 * b),
    case("x1 + 0 x2 >= 1 ; max: x1 + 2 x2 ;\n", "x1 x2", lambda a, b: a >= 1, lambda a, b: -(a + 2 * b)),
    case("+1 x1 +1 x2 +1 x3 > 1 ;", "x1 x2 x3", lambda a, b, c: a + b + c > 1),
    case("+1 x1 +1 x2 +1 x3 < 2 ;", "x1 x2 x3", lambda a, b, c: a + b + c < 2),
    case("-3 x1 -2 x2 > -5 ;", "x1 x2", lambda a, b: -3 * a - 2 * b > -5),
    case("+1 x1 -1 x2 <- 0;".replace("<- 0", "< 0"), "x1 x2", lambda a, b: a - b < 0),
    case("+1 x1 +1 x2 == 1 ;", "x1 x2", lambda a, b: a + b == 1),
    case("+1 x1 +1 x2 => 1 ;\n+1 x1 +1 x3 =< 1 ;", "x1 x2 x3", lambda a, b, c: a + b >= 1 and a + c <= 1),
    case("+1 x1 +1 x2 > = 1 ;", "x1 x2", lambda a, b: a + b >= 1),
    case("+1 x1 +1 x2 \u2265 1 ;\n+1 x1 +1 x3 \u2264 1 ;\n+1 x1 \u2212 1 x4 >= 0 ;", "x1 x2 x3 x4",
         lambda a, b, c, d: a + b >= 1 and a + c <= 1 and a - d >= 0),
    case("+1 x1 +1 x2 >= - 1 ;\n+1 x1 -1 x2 >= + 1 ;", "x1 x2", lambda a, b: a - b >= 1),
    case("+1 x1 +1 x2 >= 1", "x1 x2", lambda a, b: a + b >= 1),
    case("+1 x1 +1 x2 >= 1 ;\n+1 x1 +1 x2 <= 1 * at most one\n", "x1 x2", lambda a, b: a + b == 1),
    case("+ x1\n + x2\n - 2 x3\n >= 0\n;\n", "x1 x2 x3", lambda a, b, c: a + b - 2 * c >= 0),
    case("# two lamps\n+1 x1 +1 x2 >= 1 ; // one is on\n+1 x1 # and\n +1 x3 >= 1 ;", "x1 x2 x3", lambda a, b, c: a + b >= 1 and a + c >= 1),
    case("2 * x1 * by day\n + 3 * x2\n + x3 * the rest of it\n >= 3 ;", "x1 x2 x3", lambda a, b, c: 2 * a + 3 * b + c >= 3),
    case("2 <= x1 + x2 + x3 ;", "x1 x2 x3", lambda a, b, c: a + b + c >= 2),
    case("-1 < - x1 - x2 ;", "x1 x2", lambda a, b: -1 < -a - b),
    case("x1 >= x2 ;\nx3 + x1 <= x2 + 1 ;", "x1 x2 x3", lambda a, b, c: a >= b and c + a <= b + 1),
    case("x1 + x2 - 1 >= 0 ;\n3 - 2 x1 > x3 ;", "x1 x2 x3", lambda a, b, c: a + b - 1 >= 0 and 3 - 2 * a > c),
    case("\ufeff* #variable= 2 #constraint= 1\n+1 x1 +1 x2 >= 1 ;", "x1 x2", lambda a, b: a + b >= 1),
    case("\ufeffx1 >= 1\u00a0;\r\nx2 <= 0;\r\n", "x1 x2", lambda a, b: a and not b),
    case("c1: +1 x1 +1 x2 >= 1 ;\n@two +1 x1 +1 x3 >= 1 ;", "x1 x2 x3", lambda a, b, c: a + b >= 1 and a + c >= 1),
    case("+2*x0 +1*x2 >= 2;\n+1*x0 +1*x1 <= 1;", "x1 x2 y0", lambda b, c, a: 2 * a + c >= 2 and a + b <= 1),
    case("x00 + y0 >= 1 ;\n~x0 + x1 >= 1 ;", "x1 yy0 y0", lambda b, a, c: a + c >= 1 and (1 - a) + b >= 1),
    case("+1 x0 +1 ~x1 >= 2 ;", "x1 y0", lambda b, a: a and not b),
    case("-1 x1 -1 x2 >= -\u00a0- -1 ;", "x1 x2", lambda a, b: -a - b >= -1),
    case("x1\n* x3 + more\n + x2 >= 1 ;", "x1 x2", lambda a, b: a + b >= 1),
    case("!x1 + 2 ~ x2 >= 2 ;", "x1 x2", lambda a, b: (1 - a) + 2 * (1 - b) >= 2),
    case("+1.0 x1 +2. x2 >= 2.00 ;", "x1 x2", lambda a, b: a + 2 * b >= 2),
    case("+ -2 x1 - -3 x2 >= 1 ;\n--x1 >= 0;", "x1 x2", lambda a, b: -2 * a + 3 * b >= 1),
    case("+2 x1*x2 + x3*~x1 >= 1 ;", "x1 x2 x3", lambda a, b, c: 2 * (a * b) + c * (1 - a) >= 1),
    case("max: x1*x2 + 2 x2 x3 ;\n3 x1 x2 + x3 <= 3 ;", "x1 x2 x3", lambda a, b, c: 3 * a * b + c <= 3, lambda a, b, c: -(a * b + 2 * b * c)),
    case("%d x1 + %d x2 > %d ;" % (BIG, BIG - 1, BIG - 1), "x1 x2", lambda a, b: BIG * a + (BIG - 1) * b > BIG - 1),
    case("- %d x1 + x2 < -%d ;" % (BIG, BIG - 2), "x1 x2", lambda a, b: -BIG * a + b < -(BIG - 2)),
    case("%d <= %d*x1 - 1 + x2 ;" % (BIG, BIG), "x1 x2", lambda a, b: BIG <= BIG * a - 1 + b),
    case("max: %d x1 - x2 ;\nx1 + x2 >= 1;" % BIG, "x1 x2", lambda a, b: a + b >= 1, lambda a, b: -(BIG * a - b)),
    case("rain + 2 sun >= 2 ;\nmaths[mon] + _a{b}^c + X1 - x1a >= 1 ;", "rain sun maths[mon] _a{b}^c X1 x1a",
         lambda a, b, c, d, e, f: a + 2 * b >= 2 and c + d + e - f >= 1),
    case("+1 a-b +1 a >= 1 ;\nx + a >= 1 ;", "a-b a x", lambda a, b, c: a + b >= 1 and c + b >= 1),
    case("x01 + x2 >= 2 ;", "x1 x2", lambda a, b: a + b >= 2),
    case("+1 max +1 min >= 1 ; min + soft >= 1 ;", "max min soft", lambda a, b, c: a + b >= 1 and b + c >= 1),
    case("Min: x1 ; * cheap\n x1 + x2 = 1 * one of them\n ;", "x1 x2", lambda a, b: a + b == 1, lambda a, b: a),
    case("x1 >= x2 * no x1 without\n ;\n+1 x3 >= 1 ;", "x1 x2 x3", lambda a, b, c: a >= b and c),
]

REFUSED = [
    ("x1 x2 >= 1 ;", 1, 4, "a sum, or a product?"), ("x1-x2 >= 0 ;", 1, 1, "a difference?"), ("+1 -x1 >= 1 ;", 1, 4, "a negation"),
    ("1.5 x1 >= 1 ;", 1, 1, "a fraction"), ("1e6 x1 >= 1 ;", 1, 1, "an exponent"), ("1,000 x1 >= 1 ;", 1, 1, "a mark between digits"),
    ("+1 x1 != 1 ;", 1, 7, "not equal"), ("1 <= x1 + x2 <= 2 ;", 1, 14, "a second relation"), ("+1 a.b >= 1 ;", 1, 4, "no name has"),
    ("+1 x1 >= 1 ;\n+1 gr\u00f6\u00dfe >= 1 ;", 2, 4, "no name has"), ("2 (x1 + x2) >= 1 ;", 1, 3, "brackets"), ("p cnf 2 1\n1 2 0\n", 1, 3, "a CNF file"),
    ("soft: 7 ;\n[3] +1 x1 >= 1 ;", 1, 1, "a soft constraint"), ("+1 x1 >= 1 ;\n[3] +1 x1 >= 1 ;", 2, 1, "a soft constraint"),
    ("+1 x1 >= 1 ;\n+1 x2 +", 2, 8, "cut off"), ("min: x1 ;\nmax: x2 ;", 2, 1, "a second objective"), ("min: x1 + 3 ;", 1, 9, "a constant"),
    ("Minimize\n obj: x + y\nSubject To\n c1: x + y >= 1\nEnd\n", 2, 2, "an LP file"), ("x1 ;", 1, 4, "lacks its relation"),
    ("x1*2 + x2*3 >= 4 ;\n+1 x3 >= 1 ;", 1, 3, "or of a comment?"), ("x1 * 2 + x2 * 3 >= 4 ;\n+1 x3 >= 1 ;", 1, 4, "or of a comment?"),
    ("x2 >= 2 * x1 ;", 1, 9, "or of a comment?"), ("x1 * lamp\n + x2 >= 1 ;", 1, 4, "or of a comment?"), ("x1* x2 one\n>= 1 ;", 1, 3, "or of a comment?"),
    ("+1 x1 >= ;", 1, 10, "lacks"), ("+1 x1 >= 1\n+1 x2 >= 1 ;", 2, 7, "a second relation"),
]


def assignments(count):
    return itertools.product((0, 1), repeat=count)


def has_library():
    try:
        pbcnf.encode("")
        return True
    except OSError:
        return False


def seen(text, names, values):
    """The `o` line of an assignment where the program takes it for a solution, else None; 0 where there is no objective."""
    numbers = {name: number for number, name in pbcnf.names(text).items()}
    literals = [numbers.get(name) or int(name[1:]) for name, value in zip(names, values) if value]
    try:
        found = pbcnf.decode(text, literals)
    except pbcnf.NotASolution:
        return None
    wanted = {name: bool(value) for name, value in zip(names, values)}
    assert {name: found.values[name] for name in names} == wanted, (found.values, wanted)
    return found.objective or 0


class Meaning(unittest.TestCase):
    def test_there_are_enough(self):
        self.assertGreaterEqual(len(TEXTS), 40)

    def test_what_is_rewritten_is_left_alone(self):
        for text, _, _, _ in TEXTS:
            with self.subTest(text=text):
                rewritten, changes = mend(text.encode())
                self.assertTrue(changes or rewritten == text.encode())
                self.assertEqual(mend(rewritten), (rewritten, []))

    def test_comments_stay(self):
        self.assertEqual(mend(b"x1 >= x2 * no x1\r\n ; # so\n")[0], b"+1 x1 -1 x2 >= 0 ; * no x1\n * so\n")
        self.assertEqual(mend(b"# a\nmax: x1 * dear one\n ;")[0], b"* a\nmin: -1 x1 ; * dear one\n")
        self.assertEqual(mend(b"x1 // a\n + 2 * b c\nx2 >= 1 ;")[0], b"+1 x1 * a\n +2 * b c\nx2 >= 1 ;")

    def test_every_assignment(self):
        if not has_library():
            self.skipTest("there is no library")
        for text, names, holds, value in TEXTS:
            with self.subTest(text=text):
                rewritten = mend(text.encode())[0]
                self.assertEqual(len(pbcnf.decode("".join("+1 %s >= 0 ;" % name for name in names), []).values), len(names))
                for values in assignments(len(names)):
                    wanted = (value(*values) if value else 0) if holds(*values) else None
                    self.assertEqual(seen(rewritten, names, values), wanted, (rewritten, values))

    def test_through_a_solver(self):
        if not has_library() or not shutil.which("cadical"):
            self.skipTest("there is no library, or no cadical")
        for text, names, holds, _ in TEXTS:
            with self.subTest(text=text), tempfile.TemporaryDirectory() as folder:
                rewritten = mend(text.encode())[0]
                path = os.path.join(folder, "cnf")
                with open(path, "w", encoding="ascii") as file:
                    file.write(pbcnf.dimacs(rewritten))
                said = subprocess.run(["cadical", "-q", path], stdout=subprocess.PIPE, check=False)
                solutions = [values for values in assignments(len(names)) if holds(*values)]
                self.assertEqual(said.returncode, 10 if solutions else 20)
                if solutions:
                    found = pbcnf.decode(rewritten, said.stdout).values
                    self.assertIn(tuple(int(found[name]) for name in names), solutions)


class Drawn(unittest.TestCase):
    """Statements of numbers that are drawn, spelled in some way that the program would refuse."""

    def test_every_assignment(self):
        if not has_library():
            self.skipTest("there is no library")
        draw = random.Random(11)
        names = ["x1", "x2", "x3", "rain"]
        for _ in range(400):
            terms = [(draw.randrange(-4, 5), draw.choice([1, 1, 2]), draw.sample(range(4), 2), draw.choice([0, 1])) for _ in range(draw.randrange(1, 5))]
            relation, right = draw.choice([">=", "<=", "=", ">", "<"]), draw.randrange(-6, 7)
            text = "+1 x3 +1 rain >= 0 ;\n" + _spelled(draw, terms, relation, right, names)
            rewritten = mend(text.encode())[0]
            for values in assignments(4):
                self.assertEqual(seen(rewritten, names, values) is not None, _holds(terms, relation, right, values), (text, rewritten, values))


def _holds(terms, relation, right, values):
    total = 0
    for coefficient, count, places, negated in terms:
        literals = [values[place] != negated for place in places[:count]]
        total += coefficient * all(literals)
    return {">=": total >= right, "<=": total <= right, "=": total == right, ">": total > right, "<": total < right}[relation]


def _spelled(draw, terms, relation, right, names):
    """A statement with its terms on either side, or a constant among them."""
    left, other = [], []
    for coefficient, count, places, negated in terms:
        literals = [draw.choice(["~", "~ ", "!"]) * negated + names[place] for place in places[:count]]
        side = draw.choice([left, left, left, other])
        value = coefficient if side is left else -coefficient
        sign, size = "-" if value < 0 else draw.choice(["+", "+"] + ([""] if not side else [])), abs(value)
        # On the right a * with blanks around it may be a comment.
        apart = [" * "] if side is left else ["*"]
        head = draw.choice(["%s%d ", "%s %d ", "%s%d*", "%s %d" + apart[0]]) % (sign, size)
        if size == 1 and draw.random() < 0.5:
            head = draw.choice([sign, sign + " "])
        has_number = head.strip() not in ("", "+", "-")
        side.append(head + draw.choice(["*", *apart] + [" "] * (has_number and "*" not in head)).join(literals))
    constant = draw.choice([0, 0, 3, -2])
    if constant:
        left.append("%s %d" % ("-" if constant < 0 else "+", abs(constant)))
    spelled = {">=": [">=", "=>"], "<=": ["<=", "=<"], "=": ["=", "=="]}.get(relation, [relation])
    last = right + constant
    other.append("%s%d" % ("-" if last < 0 else "+" if other else "", abs(last)))
    return " ".join(left) + " " + draw.choice(spelled) + draw.choice(["", " "]) + " ".join(other) + draw.choice([" ;", ";\n", "\n"])


class BesideClasp(unittest.TestCase):
    """Texts in the competitions' older spelling, which clasp reads and the program does not: a `*` between factors, no sign, no blanks.
    Rewritten they have the solutions and the optimum that clasp finds in the text as it was."""

    def spelled(self, draw, terms):
        parts = []
        for place, (coefficient, literal) in enumerate(terms):
            # A name may have a - in it, so one before a number has a blank before it.
            sign = " -" if coefficient < 0 else draw.choice(["+", "+", ""] if place == 0 else ["+"])
            parts.append("%s%d%s%s%s" % (sign, abs(coefficient), draw.choice(["*", "*", " * ", " "]), literal, draw.choice(["", " "])))
        return "".join(parts)

    def text(self, draw):
        """Some statements over four variables, and mostly an objective."""
        def terms():
            return [(draw.choice([-3, -2, -1, 1, 2, 3, 5]), "x%d" % var) for var in draw.sample(range(1, 5), draw.randint(1, 4))]

        count = draw.randint(1, 4)
        lines = ["* #variable= 4 #constraint= %d" % count]
        if draw.random() < 0.8:
            lines.append("min:%s%s;" % (draw.choice(["", " "]), self.spelled(draw, terms())))
        for _ in range(count):
            left, relation, right = terms(), draw.choice([">=", ">=", "="]), draw.randint(-3, 4)
            if relation == "=":
                # clasp 3.3.5 takes 3 x1 = 2 for something that can hold.
                right *= functools.reduce(math.gcd, (coefficient for coefficient, _ in left))
            lines.append("%s%s%s%d%s;" % (self.spelled(draw, left), relation, draw.choice(["", " "]), right, draw.choice(["", " "])))
        return "\n".join(lines) + "\n"

    def answers(self, text, *words):
        """What clasp says of a text: its lines with this first letter."""
        found = subprocess.run(["clasp", "--outf=1", *words], input=text.encode(), stdout=subprocess.PIPE, stderr=subprocess.PIPE, check=False)
        self.assertIn(found.returncode, (10, 20, 30), (text, found.stderr))
        lines = [line.split() for line in found.stdout.decode().splitlines()]
        return {letter: [line[1:] for line in lines if line[:1] == [letter]] for letter in "ov"}

    def test_solutions_and_optima(self):
        if not has_library() or not shutil.which("clasp"):
            self.skipTest("there is no library, or no clasp")
        draw, names, changed = random.Random(5), ["x1", "x2", "x3", "x4"], 0
        for _ in range(80):
            text = self.text(draw)
            rewritten, changes = mend(text.encode())
            changed += bool(changes)
            with self.subTest(text=text):
                found = {values: seen(rewritten + b"+1 x1 +1 x2 +1 x3 +1 x4 >= 0 ;\n", names, values) for values in assignments(4)}
                all_found = {tuple(int(not word.startswith("-")) for word in line) for line in self.answers(text, "-n0", "-q0", "--opt-mode=ignore")["v"]}
                self.assertEqual({values for values, value in found.items() if value is not None}, all_found)
                if "min:" in text and all_found:
                    self.assertEqual(self.answers(text)["o"][-1], [str(min(value for value in found.values() if value is not None))])
        self.assertGreaterEqual(changed, 60)


class Refusals(unittest.TestCase):
    def test_places_and_causes(self):
        for text, line, column, words in REFUSED:
            with self.subTest(text=text):
                with self.assertRaises(Unreadable) as raised:
                    mend(text.encode())
                self.assertEqual(opb_text.place(text.encode(), raised.exception.at), (line, column))
                self.assertIn(words, raised.exception.cause)


class LeftAlone(unittest.TestCase):
    def test_texts_of_the_grammar(self):
        draw = random.Random(3)
        for _ in range(300):
            text = _accepted(draw)
            self.assertEqual(mend(text), (text, []), text)

    def test_any_bytes(self):
        """Whatever the bytes are: what comes out is read by the program, and left alone the next time."""
        draw = random.Random(4)
        library = has_library()
        pieces = [b"x1", b"x0", b"a-b", b"+", b"-", b"3", b"2.0", b"~", b"*", b" ", b" ", b"\n", b">=", b"<", b"=", b">", b";", b";", b"max:", b"min:", b"#", b"\r\n",
                  b"+1 x1", b" +2 x2", b">= 1 ;\n", b"c: ", b"\xc2\xa0", b"\xe2\x89\xa5", b"(", b"*x2"]
        read = 0
        for _ in range(4000):
            text = b"".join(draw.choice(pieces) for _ in range(draw.randrange(1, 9)))
            try:
                rewritten, _ = mend(text)
            except Unreadable:
                if library:
                    self.assertRaises(pbcnf.Refused, pbcnf.encode, text)
                continue
            read += 1
            self.assertEqual(mend(rewritten), (rewritten, []), text)
            if library:
                pbcnf.encode(rewritten)
        self.assertGreater(read, 100)


def _accepted(draw):
    """A text of the grammar, with blanks and comments wherever they may stand."""

    def gap(needed=False):
        return draw.choice([b" ", b"\n", b"\r\n", b"\t "] + ([] if needed else [b""])) + draw.choice([b"", b"", b"* a + comment ;\n", b"*c\n "] if needed else [b""])

    def total():
        found = b""
        for _ in range(draw.randrange(4)):
            found += draw.choice([b"+1", b"-20", b"003", b"7", b"-0"]) + gap(True)
            for _ in range(draw.choice([1, 1, 2])):
                found += draw.choice([b"", b"~"]) + draw.choice([b"x1", b"x02", b"x1-2", b"rain", b"a[b]{c}^-", b"_", b"x1a", b"max", b"X0"]) + gap(True)
        return found

    text = draw.choice([b"", b"* #variable= 9 #constraint= 2\n", b"*\n"])
    if draw.random() < 0.5:
        text += b"min:" + gap() + total() + b";" + gap()
    for _ in range(draw.randrange(4)):
        text += total() + draw.choice([b">=", b"=", b"<="]) + gap() + draw.choice([b"1", b"-3", b"+0"]) + gap() + b";" + gap()
    return text + draw.choice([b"", b"* the end"])


class Command(unittest.TestCase):
    def setUp(self):
        folder = tempfile.TemporaryDirectory()
        self.addCleanup(folder.cleanup)
        self.folder = folder.name

    def path(self, name, content=None):
        path = os.path.join(self.folder, name)
        if content is not None:
            with open(path, "wb") as file:
                file.write(content)
        return path

    def run_tidy(self, *words):
        """The exit status, and what is printed on standard error."""
        told = io.StringIO()
        with contextlib.redirect_stderr(told):
            status = tidy.main(list(words))
        return status, told.getvalue()

    def kept(self, source):
        target = self.path("kept.opb")
        status, told = self.run_tidy(source, "--keep", target)
        self.assertEqual(status, 0, told)
        with open(target, "rb") as file:
            return file.read(), told

    def test_packed(self):
        for ending, pack in ((".gz", gzip.compress), (".bz2", bz2.compress), (".xz", lzma.compress)):
            for name in ("a.opb" + ending, "a.opb"):
                text, told = self.kept(self.path(name, pack(b"x1 >= 1 ;\n")))
                self.assertEqual(text, b"+1 x1 >= 1 ;\n")
                self.assertIn("unpacked", told)

    def test_damaged(self):
        for name in ("a.opb.gz", "a.opb"):
            status, told = self.run_tidy(self.path(name, gzip.compress(b"x1 >= 1 ;\n" * 99)[:-9]), "--keep", self.path("b"))
            self.assertEqual(status, 4, told)
            self.assertFalse(os.path.exists(self.path("b")))

    def test_wide_letters(self):
        self.assertEqual(self.kept(self.path("a", "x1 >= 1 ;\r\n".encode("utf-16")))[0], b"+1 x1 >= 1 ;\r\n")

    def test_changes_are_said(self):
        told = self.kept(self.path("a.opb", b"* two\nx1\n + x2 > 0"))[1]
        self.assertEqual(told.splitlines(), [
            "pbcnf-tidy: OPB 2:1: x1 became +1 x1: a term without its coefficient",
            "pbcnf-tidy: OPB 3:2: + x2 became +1 x2: a term without its coefficient",
            "pbcnf-tidy: OPB 3:7: > 0 became >= 1: > of integers",
            "pbcnf-tidy: OPB 3:10: ; added: no ; at the end of the text, which may be cut off"])
        self.assertEqual(self.run_tidy(self.path("kept.opb"), "--keep", self.path("again")), (0, ""))

    def test_refusals(self):
        keep = self.path("b.opb", b"as it was")
        source = self.path("a.opb", b"+1 x1 >= 1 ;\n1.5 x2 >= 1 ;\n")
        self.assertEqual(self.run_tidy(source, "--keep", keep), (1, "pbcnf-tidy: OPB 2:1: a fraction; multiply the statement\n"))
        self.assertEqual(self.run_tidy(self.path("none"), "--keep", keep)[0], 4)
        self.assertEqual(self.run_tidy(self.path("c.opb", b"x1 >= 1 ;"), "--keep", self.path("no/folder"))[0], 5)
        self.assertEqual(self.run_tidy(source, "--keep", source)[0], 5)
        for path, content in ((keep, b"as it was"), (source, b"+1 x1 >= 1 ;\n1.5 x2 >= 1 ;\n")):
            with open(path, "rb") as file:
                self.assertEqual(file.read(), content)
        self.assertEqual(sorted(os.listdir(self.folder)), ["a.opb", "b.opb", "c.opb"])

    def test_a_device_stays_one(self):
        self.assertEqual(self.run_tidy(self.path("a.opb", b"+1 x1 >= 1 ;"), "--keep", os.devnull), (0, ""))
        self.assertFalse(os.path.isfile(os.devnull))


class Advice(unittest.TestCase):
    def test_second_lines(self):
        for text, line, words in (
                (b"x1 + x2 >= 1 ;", "OPB 1:1: expected min:, a statement or the end", "'x1' is there: a term without its coefficient; pbcnf-tidy makes '+1 x1' of 'x1', and changes 1 other place"),
                (b"+1 x1 > 0 ;", "OPB 1:7: expected a coefficient or a relation", "'>' is there: > of integers; pbcnf-tidy makes '>= 1' of '> 0'"),
                (b"+1 x1 >= 1", "OPB 1:11: expected ;", "the end of the text is there: no ; at the end of the text, which may be cut off; pbcnf-tidy adds ;"),
                (b"1.5 x1 >= 1 ;", "OPB 1:1: expected min:, a statement or the end", "'1.5' is there: a fraction; multiply the statement"),
                (b"x1 >= 1 ;\n1.5 x1 >= 1 ;", "OPB 1:1: expected min:, a statement or the end", "'x1' is there: at 2:1 a fraction; multiply the statement"),
                (b"\xef\xbb\xbf+1 x1 >= 1 ;", "OPB 1:1: expected min:, a statement or the end", "'\\ufeff+1' is there: a byte order mark; pbcnf-tidy leaves it out"),
                (gzip.compress(b"+1 x1 >= 1 ;"), "OPB 1:1: expected min:, a statement or the end", "packed by gzip: unpacked; pbcnf-tidy does that")):
            self.assertEqual(tidy.advice("a.opb", "pbcnf: " + line, text), "a.opb: " + words)

    def test_other_lines(self):
        self.assertIsNone(tidy.advice("a.opb", "pbcnf: OPB 1:1: limit weight", b""))
        self.assertIsNone(tidy.advice("a.opb", "pbcnf: read fault", b""))


if __name__ == "__main__":
    unittest.main()
