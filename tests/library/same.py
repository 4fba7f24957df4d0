#!/usr/bin/env python3
"""Holds the library, by the Python module, against the built program: over the examples and texts that are drawn by a fixed seed.

usage: same.py PROGRAM OPB..

Under all options, with bounds: the same CNF, weighted CNF and derivation, rows of a table of bounds, names, solutions, judgements, refusals and statuses; the
integers are the words of the CNF text; constraints one at a time are the problem's clauses, one after the other.
"""

import itertools
import os
import random
import subprocess
import sys
import tempfile

import pbcnf

AMO = ("auto", "pairwise", "ladder", "product")
CARD = ("auto", "counter", "totalizer")
GENERAL = ("diagram", "tree", "adder")
EQUAL = ("split", "joint")

passes = failures = 0


def judge(holds, *what):
    global passes, failures
    if holds:
        passes += 1
    else:
        failures += 1
        print("differs:", *what)


class Program:
    """The built program, over files of a folder of its own."""

    def __init__(self, path, folder):
        self.path, self.folder = path, folder

    def write(self, name, text):
        with open(os.path.join(self.folder, name), "wb") as file:
            file.write(text if isinstance(text, bytes) else text.encode())

    def read(self, name):
        with open(os.path.join(self.folder, name), encoding="ascii") as file:
            return file.read()

    def run(self, *words):
        """The status, what is said, and the line that is reported."""
        ran = subprocess.run([self.path, *words], cwd=self.folder, stdin=subprocess.DEVNULL, capture_output=True, check=False)
        return ran.returncode, ran.stdout.decode("ascii"), ran.stderr.decode("ascii").rstrip("\n")


def words_of(chosen, at_most):
    """The options as words of the program."""
    words = ["--%s=%s" % (name, value) for name, value in chosen.items() if name != "table"]
    if chosen.get("table"):
        words.append("--table")
    if at_most is not None:
        words.append("--at-most=%d" % at_most if at_most >= 0 else "--at-most-minus=%d" % -at_most)
    return words


def without_table(chosen):
    return {name: value for name, value in chosen.items() if name != "table"}


def told(call, *given, **chosen):
    """What a call gives back, its status, and the line of its refusal."""
    try:
        return call(*given, **chosen), 0, ""
    except pbcnf.Usage as error:
        return None, error.status, ""
    except pbcnf.Error as error:
        return None, error.status, str(error)


def hold_encoding(program, opb, chosen, at_most, what):
    program.write("a.opb", opb)
    for name in ("a.cnf", "a.proof"):
        program.write(name, "")
    status, said, line = program.run("encode", "a.opb", "a.cnf", "a.proof", *words_of(chosen, at_most))
    encoding, own, own_line = told(pbcnf.encode, opb, at_most=at_most, **chosen)
    judge((status, line) == (own, own_line), what, chosen, at_most, line, own_line)
    text, own, own_line = told(pbcnf.dimacs, opb, at_most=at_most, **chosen)
    judge((status, line) == (own, own_line), what, chosen, at_most, line, own_line)
    proof, own, own_line = told(pbcnf.derive, opb, at_most=at_most, **chosen)
    judge((status, line) == (own, own_line), what, chosen, at_most, line, own_line)
    if "table" in chosen:
        chosen = without_table(chosen)
        hold_bounds(status, said, line, opb, chosen, at_most, what)
    program.write("a.wcnf", "")
    weighed, _, weighed_line = program.run("wcnf", "a.opb", "a.wcnf", *words_of(chosen, at_most))
    wcnf, own, own_line = told(pbcnf.wcnf, opb, at_most=at_most, **chosen)
    judge((weighed, weighed_line) == (own, own_line), what, chosen, at_most, weighed_line, own_line)
    judge(weighed or wcnf == program.read("a.wcnf"), what, chosen, at_most, "its weighted CNF")
    if not weighed:
        offset, rows = pbcnf.softs(opb, at_most=at_most)
        softs = "c offset %d\n" % offset + "".join("%d %d 0\n" % row for row in rows)
        judge(softs == "".join(line for line in wcnf.splitlines(True) if line[0] != "h"), what, at_most, "its soft literals")
    if status:
        return
    cnf = program.read("a.cnf")
    judge(text == cnf, what, chosen, at_most, "its CNF text")
    head, _, body = cnf.partition("\n")
    judge([int(word) for word in body.split()] == list(encoding.integers), what, chosen, at_most, "its integers")
    judge(head == "p cnf %d %d" % (encoding.variables, len(encoding.clauses)), what, chosen, at_most, "its counts")
    judge(said.startswith("variables %d original %d " % (encoding.variables, encoding.original)), what, chosen, at_most, "its numbers")
    judge(proof == program.read("a.proof"), what, chosen, at_most, "its derivation")


def hold_bounds(status, said, line, opb, chosen, at_most, what):
    """The rows of the table are those of the lines `bound` that the program said."""
    rows, own, own_line = told(pbcnf.bounds, opb, at_most=at_most, **chosen)
    judge((status, line) == (own, own_line), what, chosen, at_most, line, own_line)
    judge(status or "".join("bound %d %d\n" % row for row in rows) == "".join(said.splitlines(True)[2:]), what, chosen, at_most, "its rows")


def hold_judged(program, draws, opb, lrat, at_most, what):
    """The texts that the library makes of a problem, and a refutation where one is given, are judged alike, and so with a byte changed."""
    program.write("a.opb", opb)
    command, names = ("refute", ["a.cnf", "a.proof", "a.lrat"]) if lrat else ("check", ["a.cnf", "a.proof"])
    cnf, status, _ = told(pbcnf.dimacs, opb, at_most=at_most)
    if status:
        return
    for turn in range(30):
        texts = [cnf, pbcnf.derive(opb, at_most=at_most), lrat][:len(names)]
        if turn:
            at = draws.random.randrange(len(texts))
            texts[at] = draws.broken(texts[at])
        for name, text in zip(names, texts):
            program.write(name, text)
        status, _, line = program.run(command, "a.opb", *names, *words_of({}, at_most))
        _, own, own_line = told(getattr(pbcnf, command), opb, *texts, at_most=at_most)
        judge((status, line) == (own, own_line), what, command, at_most, line, own_line)
        judge(turn or status == 0, what, command, at_most, "is accepted", line)


def hold_models(program, opb, models, at_most, what):
    program.write("a.opb", opb)
    status, said, line = program.run("map", "a.opb")
    names, own, own_line = told(pbcnf.names, opb)
    judge((status, line) == (own, own_line), what, "its names", line, own_line)
    judge(status or "".join("%d %s\n" % pair for pair in names.items()) == said, what, "its names")
    for model in models:
        program.write("a.model", model)
        status, said, line = program.run("decode", "a.opb", "a.model", *words_of({}, at_most))
        solution, own, own_line = told(pbcnf.decode, opb, model, at_most=at_most)
        judge((status, line) == (own, own_line), what, at_most, "a model", line, own_line)
        judge(status or solution.text == said, what, at_most, "its solution")


class Draws:
    """Problems, models and broken texts, by a fixed seed."""

    def __init__(self, seed):
        self.random = random.Random(seed)

    def literal(self):
        name = self.random.choice(["x%d" % self.random.randint(1, 9), "rain", "sun", "maths[mon]"])
        return ("~" if self.random.random() < 0.3 else "") + name

    def weight(self):
        size = self.random.choice([1, 1, 1, 9, 1000, 1 << 70])
        return self.random.choice([1, 1, -1]) * self.random.randint(1, size)

    def term(self, is_plain):
        literals = [self.literal() for _ in range(1 if is_plain or self.random.random() < 0.8 else self.random.randint(2, 3))]
        return "%+d %s" % (1 if is_plain else self.weight(), " ".join(literals))

    def statement(self):
        is_plain = self.random.random() < 0.5
        count = self.random.randint(0, 9)
        terms = " ".join(self.term(is_plain) for _ in range(count))
        right = self.random.randint(0, count) if is_plain else self.weight()
        return "%s %s %d ;\n" % (terms, self.random.choice([">=", "<=", "="]), right)

    def problem(self):
        objective = "min: %s ;\n" % " ".join(self.term(False) for _ in range(self.random.randint(0, 5)))
        statements = "".join(self.statement() for _ in range(self.random.randint(0, 6)))
        return ("" if self.random.random() < 0.3 else objective) + statements

    def broken(self, text):
        """The text with one byte changed, gone, or put in."""
        at = self.random.randrange(len(text) + 1)
        byte = self.random.choice("x~;=<>+-1 0:\n*")
        return text[:at] + self.random.choice(["", byte]) + text[at + self.random.randint(0, 1):]

    def model(self):
        values = [self.random.choice([var, -var]) for var in range(1, self.random.randint(1, 15))]
        return self.random.choice(["s SATISFIABLE\nv %s 0\n", "v %s 0\ns SATISFIABLE\n", "s SATISFIABLE\nv %s\n", "s UNKNOWN\nv %s 0\n"]) % (
            " ".join(map(str, values)))

    def options(self):
        chosen = {"amo": self.random.choice(AMO), "card": self.random.choice(CARD), "general": self.random.choice(GENERAL),
                  "equal": self.random.choice(EQUAL), "budget": self.random.choice([1, 20, 50000])}
        return {**chosen, "table": True} if self.random.random() < 0.4 else chosen

    def at_most(self):
        return self.random.choice([None, None, 0, -1, self.random.randint(-20, 20), -(1 << 70)])

    def one(self):
        """A constraint over x1 to x9, as terms and as a statement's text."""
        is_plain = self.random.random() < 0.5
        terms = [(1 if is_plain else self.weight(), self.random.choice([1, -1]) * self.random.randint(1, 9))
                 for _ in range(self.random.randint(0, 9))]
        relation, right = self.random.choice([">=", "<=", "="]), self.random.randint(0, len(terms)) if is_plain else self.weight()
        sums = " ".join("%+d %sx%d" % (weight, "~" if literal < 0 else "", abs(literal)) for weight, literal in terms)
        return (terms, relation, right), "%s %s %d ;\n" % (sums, relation, right)


def text_of(name):
    """The text of a file, if there is one."""
    if not os.path.exists(name):
        return ""
    with open(name) as file:
        return file.read()


def hold_examples(program, draws, names):
    for name in names:
        opb, what = text_of(name), os.path.basename(name)
        hold_judged(program, draws, opb, text_of(name[:-len("opb")] + "lrat"), None, what)
        for amo, card, general, equal in itertools.product(AMO, CARD, GENERAL, EQUAL):
            hold_encoding(program, opb, {"amo": amo, "card": card, "general": general, "equal": equal}, None, what)
        for general, budget in itertools.product(GENERAL, (1, 50, 50000)):
            hold_encoding(program, opb, {"general": general, "budget": budget}, 20, what)
            hold_encoding(program, opb, {"general": general, "budget": budget, "table": True}, 20, what)
        hold_models(program, opb, ["s SATISFIABLE\n", "s UNSATISFIABLE\n", "v 1 -1 0\n", "s SATISFIABLE\nv 1 2 7 8 0\n"], None, what)


def hold_drawn(program, draws, count):
    for number in range(count):
        opb, chosen, at_most = draws.problem(), draws.options(), draws.at_most()
        what = "text %d" % number
        hold_encoding(program, opb, chosen, at_most, what)
        hold_models(program, opb, [draws.model() for _ in range(3)], at_most, what)
        hold_judged(program, draws, opb, "", at_most, what)
        for _ in range(3):
            broken = draws.broken(opb)
            hold_encoding(program, broken, chosen, at_most, what + ", broken")
            hold_models(program, broken, [draws.broken(draws.model())], at_most, what + ", broken")


def hold_constraints(draws, count):
    """Constraints one at a time, each after the one before, are the clauses of the problem of them all."""
    for number in range(count):
        chosen, first, integers, text = without_table(draws.options()), 10, [], "* #variable= 9\n"
        what = "constraints %d" % number
        for _ in range(draws.random.randint(1, 4)):
            (terms, relation, right), statement = draws.one()
            text += statement
            encoding = pbcnf.constraint(terms, relation, right, first=first, **chosen)
            judge(encoding.original == first - 1, what, "its variables")
            alone = "* #variable= %d\n%s" % (first - 1, statement)
            due = pbcnf.encode(alone, **chosen)
            judge((encoding.integers, encoding.variables) == (due.integers, due.variables), what, chosen, statement, "one constraint")
            proof = pbcnf.derive_constraint(terms, relation, right, first=first, **chosen)
            judge(proof == pbcnf.derive(alone, **chosen), what, chosen, statement, "its derivation")
            first, integers = encoding.next_free, integers + list(encoding.integers)
        whole = pbcnf.encode(text, **chosen)
        judge(integers == list(whole.integers) and first == whole.next_free, what, chosen, text, "all constraints")


def main(path, *names):
    draws = Draws(7)
    # The program waits until a disk has what it made, thousands of times; memory has it at once.
    memory = "/dev/shm" if os.access("/dev/shm", os.W_OK) else None
    with tempfile.TemporaryDirectory(dir=memory) as folder:
        program = Program(os.path.abspath(path), folder)
        hold_examples(program, draws, names)
        hold_drawn(program, draws, 100)
    hold_constraints(draws, 200)
    print("%d passed, %d failed" % (passes, failures))
    return failures > 0


sys.exit(main(*sys.argv[1:]))
