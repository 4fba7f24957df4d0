"""A SAT solver for tests, called as CaDiCaL is: a search tree with unit propagation, which writes LRAT; and it may be made to fail.

The environment's STUB_CALLS names a file that gets a line for each call. Where its STUB_FORMAT is `drat` it writes DRAT, as older ones do, and
where that is `frat` FRAT, as CryptoMiniSat does. From the call of the number STUB_FROM on it does what
STUB_DOES says: `hang`, `stubborn` (hang, and stay at SIGTERM), `lie` (say that there is no model), `crash`, or `give-up`.
"""

import os
import signal
import sys
import time


class Tree:
    """The clauses, those that it has learned among them, by their numbers, and the lines of LRAT for the latter."""

    def __init__(self, clauses):
        self.clauses = dict(enumerate(clauses, 1))
        self.last = len(clauses)
        self.lines = []

    def propagate(self, values):
        """Goes on from the values; gives the clauses that made others true, in their order, and a false one after them, or 0."""
        used = []
        while True:
            before = len(used)
            for number, clause in self.clauses.items():
                if any(values.get(abs(literal)) == (literal > 0) for literal in clause):
                    continue
                free = {literal for literal in clause if abs(literal) not in values}
                if not free:
                    return used + [number], number
                if len(free) == 1:
                    literal = free.pop()
                    values[abs(literal)] = literal > 0
                    used.append(number)
            if len(used) == before:
                return used, 0

    def learn(self, clause, hints):
        self.last += 1
        self.clauses[self.last] = clause
        self.lines.append("%d %s 0 %s 0" % (self.last, " ".join(map(str, clause)), " ".join(map(str, hints))))
        return self.last

    def search(self, decisions):
        """The values of a model under the decisions, or the number of the clause that they are not all true."""
        values = {abs(literal): literal > 0 for literal in decisions}
        hints, wrong = self.propagate(values)
        negated = [-literal for literal in decisions]
        if wrong:
            return None, self.learn(negated, hints)
        free = sorted({abs(literal) for clause in self.clauses.values() for literal in clause} - set(values))
        if not free:
            return values, 0
        refused = []
        for literal in (-free[0], free[0]):
            model, number = self.search(decisions + [literal])
            if model is not None:
                return model, 0
            refused.append(number)
        return None, self.learn(negated, refused)


def _refutation(tree, format):
    """The text of it: in LRAT it is the tree's own, in DRAT without hints, in FRAT with the last hints first."""
    if format == "lrat":
        return "".join(line + "\n" for line in tree.lines)
    lines = []
    for line in tree.lines:
        words = line.split()
        end = words.index("0")
        lines.append(words[1:end + 1] if format == "drat" else ["a", *words[:end + 1], "l", *words[-2:end:-1], "0"])
    first = len(tree.clauses) - len(lines)
    given = [["o", id, *tree.clauses[id], 0] for id in range(1, first + 1)] if format == "frat" else []
    return "".join(" ".join(map(str, words)) + "\n" for words in given + lines)


def fail(does):
    if does == "stubborn":
        signal.signal(signal.SIGTERM, signal.SIG_IGN)
    if does in ("hang", "stubborn"):
        time.sleep(900)
    if does == "lie":
        print("s UNSATISFIABLE")
        sys.exit(20)
    sys.exit(3 if does == "crash" else 0)


def main(words):
    format = os.environ.get("STUB_FORMAT", "lrat")
    if "--help" in words:
        print({"drat": "  --binary", "frat": "inputfile [frat-trim-file]", "lrat": "  --lrat=bool  write LRAT"}[format])
        return 0
    with open(os.environ["STUB_CALLS"], "a+") as calls:
        calls.write(" ".join(words) + "\n")
        calls.seek(0)
        count = len(calls.readlines())
    if count >= int(os.environ.get("STUB_FROM", "1000000")):
        fail(os.environ["STUB_DOES"])
    files = [word for word in words if word.startswith("/")]
    with open(files[0]) as cnf:
        clauses = [[int(word) for word in line.split()[:-1]] for line in cnf if line[0] not in "pc"]
    tree = Tree(clauses)
    model, _ = tree.search([])
    if model is not None:
        print("s SATISFIABLE\nv %s 0" % " ".join(str(variable if true else -variable) for variable, true in sorted(model.items())))
        return 10
    if len(files) > 1:
        with open(files[1], "w") as reasons:
            reasons.write(_refutation(tree, format))
    print("s UNSATISFIABLE")
    return 20


if __name__ == "__main__":
    sys.exit(main(sys.argv[1:]))
