#!/usr/bin/env python3
"""A plain search for a model of clauses, for tests over few variables: a command that reads DIMACS, and objects that are called as
PySAT's solvers and pycryptosat's are.

usage: plain_solver.py CNF
"""

import sys


def model_of(clauses, true=()):
    """The true literals of a model of clauses in which these are true, or None: by propagation, and by cases where that ends. A
    variable that is not among them may have any value."""
    true, left = set(true), [set(clause) for clause in clauses]
    while not any(-literal in true for literal in true):
        left = [{literal for literal in clause if -literal not in true} for clause in left if not clause & true]
        units = {literal for clause in left if len(clause) == 1 for literal in clause}
        if not all(left):
            return None
        if not left:
            return true
        if not units:
            literal = next(iter(left[0]))
            found = model_of(left, true | {literal})
            return model_of(left, true | {-literal}) if found is None else found
        true |= units
    return None


class PlainSolver:
    """A solver with PySAT's calls."""

    def __init__(self):
        self.clauses = []

    def add_clause(self, clause):
        self.clauses.append(list(clause))

    def solve(self):
        self.model = model_of(self.clauses)
        return self.model is not None

    def get_model(self):
        return sorted(self.model, key=abs)


class TupleSolver(PlainSolver):
    """One that answers as pycryptosat does."""

    def solve(self):
        if not super().solve():
            return False, None
        return True, (None, *(variable in self.model for variable in range(1, max(map(abs, self.model), default=0) + 1)))


def main(name):
    with open(name) as file:
        words = [int(word) for line in file if not line.startswith("p") for word in line.split()]
    clauses = []
    while words:
        end = words.index(0)
        clauses.append(words[:end])
        del words[:end + 1]
    found = model_of(clauses)
    print("s UNSATISFIABLE" if found is None else "s SATISFIABLE\nv %s" % " ".join(map(str, [*found, 0])))


if __name__ == "__main__":
    main(*sys.argv[1:])
