#!/usr/bin/env python3
"""Finds the cheapest guards for a street of corners by one solver in this process.

After each solution the solver gets one constraint more, that the next is cheaper. Nothing is kept between the calls but the
first variable that is still free. It uses the module pbcnf and on Debian's python3-cryptominisat.
"""

import pbcnf
import pycryptosat

COSTS = [3, 5, 4, 6, 2, 4, 7, 3]


class Solver:
    """A solver that takes constraints over variables below `first`."""

    def __init__(self, first):
        self.solver, self.first = pycryptosat.Solver(), first

    def add(self, terms, relation, right):
        encoding = pbcnf.constraint(terms, relation, right, first=self.first)
        for clause in encoding.clauses:
            self.solver.add_clause(clause)
        self.first = encoding.next_free

    def model(self):
        """The value of each variable, from 1 on, or None if there is no model."""
        found, values = self.solver.solve()
        return values[1:] if found else None


def main():
    guards = range(1, len(COSTS) + 1)
    solver = Solver(first=len(COSTS) + 1)
    # Each stretch of the street is seen from one of its ends.
    for guard, other in zip(guards, guards[1:]):
        solver.add([(1, guard), (1, other)], ">=", 1)
    model = solver.model()
    while model:
        cost = sum(cost for cost, value in zip(COSTS, model) if value)
        print("cost", cost)
        solver.add(zip(COSTS, guards), "<=", cost - 1)
        model = solver.model()
    print("none is cheaper")


main()
