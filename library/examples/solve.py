#!/usr/bin/env python3
"""Solves an OPB file in one process: encodes it, hands its clauses to CryptoMiniSat, and decodes the model, which tests it.

usage: solve.py OPB [--general tree]

It uses the module pbcnf and on Debian's python3-cryptominisat. Exit status: that of pbcnf in the same case, or 20 where there is
no solution.
"""

import argparse
import sys

import pbcnf
import pycryptosat


def true_literals(clauses):
    """A model of some clauses as its true literals, or None where there is none."""
    solver = pycryptosat.Solver()
    for clause in clauses:
        solver.add_clause(clause)
    found, values = solver.solve()
    return [var if value else -var for var, value in enumerate(values) if var and value is not None] if found else None


def solve(opb, general):
    encoding = pbcnf.encode(opb, general=general)
    # An empty clause has no literal that the solver could be handed.
    model = None if [] in encoding.clauses else true_literals(encoding.clauses)
    if model is None:
        print("s UNSATISFIABLE")
        return 20
    print(pbcnf.decode(opb, model).text, end="")
    return 0


def main():
    words = argparse.ArgumentParser(description="Solves an OPB file.")
    words.add_argument("opb", type=argparse.FileType("rb"))
    words.add_argument("--general", choices=("diagram", "tree", "adder"), default="diagram")
    asked = words.parse_args()
    try:
        return solve(asked.opb.read(), asked.general)
    except pbcnf.Error as error:
        print(error, file=sys.stderr)
        return error.status


sys.exit(main())
