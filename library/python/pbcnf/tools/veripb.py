"""pbcnf-veripb: prints a derivation of pbcnf, and a refutation of its CNF, as a proof in the format of VeriPB, version 2.0."""

from __future__ import annotations

import argparse
import os
import shutil
import sys
import tempfile
from typing import IO, List, Optional

from .veripb_bridge import Derivation, refute
from .veripb_clauses import read_cnf
from .veripb_derivation import read_derivation
from .veripb_printing import Proof
from .veripb_problem import Problem, read_problem
from .veripb_texts import NO_COUNTERPART, Refusal, last_line

READ_FAULT = 4
WRITE_FAULT = 5
OUT_OF_MEMORY = 6
NO_TEMPORARY_FILE = 73
INTERRUPTED = 130

_DESCRIPTION = """Prints the derivation PROOF of the clauses CNF of a linear problem OPB, as `pbcnf encode` writes it, and the refutation
LRAT of those clauses where one is named, as a proof that VeriPB is to check. It checks neither."""


def main(words: Optional[List[str]] = None) -> int:
    """The exit status of the command with these words, or with those of the process."""
    parser = _parser()
    chosen = parser.parse_intermixed_args(words)
    try:
        with tempfile.TemporaryFile("w+", encoding="ascii", newline="\n") as file:
            _print_proof(chosen, file)
            file.seek(0)
            _put(file)
        return 0
    except Refusal as refusal:
        status, told = refusal.status, str(refusal)
    except OSError as error:
        # Reading and standard output are refused by themselves. That a full disk hinders closing is reported here too.
        status, told = NO_TEMPORARY_FILE, f"the temporary file could not be made or written: {error.strerror}"
    except MemoryError:
        status, told = OUT_OF_MEMORY, "out of memory"
    except KeyboardInterrupt:
        status, told = INTERRUPTED, "interrupted; nothing was printed"
    print(f"{parser.prog}: {told}", file=sys.stderr)
    return status


def _parser() -> argparse.ArgumentParser:
    parser = argparse.ArgumentParser(prog="pbcnf-veripb", description=_DESCRIPTION, allow_abbrev=False)
    parser.add_argument("opb", metavar="OPB", help="the problem: linear, in OPB")
    parser.add_argument("cnf", metavar="CNF", help="its clauses")
    parser.add_argument("proof", metavar="PROOF", help="their derivation")
    parser.add_argument("lrat", metavar="LRAT", nargs="?", help="a refutation of the clauses; without it the proof has no conclusion")
    parser.add_argument("--clauses", action="store_true", help="state each clause of the CNF in a line of its own, in their order")
    parser.add_argument("--hints", action="store_true", help="print the hints of rup lines, after their semicolon")
    return parser


def _print_proof(chosen: argparse.Namespace, file: IO[str]) -> None:
    problem = read_problem(_read(chosen.opb))
    cnf = read_cnf(_read(chosen.cnf))
    if cnf.variables < problem.variables():
        raise Refusal(1, "CNF: fewer variables than OPB has")
    text = _read(chosen.proof)
    loaded, steps = read_derivation(text)
    _judge_loaded(problem, loaded)
    proof = Proof(file, problem.names(), loaded, chosen.hints)
    derivation = Derivation(proof, loaded, cnf, chosen.clauses)
    for line, step in steps:
        derivation.translate(line, step)
    derivation.end(last_line(text) - 1)
    proof.conclude(None if chosen.lrat is None else refute(proof, cnf, derivation.clauses, _read(chosen.lrat)))


def _judge_loaded(problem: Problem, loaded: int) -> None:
    """A derivation with one constraint more is that of the problem with a bound on its objective, most likely."""
    due = problem.loaded
    if loaded == due + 1 and problem.has_objective:
        raise Refusal(NO_COUNTERPART, "PROOF: a bound on the objective has no counterpart in VeriPB's format, since OPB does not have it")
    if loaded != due:
        raise Refusal(1, f"PROOF: expected loaded count {due}, as OPB has it, and not {loaded}")


def _read(name: str) -> str:
    """The text of a file, a character for each byte."""
    try:
        with open(name, encoding="latin-1", newline="\n") as file:
            return file.read()
    except OSError as error:
        raise Refusal(READ_FAULT, f"{name}: {error.strerror}") from error


def _put(file: IO[str]) -> None:
    """Copies what was printed to standard output, once all of it is there."""
    try:
        shutil.copyfileobj(file, sys.stdout)
        sys.stdout.flush()
    except OSError as error:
        # What Python would still flush at its end goes nowhere.
        os.dup2(os.open(os.devnull, os.O_WRONLY), 1)
        raise Refusal(WRITE_FAULT, f"standard output: {error.strerror}") from error


if __name__ == "__main__":
    sys.exit(main())
