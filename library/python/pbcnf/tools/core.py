"""`pbcnf-core`: for a problem without solutions, few statements that already have none, and the proof that they have none.

The statements that the refutation rests on are found by following it back, and then made fewer: one is left out, and where the others
still have no solution it stays out. What is printed is itself encoded, solved and refuted by the program, so that neither the way
there nor the solver need be believed.
"""

from __future__ import annotations

import argparse
import os
import sys
from typing import List, Mapping, Optional

from pbcnf.tools import options, program, solvers, tracing
from pbcnf.tools.opb_text import Statement, statements, token_at
from pbcnf.tools.output import complain, say, status_of, test_output
from pbcnf.tools.program import Program, Refutation
from pbcnf.tools.reasons import is_long, make_lrat
from pbcnf.tools.solvers import Attempt, Files, Verdict
from pbcnf.tools.statuses import Status, Stop
from pbcnf.tools.watch import Interrupted, Watch
from pbcnf.tools.workspace import Workspace, put_whole, workspace_of

_NAME = "pbcnf-core"
_ABOUT = """Prints statements of an OPB problem without solutions that have none by themselves, each after its line in the text, and then
`refuted`, which the program says of them. Where there is a solution it prints that. --seconds is for how long statements are left out,
30 where it is not given; --solver is CaDiCaL, by its name or path."""
_STATUSES = """exit status:
  0   there is a solution, which was printed, and no core
  20  the core was printed, and refuted
  2   a word has no place; nothing was done
  4   the file could not be read
  5   nothing can be printed, or kept
  9   CaDiCaL gave no answer
  69  there is neither CaDiCaL nor CryptoMiniSat, or no pbcnf
  73  no temporary files could be made
  129, 130, 143 at SIGHUP, SIGINT, SIGTERM; else that of encode, decode or refute
"""
_SECONDS = 30.0
# Where more statements than this are still to be tried, it pays to follow each new refutation back.
_MANY = 8


def main(words: Optional[List[str]] = None) -> int:
    """Runs the command, and gives its exit status."""
    parser = options.parser(_NAME, _ABOUT, _STATUSES)
    parser.add_argument("--keep", metavar="FILE", help="write the core there as an OPB text")
    given = options.parse(parser, words)
    try:
        return status_of(_NAME, lambda: _run(given))
    except Interrupted as interrupted:
        return 128 + (interrupted.signal or 0)


def _run(given: argparse.Namespace) -> int:
    test_output()
    watch = Watch()
    path = program.find(os.environ)
    problem = options.problem_of(given, _NAME)
    with workspace_of(watch) as workspace:
        solver = _find_solver(given.solver, os.environ, watch)
        return _Core(path, watch, workspace, solver, given).run(problem, given.seconds or _SECONDS, given.keep)


class _Core:
    """Looks for a core of one problem."""

    def __init__(self, path: str, watch: Watch, workspace: Workspace, solver: solvers.Solver, given: argparse.Namespace) -> None:
        self._path = path
        self._name = given.opb
        self._watch = watch
        self._workspace = workspace
        self._solver = solver
        self._team = solvers.Team(solver, solver, watch)
        self._options = options.of_encode(given)
        self._lrat = ""

    def run(self, problem: bytes, seconds: float, keep: Optional[str]) -> int:
        """Prints the core after its refutation, or the solution."""
        proved = self._pose(problem)
        if self._refute(proved) is Verdict.MODEL:
            return self._print_solution(proved)
        every = statements(problem)
        core = self._shrink(self._sound(self._trace(every), every), seconds)
        self._certify(core)
        if keep is not None:
            put_whole(self._workspace.write("core", _as_text(core, True)), keep)
        for statement in core:
            say("%d: %s\n" % (statement.line, _as_line(statement).decode("utf-8", "surrogateescape")))
        say("refuted\n")
        return Status.NO_SOLUTION

    def _pose(self, text: bytes) -> Program:
        return Program(self._path, self._watch, self._workspace, text, self._name)

    def _file(self, name: str) -> str:
        return self._workspace.path(name)

    def _refute(self, proved: Program) -> Verdict:
        """True if a problem has a solution; where it has none, the files `cnf`, `proof` and that of `_lrat` say why."""
        files = Files(self._file("cnf"), self._file("model"), self._file("reasons"))
        proved.encode(self._options, files.cnf, self._file("proof"))
        run = self._solver.run(files)
        verdict = run.verdict()
        if verdict is Verdict.UNKNOWN:
            raise Stop(Status.NO_ANSWER, run.ended())
        if verdict is Verdict.NO_MODEL and self._solver.reasons is not None:
            attempts = [Attempt(self._solver, files, run)]
            if is_long(attempts[0]) and self._team.rival is not None:
                beside = Files(files.cnf, self._file("rival.model"), self._file("rival.reasons"))
                attempts.append(Attempt(self._team.rival, beside, self._team.rival.start(beside)))
            _, self._lrat = make_lrat(attempts, self._watch, self._workspace)
        return verdict

    def _print_solution(self, proved: Program) -> int:
        solution = proved.decode(self._file("model"))
        complain(_NAME, "the problem has a solution, so that there is no core")
        if solution.value is not None:
            say("o %d\n" % solution.value)
        say("s SATISFIABLE\n%s\n" % solution.values)
        return Status.DONE

    def _trace(self, posed: List[Statement]) -> List[Statement]:
        """Those of the statements that were refuted on which the refutation rests."""
        with open(self._file("cnf"), "rb") as cnf, open(self._lrat, "rb") as lrat:
            clauses = tracing.clauses_behind(cnf, lrat)
        with open(self._file("proof"), "rb") as proof:
            loaded, needed = tracing.loaded_behind(proof, clauses)
        return tracing.statements_behind(posed, loaded, needed)

    def _sound(self, traced: List[Statement], every: List[Statement]) -> List[Statement]:
        """The traced statements where these have no solution, else all."""
        complain(_NAME, "%d of %d statements are in the refutation" % (len(traced), len(every)))
        return traced if self._decide(traced, None) is Verdict.NO_MODEL else every

    def _decide(self, kept: List[Statement], seconds: Optional[float]) -> Verdict:
        """True if these statements have a solution, as far as can be said in the time."""
        self._pose(_as_text(kept)).encode(self._options, self._file("cnf"))
        return self._solver.run(Files(self._file("cnf"), self._file("model")), seconds=seconds).verdict()

    def _shrink(self, core: List[Statement], seconds: float) -> List[Statement]:
        """A core in it, from which none can be left out, if there is the time to try each."""
        needed: List[Statement] = []
        untried = list(core)
        while untried:
            left = seconds - self._watch.seconds
            tried = untried.pop()
            verdict = self._decide(untried + needed, left) if left > 0 else Verdict.UNKNOWN
            if verdict is Verdict.UNKNOWN:
                complain(_NAME, "the time is over: %d of %d statements are known to be needed" % (len(needed), len(untried + needed) + 1))
                return untried + [tried] + needed
            if verdict is Verdict.MODEL:
                needed.insert(0, tried)
            elif len(untried) > _MANY:
                posed = untried + needed
                self._refute(self._pose(_as_text(posed)))
                traced = {statement.number for statement in self._trace(posed)}
                untried = [statement for statement in untried if statement.number in traced]
        complain(_NAME, "%d statement%s, of which each is needed" % (len(needed), "" if len(needed) == 1 else "s"))
        return needed

    def _certify(self, core: List[Statement]) -> None:
        """Comes back where the program says that the core has no solution."""
        proved = self._pose(_as_text(core))
        if self._refute(proved) is Verdict.MODEL:
            raise Stop(Status.NO_ANSWER, "CaDiCaL says now this, now that")
        proved.refute(Refutation(self._file("cnf"), self._file("proof"), self._lrat), [])


def _find_solver(named: Optional[str], environment: Mapping[str, str], watch: Watch) -> solvers.Solver:
    """CaDiCaL or CryptoMiniSat, by this name or path, or that of SOLVER where it is CaDiCaL, or from the path."""
    solver = solvers.prover_named(named, watch) if named else solvers.find_prover(None, environment, watch)
    if solver is None:
        lacking = "%s is not on the path, or is none of CaDiCaL and CryptoMiniSat" % named if named else "neither cadical nor cryptominisat5 is on the path"
        raise Stop(Status.MISSING, lacking + ", which give reasons")
    return solver


def _as_text(kept: List[Statement], with_lines: bool = False) -> bytes:
    """An OPB text of these statements alone."""
    return b"".join((b"* line %d\n" % statement.line if with_lines else b"") + _as_line(statement) + b"\n" for statement in kept)


def _as_line(statement: Statement) -> bytes:
    """A statement on one line, without the comments that stand within."""
    if b"\n" not in statement.text:
        return statement.text
    words: List[bytes] = []
    token = token_at(statement.text, 0)
    while token:
        words.append(token.text)
        token = token_at(statement.text, token.end)
    return b" ".join(words)


if __name__ == "__main__":
    sys.exit(main())
