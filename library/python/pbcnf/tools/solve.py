"""`pbcnf-solve`: a solution of an OPB problem, by a SAT solver, or some, or all; or the proof that there is none."""

from __future__ import annotations

import argparse
import os
import sys
from typing import List, Optional

from pbcnf.tools import options, program, solvers, sources
from pbcnf.tools.oracle import Oracle
from pbcnf.tools.output import complain, say, status_of, test_output
from pbcnf.tools.program import Solution
from pbcnf.tools.progress import Progress
from pbcnf.tools.statuses import Status, Stop
from pbcnf.tools.watch import Interrupted, Watch
from pbcnf.tools.workspace import Workspace, workspace_of

_NAME = "pbcnf-solve"
_ABOUT = """Encodes an OPB problem, runs a SAT solver over the CNF, and prints the solution that its model gives, once that was tested.
Where there is none, CaDiCaL says why, and that is printed once `pbcnf refute` has accepted it."""
_STATUSES = """exit status:
  0   a solution was printed
  20  there is none, which is refuted, but with --unproved or another solver
      than CaDiCaL: s UNSATISFIABLE was printed
  2   a word has no place; nothing was done
  4   the file could not be read
  5   nothing can be printed
  9   the solver gave no answer
  69  there is no solver, or no pbcnf
  73  no temporary files could be made
  75  the time was over: s UNKNOWN was printed, or there may be more solutions
  129, 130, 143 at SIGHUP, SIGINT, SIGTERM; else that of encode, decode or refute
"""


def main(words: Optional[List[str]] = None) -> int:
    """Runs the command, and gives its exit status."""
    parser = options.parser(_NAME, _ABOUT, _STATUSES)
    options.add_encoding(parser)
    options.add_bounds(parser)
    many = parser.add_mutually_exclusive_group()
    many.add_argument("--count", metavar="N", type=options.count_from_one, help="print so many solutions, if there are as many")
    many.add_argument("--all", action="store_true", help="print all solutions")
    parser.add_argument("--unproved", action="store_true", help="take the solver's word that there is none")
    given = options.parse(parser, words)
    return status_of(_NAME, lambda: _run(given))


def _run(given: argparse.Namespace) -> int:
    test_output()
    watch = Watch(given.seconds)
    path = program.find(os.environ)
    team = solvers.find_team(given.solver, os.environ, watch, not given.unproved)
    problem = options.problem_of(given, _NAME)
    run = None
    try:
        with workspace_of(watch) as workspace:
            run = _Run(given, path, team, watch, workspace, problem)
            return run.run()
    except Interrupted as interrupted:
        if interrupted.signal is not None:
            return 128 + interrupted.signal
        if run is None or run.count == 0:
            say("s UNKNOWN\n")
        raise Stop(Status.UNPROVED, str(interrupted))


class _Run:
    """One run of the command over a problem that was read."""

    def __init__(self, given: argparse.Namespace, path: str, team: solvers.Team, watch: Watch, workspace: Workspace, problem: bytes) -> None:
        self._given = given
        self._path = path
        self._team = team
        self._watch = watch
        self._workspace = workspace
        self._problem = problem
        self._bound = options.bound_of(given)
        self.count = 0
        """How many solutions were printed."""

    def run(self) -> int:
        """Prints solutions, each of which is ruled out after it, until there are enough, or no other."""
        wanted = None if self._given.all else self._given.count or 1
        text = self._problem
        while self.count != wanted:
            oracle = self._pose(text)
            answer = oracle.ask(self._bound)
            if self.count == 0:
                for doubt in sources.doubts(self._problem):
                    complain(_NAME, "warning: " + doubt)
            if not isinstance(answer, Solution):
                return self._end(oracle)
            self._print(answer)
            text += _without(answer)
        return Status.DONE

    def _pose(self, text: bytes) -> Oracle:
        proved = program.Program(self._path, self._watch, self._workspace, text, self._given.opb)
        return Oracle(proved, options.encodings(self._given, proved), self._team, self._watch, self._workspace, Progress(_NAME))

    def _print(self, solution: Solution) -> None:
        value = "" if solution.value is None else "o %d\n" % solution.value
        status = "s SATISFIABLE\n" if self.count == 0 else ""
        say("%s%s%s\n" % (value, status, solution.values))
        self.count += 1

    def _end(self, oracle: Oracle) -> int:
        """There is no other solution, by the solver's word, and then by more than that."""
        is_proved = self._team.solver.reasons is not None
        if is_proved:
            oracle.certify(self._bound)
        if self.count == 0:
            say("s UNSATISFIABLE\n")
            return Status.NO_SOLUTION
        say("c %d, and no other%s\n" % (self.count, ", which is refuted" if is_proved else ", by the word of " + self._team.solver.name))
        return Status.DONE


def _without(solution: Solution) -> bytes:
    """The statement that rules out this solution alone."""
    words = solution.values.split()[1:]
    terms = " ".join("+1 " + (word[1:] if word.startswith("-") else "~" + word) for word in words)
    return ("\n%s >= 1 ;\n" % terms).encode("utf-8", "surrogateescape")


if __name__ == "__main__":
    sys.exit(main())
