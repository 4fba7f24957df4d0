"""`pbcnf-minimize`: a solution of the least value, better ones as they are found, and a proof that none is better."""

from __future__ import annotations

import argparse
import os
import sys
from typing import List, Optional

from pbcnf.tools import options, program, solvers, sources
from pbcnf.tools.oracle import Oracle
from pbcnf.tools.output import Unheard, complain, say, status_of, test_output
from pbcnf.tools.progress import Progress
from pbcnf.tools.search import Found, Search
from pbcnf.tools.statuses import Status, Stop
from pbcnf.tools.watch import Interrupted, Watch
from pbcnf.tools.workspace import workspace_of

_NAME = "pbcnf-minimize"
_ABOUT = "Finds a solution of the least value of an OPB problem, and has it refuted that any is better. Prints better ones as they come."
_STATUSES = """exit status:
  0   the optimum was printed, after s OPTIMUM FOUND: pbcnf optimum says that it is one
  20  that there is any solution is refuted: s UNSATISFIABLE was printed
  2   a word has no place; nothing was done
  4   the file could not be read
  5   nothing can be printed, or kept
  9   the solver gave no answer
  65  there is no objective: a solution was printed
  69  there is no solver, or no pbcnf
  73  no temporary files could be made
  75  a signal came, the time was over, or it was not refuted that any is
      better, where there is no CaDiCaL or as --unproved asks: the best
      solution so far was printed after s SATISFIABLE, or s UNKNOWN
  else that of encode, decode, refute or optimum; the best solution so far was printed too
"""


def main(words: Optional[List[str]] = None) -> int:
    """Runs the command, and gives its exit status."""
    parser = options.parser(_NAME, _ABOUT, _STATUSES)
    options.add_encoding(parser)
    parser.add_argument("-q", "--quiet", action="store_true", help="nothing on standard error but faults")
    parser.add_argument("--keep", metavar="FOLDER", help="put best.model, refuted.cnf, refuted.proof and refuted.lrat there, for pbcnf optimum")
    parser.add_argument(
        "--jobs", metavar="N", type=options.count_from_one, default=min(2, os.cpu_count() or 1),
        help="so many solvers beside one another (2, if there are as many processors)")
    parser.add_argument("--unproved", action="store_true", help="have nothing refuted: the best solution that the solver finds is printed as any other")
    given = options.parse(parser, words, dict.fromkeys(("--at-most", "--at-most-minus"), "pbcnf-minimize chooses the bounds itself"))
    return status_of(_NAME, lambda: _run(given))


def _run(given: argparse.Namespace) -> int:
    test_output()
    progress = Progress(_NAME, given.quiet)
    watch = Watch(given.seconds, progress.tick)
    path = program.find(os.environ)
    team = solvers.find_team(given.solver, os.environ, watch, not given.unproved)
    problem = options.problem_of(given, _NAME)
    if team.prover is None and not (given.unproved or given.quiet):
        complain(_NAME, "%s gives no reasons, so only what a search in Python refutes soon will be; CaDiCaL does" % team.solver.name)
    with workspace_of(watch) as workspace:
        proved = program.Program(path, watch, workspace, problem, given.opb)
        oracle = Oracle(proved, options.encodings(given, proved), team, watch, workspace, progress)
        return _Run(proved, oracle, progress, watch, problem).run(given)


class _Run:
    """One run of the command over a problem that was read."""

    def __init__(self, proved: program.Program, oracle: Oracle, progress: Progress, watch: Watch, problem: bytes) -> None:
        self._proved = proved
        self._oracle = oracle
        self._progress = progress
        self._watch = watch
        self._problem = problem
        self._warned = False
        self._said: Optional[int] = None

    def run(self, given: argparse.Namespace) -> int:
        """Searches, has the end refuted, and prints the answer, also where something came between."""
        search = Search(self._oracle, lambda: self._proved.values(options.of_encode(given)), self._report, given.jobs)
        try:
            search.run()
            self._warn()
            return self._conclude(search.found, given.keep)
        except Interrupted as interrupted:
            raise self._give_up(search.found, Stop(Status.UNPROVED, str(interrupted)))
        except Stop as stop:
            raise self._give_up(search.found, stop)
        finally:
            self._progress.clear()

    def _report(self, found: Found) -> None:
        """Prints what a better solution is worth, and both bounds."""
        self._warn()
        incumbent = found.incumbent
        if incumbent is not None and incumbent.value is not None and incumbent.value != self._said:
            self._progress.clear()
            say("o %d\n" % incumbent.value)
            self._said = incumbent.value
        self._progress.knows(found, self._watch.seconds)

    def _warn(self) -> None:
        """Says once, of a text that was accepted, what makes one doubt that it is whole."""
        if not self._warned:
            self._warned = True
            for doubt in sources.doubts(self._problem):
                complain(_NAME, "warning: " + doubt)

    def _conclude(self, found: Found, keep: Optional[str]) -> int:
        best = found.incumbent
        if best is None:
            self._oracle.certify(None, keep)
            say("s UNSATISFIABLE\n")
            return Status.NO_SOLUTION
        if best.value is None:
            self._progress.clear()
            complain(_NAME, "there is no objective")
            say("s SATISFIABLE\n%s\n" % best.values)
            return Status.NO_OBJECTIVE
        self._oracle.certify_best(best, keep)
        self._progress.clear()
        say("s OPTIMUM FOUND\n%s\n" % best.values)
        return Status.DONE

    def _give_up(self, found: Found, stop: Stop) -> Stop:
        """Prints the best solution so far, if any, and gives how the command ends."""
        self._progress.clear()
        if isinstance(stop, Unheard):
            return stop
        if found.incumbent is not None:
            say("s SATISFIABLE\n%s\n" % found.incumbent.values)
        elif stop.status == Status.UNPROVED:
            say("s UNKNOWN\n")
        return stop


if __name__ == "__main__":
    sys.exit(main())
