"""Answers whether there is a solution within a bound on the objective: encodes the problem with it, and runs the solver.

Each bound is encoded anew. A table of all bounds over one CNF would save that, but it is up to ten thousand times as large as the
problem, and a refutation over the table with a bound is none that `optimum` takes. Over the one bound it is: so that of the greatest
refused bound is kept, and an optimum rests on the run which has found nothing better, without another. What such runs do not keep,
the clauses that were learned, an optimizer beside them does.
"""

from __future__ import annotations

import os
from typing import List, Optional, Protocol, Sequence, Tuple, Union

from pbcnf.tools import optimizers
from pbcnf.tools.children import can_learn
from pbcnf.tools.encodings import Encodings
from pbcnf.tools.loading import Loaded, at_most, load
from pbcnf.tools.optimizers import Descent
from pbcnf.tools.program import Program, Refutation, Solution, Summary, bound_option
from pbcnf.tools.reasons import is_long, make_lrat, takes_long
from pbcnf.tools.solvers import Attempt, Effort, Files, Learner, Reasons, Run, Solver, Team, Verdict
from pbcnf.tools.statuses import Status, Stop
from pbcnf.tools.sums import Sums
from pbcnf.tools.watch import Running, Watch
from pbcnf.tools.workspace import Workspace, put_whole

Answer = Union[Solution, Verdict]
# Of a longer text no sum of constraints is looked for, and of none more often than so many times.
_SHORT = 200000
_SUMS = 20
# A CNF of no more clauses is encoded at once, and so many seconds a solver has for it alone.
_FEW = 20000
_HEAD_START = 0.1
# So many seconds the search over the constraints has for a refutation alone, or as many as were needed before it.
_PATIENCE = 20
# The statuses of `decode` where the fault is in the model: its grammar, its values, or that there is none.
_OF_MODEL = (1, 8, 9)


def tested(program: Program, run: Run, model: str, bound: Sequence[str]) -> Solution:
    """The solution that a solver's text gives; where it gives none, how the solver ended is said too."""
    try:
        return program.decode(model, bound)
    except Stop as stop:
        raise Stop(stop.status, run.ended() if stop.status in _OF_MODEL else stop.words)


class Told(Protocol):
    """Who hears what is asked for."""

    def asks(self, bound: Optional[int], size: Summary) -> None:
        """The solver is about to look for a solution of at most this value, over a CNF of this size."""

    def refutes(self, is_long: bool) -> None:
        """That there is nothing better is about to be refuted, which may take long."""


class Question:
    """True if there is a solution of at most a value, which a solver is about to answer, or some beside one another, the first of whom
    has to."""

    def __init__(self, bound: Optional[int], is_limited: bool, options: List[str], attempts: List[Attempt]) -> None:
        self.bound = bound
        self.is_limited = is_limited
        self.options = options
        self.first = attempts[0]
        self.cnf = attempts[0].files.cnf
        self.attempts = attempts

    @property
    def runnings(self) -> List[Running]:
        """The programs that are heard."""
        return [attempt.run.running for attempt in self.attempts]


Asked = Union[Question, Descent]


class Oracle:
    """Looks for solutions of a problem, and keeps why there are none."""

    def __init__(self, program: Program, encodings: Encodings, team: Team, watch: Watch, workspace: Workspace, told: Told) -> None:
        self._program = program
        self._encodings = encodings
        self._team = team
        self._watch = watch
        self._workspace = workspace
        self._told = told
        self._count = 0
        # Those of the last CNF.
        self._clauses = 0
        self._refused: Optional[Question] = None
        # That the search over the constraints is asked too, and the derivation that it wrote.
        self._learns = True
        self._learned = ""
        # How often a sum of constraints may still be looked for, which is false, and the bound that one has refuted.
        self._sums_left = _SUMS if len(program.text) <= _SHORT and team.prover is not None else 0
        self._sums: Optional[Tuple[Sums, Loaded]] = None
        self._summed: Optional[Tuple[int, Refutation]] = None

    def ask(self, bound: Optional[int], effort: Optional[Effort] = None) -> Answer:
        """A solution of at most this value, or that there is none, or that the effort was not enough to know."""
        return self.wait([self.pose(bound, effort)])[1]

    def pose(self, bound: Optional[int], effort: Optional[Effort] = None) -> Question:
        """Has the solver begin to look for a solution of at most this value."""
        return self._pose(self._team.solver, bound, effort)

    def pose_to_all(self, bound: int) -> Question:
        """The same, and others beside it, whose reasons are soon checked where the solver's are not."""
        if self._team.prover is None:
            return self.pose(bound)
        # The search over the constraints needs no CNF. Where that is small the solver has the answer before others have begun.
        is_small = self._clauses <= _FEW
        others = [] if is_small else self._learner(bound)
        question = self.pose(bound)
        if not is_small or not self._watch.ends_within(question.first.run.running, _HEAD_START):
            question.attempts += (others or self._learner(bound)) + self._rival(question.cnf)
        return question

    def sums_up(self, bound: int) -> bool:
        """Whether one sum of constraints is found which refutes that there is a solution of at most this value."""
        if self._sums_left == 0:
            return False
        self._sums_left -= 1
        if self._sums is None:
            loaded = load(self._program.text)
            self._sums = Sums(loaded.constraints), loaded
        sums, loaded = self._sums
        words = sums.refute(at_most(loaded.objective or [], bound))
        if words is not None:
            self._summed = bound, self._added_up(words, len(loaded.constraints) + 1, loaded.variables)
        return words is not None

    def _added_up(self, words: str, count: int, variables: int) -> Refutation:
        """The files of a derivation of the empty clause, which is all that its CNF has, by such a sum of so many constraints."""
        text = "pseudo-Boolean derivation profile 1\nf %d\npol %s\nrup >= 1 ; %d\nout %d\nend\n" % (count, words, count + 1, count + 2)
        write = self._workspace.write
        return Refutation(write("cnf.sum", b"p cnf %d 1\n0\n" % variables), write("proof.sum", text.encode("ascii")), write("lrat.sum", b""))

    def _learner(self, bound: Optional[int], seconds: Optional[float] = None) -> List[Attempt]:
        """Has the search over the constraints look for a refutation, if it can, for so many seconds."""
        if bound is None or not self._learns or not can_learn(self._program.text):
            return []
        learner, files = Learner(self._watch), self._files(self._workspace.path("cnf.learner"), "learner")
        return [Attempt(learner, files, learner.start(self._program.problem, bound, files, seconds))]

    def _rival(self, cnf: str) -> List[Attempt]:
        """Has the rival look for a refutation, if there is one."""
        rival, files = self._team.rival, self._files(cnf, "rival")
        return [] if rival is None else [Attempt(rival, files, rival.start(files))]

    def _pose(self, solver: Solver, bound: Optional[int], effort: Optional[Effort]) -> Question:
        self._count += 1
        files = self._files(self._workspace.path("cnf.%d" % self._count), "solver")
        size, options = self._encodings.encode(_bound(bound), files.cnf)
        self._clauses = size.clauses
        self._told.asks(bound, size)
        return Question(bound, effort is not None, options, [Attempt(solver, files, solver.start(files, effort))])

    def _files(self, cnf: str, name: str) -> Files:
        """Those of one who is asked."""
        return Files(cnf, *(self._workspace.path("%s.%d.%s" % (kind, self._count, name)) for kind in ("model", "reasons")))

    def descend(self, bound: int) -> Optional[Descent]:
        """Has an optimizer look for better and better solutions of at most this value, if there is one."""
        return optimizers.start(self._program, bound, self._encodings.options, self._watch, self._workspace)

    def wait(self, asked: Sequence[Asked]) -> Tuple[Asked, Answer]:
        """Waits for the first answer to what is asked: to a question, which is put no more then, or the next one of an optimizer."""
        while True:
            heard = self._watch.wait([running for one in asked for running in one.runnings])
            one = next(one for one in asked if heard in one.runnings)
            answer = self._hear(one) if isinstance(one, Descent) else self._end(one, heard)
            if answer is not None:
                return one, answer

    def drop(self, one: Asked) -> None:
        """Asks it no more."""
        for running in one.runnings:
            self._watch.end(running)
        if isinstance(one, Question):
            _clear(one)

    def certify(self, bound: Optional[int], keep: Optional[str] = None) -> None:
        """Comes back where the program's `refute` accepts that no solution is within the bound, which the solver has refused.

        Where `keep` is a folder, what it rests on is put there.
        """
        refutation = self._refutation(bound)
        self._program.refute(refutation, _bound(bound))
        if keep is not None:
            _put(refutation, keep)

    def certify_best(self, best: Solution, keep: Optional[str] = None) -> None:
        """Comes back where the program's `optimum` accepts this solution as one; the solver has refused what is better.

        Where `keep` is a folder, what it rests on is put there.
        """
        assert best.value is not None
        refutation = self._refutation(best.value - 1)
        try:
            self._program.optimum(best, refutation)
        except Stop:
            if refutation.proof != self._learned and self._summed is None:
                raise
            # What was learned or added up is refused: the prover's reasons are of other making.
            self._refused, self._summed, self._learns = None, None, False
            refutation = self._refutation(best.value - 1)
            self._program.optimum(best, refutation)
        if keep is not None:
            _put(refutation, keep)
            put_whole(self._workspace.write("best.model", best.model), os.path.join(keep, "best.model"))

    def _refutation(self, bound: Optional[int]) -> Refutation:
        """The refutation that there is a solution within the bound: that of the solver's run where the solver is the prover, else that
        of one more run. The derivation is that of the same CNF, which is written once more beside it."""
        solver, prover = self._team.solver, self._team.prover
        if self._summed is not None and self._summed[0] == bound:
            return self._summed[1]
        if prover is None:
            return self._learn_alone(bound)
        if self._refused is None or self._refused.bound != bound or solver is not prover:
            self.wait([self._pose(prover, bound, None)])
        refused = self._refused
        if refused is None or refused.bound != bound:
            raise Stop(Status.NO_ANSWER, "%s says now this, now that" % solver.name)
        self._told.refutes(takes_long(refused.attempts) and self._team.rival is None)
        if len(refused.attempts) == 1 and is_long(refused.first):
            refused.attempts += self._learner(bound) + self._rival(refused.cnf)
        attempt, lrat = make_lrat(refused.attempts, self._watch, self._workspace)
        if attempt.solver.reasons is Reasons.DERIVATION:
            self._learned = attempt.files.reasons
            return Refutation(attempt.files.cnf, attempt.files.reasons, lrat)
        proof = self._workspace.path("proof")
        self._program.encode(refused.options, refused.cnf, proof)
        return Refutation(refused.cnf, proof, lrat)

    def _learn_alone(self, bound: Optional[int]) -> Refutation:
        """That of the search over the constraints, where no solver gives reasons and it finds one in time."""
        for attempt in self._learner(bound, max(_PATIENCE, self._watch.seconds)) if self._team.is_proved else []:
            self._told.refutes(False)
            self._watch.wait([attempt.run.running])
            if attempt.run.verdict() is Verdict.NO_MODEL:
                self._learned = attempt.files.reasons
                return Refutation(attempt.files.cnf, attempt.files.reasons, self._workspace.write("lrat", b""))
        raise Stop(Status.UNPROVED, "%s finds nothing better, and gives no reasons that would refute it" % self._team.solver.name)

    def _end(self, question: Question, heard: Running) -> Optional[Answer]:
        """The answer that one of the solvers has given, or nothing where it is one beside the first that has failed."""
        attempt = next(attempt for attempt in question.attempts if attempt.run.running is heard)
        if attempt is not question.first and attempt.run.verdict() is Verdict.UNKNOWN:
            question.attempts.remove(attempt)
            return None
        answer = self._judge(question, attempt)
        if answer is Verdict.NO_MODEL:
            self._keep(question)
        else:
            self.drop(question)
        return answer

    def _hear(self, descent: Descent) -> Optional[Answer]:
        """A better solution, or that it finds none, or that it has failed; or nothing as yet."""
        model = descent.model()
        if model is not None:
            try:
                return self._program.decode(self._workspace.write("optimizer.model", model))
            except Stop as stop:
                if stop.status not in _OF_MODEL:
                    raise
                return Verdict.UNKNOWN
        if descent.has_ended:
            return Verdict.NO_MODEL
        return None if descent.running.status is None and descent.running.output is not None else Verdict.UNKNOWN

    def _judge(self, question: Question, attempt: Attempt) -> Answer:
        verdict = attempt.run.verdict()
        if verdict is Verdict.MODEL:
            return tested(self._program, attempt.run, attempt.files.model, _bound(question.bound))
        if verdict is Verdict.UNKNOWN and not (question.is_limited and attempt.run.gave_up):
            raise Stop(Status.NO_ANSWER, attempt.run.ended())
        return verdict

    def _keep(self, question: Question) -> None:
        """Keeps why nothing is within the greatest bound that was refused."""
        before = self._refused
        self._refused = question
        if before is not None:
            # The questions are put beside one another, so that the greater may have been refused before.
            if question.bound is not None and (before.bound is None or question.bound < before.bound):
                self._refused, before = before, question
            self.drop(before)


def _bound(bound: Optional[int]) -> List[str]:
    """The options for a bound, of `encode`, `decode` and `refute`."""
    return [] if bound is None else [bound_option(bound)]


def _put(refutation: Refutation, folder: str) -> None:
    """Puts the files of a refutation into a folder."""
    for name, path in refutation._asdict().items():
        put_whole(path, os.path.join(folder, "refuted." + name))


def _clear(question: Question) -> None:
    """Takes away its files, of which there may be none."""
    for path in (path for attempt in question.attempts for path in attempt.files):
        if os.path.exists(path):
            os.unlink(path)
