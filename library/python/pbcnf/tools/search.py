"""Looks for a solution of the least value, and gives each better one as it is found."""

from __future__ import annotations

from typing import Callable, List, NamedTuple, Optional, Protocol, Sequence, Tuple

from pbcnf.tools.optimizers import Descent
from pbcnf.tools.oracle import Answer, Asked, Question
from pbcnf.tools.program import Solution
from pbcnf.tools.seekers import JustBelow, Seeker, seekers
from pbcnf.tools.solvers import Effort, Verdict
from pbcnf.tools.values import Values


class Asks(Protocol):
    """What the search asks: `Oracle`, or what stands for it."""

    def pose(self, bound: Optional[int], effort: Optional[Effort] = None) -> Question:
        """Begins to look for a solution of at most this value."""

    def pose_to_all(self, bound: int) -> Question:
        """The same, by all who can say why there is none."""

    def descend(self, bound: int) -> Optional[Descent]:
        """Has an optimizer look for better and better solutions of at most this value, if there is one."""

    def wait(self, asked: Sequence[Asked]) -> Tuple[Asked, Answer]:
        """The first answer to one of these: a solution, or that there is none, or that the effort was not enough to know."""

    def sums_up(self, bound: int) -> bool:
        """Whether it is plain at once that there is no solution of at most this value."""

    def drop(self, one: Asked) -> None:
        """Asks it no more."""


class Found:
    """What is known so far."""

    def __init__(self, incumbent: Optional[Solution] = None, lower: Optional[int] = None) -> None:
        self.incumbent = incumbent
        self.lower = lower
        """No solution has a lesser value, where the solver is to be believed."""


class _Posed(NamedTuple):
    """A question that was put, by whom, and up to which place it asks."""

    question: Question
    seeker: Seeker
    place: int


class Search:
    """A search from a first solution on. `found` is what it knows, also where it was left by an exception."""

    def __init__(self, oracle: Asks, values: Callable[[], Values], report: Callable[[Found], None], jobs: int = 1) -> None:
        self._oracle = oracle
        self._values = values
        self._report = report
        self._jobs = jobs
        self._seekers: List[Seeker] = []
        self._descent: Optional[Descent] = None
        # The last best solution that was hard to better.
        self._hard = -1
        self.found = Found()

    def run(self) -> None:
        """Ends where no solution is better than the incumbent, or where there is none at all."""
        _, answer = self._oracle.wait([self._oracle.pose(None)])
        if isinstance(answer, Solution):
            self._take(answer)
            if answer.value is not None:
                values = self._values()
                self._descend(values, values.place(answer.value))

    def _descend(self, values: Values, upper: int) -> None:
        """Goes on until nothing is left between the places of the lower bound and of the incumbent."""
        self.found.lower = values.at(0)
        lower = 0
        if lower < upper and self._jobs > 1:
            self._descent = self._oracle.descend(values.at(upper) - 1)
        self._seekers = seekers(self._jobs - (self._descent is not None))
        posed: List[_Posed] = []
        while lower < upper:
            self._pose(posed, values, lower, upper)
            asked, answer = self._oracle.wait([*(one.question for one in posed), *([self._descent] if self._descent else [])])
            one = next((one for one in posed if one.question is asked), None)
            if isinstance(answer, Solution):
                assert answer.value is not None
                if values.place(answer.value) < upper:
                    upper = values.place(answer.value)
                    self._take(answer)
            elif one is None:
                self._end_descent(posed, answer)
            elif answer is Verdict.NO_MODEL:
                lower = one.place + 1
                self.found.lower = values.at(lower)
                self._report(self.found)
            else:
                lower = self._sum_up(values, lower, upper)
            if one is not None:
                posed.remove(one)
                _tell(one.seeker, answer)
            self._drop(posed, lower, upper)
        if self._descent is not None:
            self._oracle.drop(self._descent)

    def _sum_up(self, values: Values, lower: int, upper: int) -> int:
        """The place of the lower bound, behind what was too hard: that of the best solution, if one sum refutes that any is better. That is
        tried once for each."""
        if self._hard == upper:
            return lower
        self._hard = upper
        if lower < upper and self._oracle.sums_up(values.at(upper) - 1):
            lower = upper
            self.found.lower = values.at(lower)
            self._report(self.found)
        return lower

    def _pose(self, posed: List[_Posed], values: Values, lower: int, upper: int) -> None:
        """Has each seeker ask something that no other one asks."""
        for seeker in self._seekers:
            if all(one.seeker is not seeker for one in posed):
                place = seeker.choose(lower, upper)
                if all(one.place != place for one in posed):
                    # Of the bounds that ask the same the greatest: where it is refused, an optimum at the next value rests on just that.
                    bound = values.at(place + 1) - 1
                    is_last = seeker.effort is None and self._jobs > 1
                    posed.append(_Posed(self._oracle.pose_to_all(bound) if is_last else self._oracle.pose(bound, seeker.effort), seeker, place))

    def _end_descent(self, posed: List[_Posed], answer: Answer) -> None:
        """The optimizer has ended. If it finds nothing better, just that is asked from now on."""
        if self._descent is not None:
            self._oracle.drop(self._descent)
            self._descent = None
        if answer is Verdict.NO_MODEL:
            for one in posed:
                self._oracle.drop(one.question)
            posed.clear()
            self._seekers = [JustBelow()]

    def _drop(self, posed: List[_Posed], lower: int, upper: int) -> None:
        """Drops what is known by now."""
        for one in list(posed):
            if not lower <= one.place < upper:
                self._oracle.drop(one.question)
                posed.remove(one)

    def _take(self, solution: Solution) -> None:
        self.found.incumbent = solution
        self._report(self.found)


def _tell(seeker: Seeker, answer: Answer) -> None:
    if isinstance(answer, Solution):
        seeker.found()
    elif answer is Verdict.NO_MODEL:
        seeker.refused()
    else:
        seeker.undecided()
