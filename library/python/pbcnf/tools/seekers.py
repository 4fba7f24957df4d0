"""Which bound is asked for next, and how far the solver may go for it, by those who look from above and from below.

Bounds are given by places: those of the values that the sum can have, from the lower bound to before the best solution. What the
solver does not decide within the effort is taken nearer to where it is easier, up to the nearest, where only more effort is left. So
each call moves one of the two bounds or leads to one that does, and none takes long for nothing.
"""

from __future__ import annotations

from typing import List, Optional, Protocol

from pbcnf.tools.solvers import Effort

_FIRST_EFFORT = Effort(2000, 1.0)
_MORE = 5
# A bound that is not decided is taken nearer by this factor.
_NEARER = 4
# From so many places on it is not likely that the best solution so far is the best of all.
_MANY = 1000


class Seeker(Protocol):
    """Who chooses the next bound, and hears what came of it before it chooses another."""

    @property
    def effort(self) -> Optional[Effort]:
        """How far the solver may go, if not to its end."""

    def choose(self, lower: int, upper: int) -> int:
        """A place from the lower bound to before the best solution: is there a solution up to there?"""

    def found(self) -> None:
        """There was one."""

    def refused(self) -> None:
        """There was none."""

    def undecided(self) -> None:
        """The solver has not decided it."""


class FromAbove:
    """Takes a part of what lies below the best solution, a half at most, and where that is too hard less. What is refused may be so
    because the best solution cannot be bettered: then one question just below it saves all that lie between."""

    def __init__(self, part: int = 2) -> None:
        self.effort = _FIRST_EFFORT
        self._part = part
        self._step = 1
        self._asks_nearest = False

    def choose(self, lower: int, upper: int) -> int:
        """The step is a part of the places that there are."""
        step = max(1, (upper - lower) // self._part)
        self._asks_nearest = self._asks_nearest and 1 < step and upper - lower < _MANY
        self._step = 1 if self._asks_nearest else step
        return upper - self._step

    def found(self) -> None:
        """The next step is twice as long again, up to a half."""
        self._part = max(2, self._part // 2)
        self._asks_nearest = False

    def refused(self) -> None:
        """The next one is the nearest, if there is any."""
        self._asks_nearest = True

    def undecided(self) -> None:
        """The next one is nearer to the best solution."""
        if self._asks_nearest:
            self._asks_nearest = False
        elif self._step == 1:
            self.effort = self.effort.times(_MORE)
        else:
            self._part *= _NEARER


class FromBelow:
    """Raises the lower bound, by steps that are the longer the more easily it goes."""

    def __init__(self) -> None:
        self.effort = _FIRST_EFFORT
        self._step = 1

    def choose(self, lower: int, upper: int) -> int:
        """The step is as long as before, if there are as many places."""
        self._step = min(self._step, upper - lower)
        return lower + self._step - 1

    def found(self) -> None:
        """The step was too long."""
        self._step = max(1, self._step // _NEARER)

    def refused(self) -> None:
        """The next step is twice as long."""
        self._step *= 2

    def undecided(self) -> None:
        """The next one is nearer to the lower bound."""
        if self._step == 1:
            self.effort = self.effort.times(_MORE)
        self._step = max(1, self._step // _NEARER)


class JustBelow:
    """Asks whether anything is better than the best solution, and waits for the answer."""

    effort = None

    def choose(self, lower: int, upper: int) -> int:
        """The place before the best solution."""
        return upper - 1

    def found(self) -> None:
        """The next question is of the better one."""

    def refused(self) -> None:
        """That is all."""

    def undecided(self) -> None:
        """There is no limit."""


def seekers(count: int) -> List[Seeker]:
    """So many, who ask beside one another: one from below, the others from above."""
    above: List[Seeker] = [FromAbove(2 * _NEARER ** number) for number in range(max(1, count - 1))]
    return above[:1] + ([FromBelow()] if count > 1 else []) + above[1:]
