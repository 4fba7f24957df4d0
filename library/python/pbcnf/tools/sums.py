"""Refutes a bound on the objective by one sum of constraints, where that is enough: as that some items weigh more than so few bins hold,
of which a solver needs a proof for each way to place them.

It begins with the bound, and takes out one literal after the other by a multiple of a constraint that has its negation, each constraint
once. What it finds is one `pol` line of a derivation.
"""

from __future__ import annotations

import functools
import math
from typing import Dict, List, NamedTuple, Optional, Sequence, Set, Tuple

from pbcnf.tools.loading import Constraint

# So many constraints are added at most; of so many literals, those with the greatest coefficients, and so many constraints for each, the
# best one is taken.
_STEPS = 300
_LITERALS = 4
_CONSTRAINTS = 60
# Numbers of a derivation are below this.
_MOST = 1 << 100
# Slacks are compared to this part.
_EXACT = 1 << 20


class _Sum(NamedTuple):
    """A constraint in normal form, and how it was added up."""

    terms: Dict[int, int]
    degree: int
    words: str
    size: int = 0
    """What no number has passed on the way."""

    @property
    def slack(self) -> int:
        """How much the coefficients are above the degree: below 0 it is false."""
        return sum(self.terms.values()) - self.degree


class Sums:
    """Constraints with ids from 1 on."""

    def __init__(self, constraints: Sequence[Constraint]) -> None:
        self._constraints = constraints
        self._having: Dict[int, List[int]] = {}
        for id, constraint in enumerate(constraints, 1):
            for _, literal in constraint.terms:
                self._having.setdefault(literal, []).append(id)

    def refute(self, bound: Constraint) -> Optional[str]:
        """The words of a `pol` line whose constraint is false, if one is found. The bound has the id behind the others."""
        now = _Sum({literal: coefficient for coefficient, literal in bound.terms}, bound.degree, str(len(self._constraints) + 1))
        used: Set[int] = set()
        for _ in range(_STEPS):
            if now.slack < 0:
                return now.words
            found = self._next(now, used)
            if found is None:
                return None
            id, now = found
            used.add(id)
        return None

    def _next(self, now: _Sum, used: Set[int]) -> Optional[Tuple[int, _Sum]]:
        """The sum with one more constraint that has the least slack, and of these the most literals; and which one it is."""
        best: Optional[Tuple[Tuple[int, int], int, _Sum]] = None
        for literal in sorted(now.terms, key=lambda literal: -now.terms[literal])[:_LITERALS]:
            for id in [id for id in self._having.get(-literal, ()) if id not in used][:_CONSTRAINTS]:
                factor, made = _added(now, literal, id, self._constraints[id - 1])
                if made.size >= _MOST:
                    continue
                rank = made.slack * _EXACT // factor, -len(made.terms)
                if best is None or rank < best[0]:
                    best = rank, id, made
        return None if best is None else (best[1], _divided(best[2]))


def _added(now: _Sum, literal: int, id: int, constraint: Constraint) -> Tuple[int, _Sum]:
    """The sum of multiples in which a literal is gone, and by which factor what was there counts."""
    own = next(coefficient for coefficient, other in constraint.terms if other == -literal)
    common = math.gcd(own, now.terms[literal])
    factor, times = own // common, now.terms[literal] // common
    terms = {other: coefficient * factor for other, coefficient in now.terms.items()}
    degree = now.degree * factor + constraint.degree * times
    for coefficient, other in constraint.terms:
        against = terms.pop(-other, 0)
        gone = min(coefficient * times, against)
        degree -= gone
        if against > gone:
            terms[-other] = against - gone
        if coefficient * times > gone:
            terms[other] = terms.get(other, 0) + coefficient * times - gone
    size = factor * (sum(now.terms.values()) + abs(now.degree)) + times * (sum(other for other, _ in constraint.terms) + abs(constraint.degree))
    return factor, _Sum(terms, degree, "%s%s %d%s +" % (now.words, _by(factor), id, _by(times)), size)


def _by(factor: int) -> str:
    return " %d *" % factor if factor > 1 else ""


def _divided(made: _Sum) -> _Sum:
    """The sum divided by what its coefficients have in common, rounded up."""
    common = functools.reduce(math.gcd, made.terms.values(), 0)
    if common <= 1:
        return made
    terms = {literal: coefficient // common for literal, coefficient in made.terms.items()}
    return _Sum(terms, -(-made.degree // common), "%s %d d" % (made.words, common))
