"""A sum whose bounds are assumptions."""

from __future__ import annotations

from bisect import bisect_right
from collections import defaultdict
from typing import Dict, Iterable, List, Tuple

from pbcnf import _calling
from pbcnf._arguments import posed, sum_of
from pbcnf.results import Encoding


class Table(Encoding):
    """Clauses of a sum, added to a solver once, and literals that bound it, assumed from call to call: so the solver keeps what it has
    learned while the bound comes down.

    `terms` are pairs of a coefficient and a literal, and fresh variables begin at `first`, as in `constraint`. The clauses themselves
    exclude nothing: each assignment extends to a model of them. As an `Encoding` a table has `clauses`, `integers`, `variables`,
    `next_free`, and can be gone through.

    rows: values that the sum may be below, ascending, each with the literal that is false just there.
    least, greatest: between which values the sum is.

    A row is for each value of the sum but the least. Where they need more fresh variables than the `budget`, `LimitPassed` is raised.

    >>> cost = pbcnf.Table([(3, 1), (2, 2), (2, -3)], first=4)
    >>> cost.least, cost.greatest, cost.rows
    (0, 7, [(2, 6), (3, 7), (4, 8), (5, 9), (7, 10)])
    >>> cost.assume(4), cost.assume(3), cost.assume(7), cost.assume(-1)
    ([-9], [-8], [], [1, -1])
    """

    def __init__(self, terms: Iterable[Tuple[int, int]], *, first: int, budget: int = 50_000) -> None:
        pairs, text = sum_of(terms, first, {"budget": budget})
        asked = posed(text, None, {"budget": budget}, table=True)
        made = _calling.put_clauses("pbcnf_clauses", asked, 64 * len(pairs) + 1024)
        super().__init__(made.variables, made.original, made.clauses)
        self.rows: List[Tuple[int, int]] = _calling.put_rows("pbcnf_bounds", asked, 4 * len(pairs) + 64)
        self.least, self.greatest = _range_of(pairs)
        # No literal is true together with its negation, and no sum is below its least value.
        self._any = pairs[0][1] if pairs else 1

    def assume(self, bound: int) -> List[int]:
        """Literals to assume so that the sum is at most the bound: one, or none where it is in any case, or two that contradict each
        other where it cannot be. Unit propagation reaches from them all that the bound forces."""
        if bound < self.least:
            return [self._any, -self._any]
        place = bisect_right(self.rows, (bound, self.variables))
        return [-self.rows[place][1]] if place < len(self.rows) else []

    def __repr__(self) -> str:
        return "<Table: %d to %d, %d of %d variables, %d clauses>" % (self.least, self.greatest, self.original, self.variables, len(self))


def _range_of(pairs: Iterable[Tuple[int, int]]) -> Tuple[int, int]:
    """The least and the greatest value of a sum, in which a variable may occur several times."""
    weights: Dict[int, List[int]] = defaultdict(lambda: [0, 0])
    for coefficient, literal in pairs:
        weights[abs(literal)][literal > 0] += coefficient
    return sum(min(pair) for pair in weights.values()), sum(max(pair) for pair in weights.values())
