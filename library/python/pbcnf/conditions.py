"""Constraints that are asked under conditions."""

from __future__ import annotations

from operator import index
from typing import Iterable, List, Sequence, Tuple

Terms = Sequence[Tuple[int, int]]
Statement = Tuple[Terms, str, int]


def conditioned(terms: Terms, relation: str, right: int, conditions: Iterable[int]) -> List[Statement]:
    """Statements that hold if the constraint does, or if one of the conditions, which are literals, is false."""
    given = list(conditions)
    if not given:
        return [(terms, relation, right)]
    opposite = [(-index(coefficient), literal) for coefficient, literal in terms]
    at_least = [_at_least(terms, index(right), given)] if relation != "<=" else []
    at_most = [_at_least(opposite, -index(right), given)] if relation != ">=" else []
    return at_least + at_most


def _at_least(terms: Terms, right: int, conditions: List[int]) -> Statement:
    """Each condition that is false adds as much as the sum may lack at its least value."""
    lacking = max(right - sum(min(index(coefficient), 0) for coefficient, _ in terms), 0)
    return [*terms, *((lacking, -literal) for literal in conditions)], ">=", right
