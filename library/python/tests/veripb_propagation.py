"""Unit propagation over pseudo-Boolean constraints, for the checker beside this file: where the slack of a constraint under what is
assigned is less than the coefficient of a literal, that literal is true; where it is below 0, there is a conflict."""

from __future__ import annotations

from typing import Dict, Iterable, List, Optional, Set

from veripb_constraints import Constraint, negated


def _advance(constraint: Constraint, true: Set[str]) -> Optional[List[str]]:
    """The literals that the constraint makes true beside those that are; none at all where it is violated."""
    open_literals = [(literal, a) for literal, a in constraint.coefficients.items() if negated(literal) not in true]
    slack = sum(a for _, a in open_literals) - constraint.degree
    if slack < 0:
        return None
    return [literal for literal, a in open_literals if a > slack and literal not in true]


def propagate_in_order(constraints: Iterable[Constraint]) -> bool:
    """True if one of the constraints is violated, each being propagated once, in this order."""
    true: Set[str] = set()
    for constraint in constraints:
        reached = _advance(constraint, true)
        if reached is None:
            return True
        true.update(reached)
    return False


class Database:
    """The live constraints by their ids, and by the literals whose falsity may make them propagate."""

    def __init__(self) -> None:
        self.live: Dict[int, Constraint] = {}
        self._with: Dict[str, Set[int]] = {}
        self._at_once: Set[int] = set()
        """Those that propagate, or are violated, with nothing assigned."""

    def add(self, id: int, constraint: Constraint) -> None:
        self.live[id] = constraint
        for literal in constraint.coefficients:
            self._with.setdefault(literal, set()).add(id)
        if constraint.slack() < max(constraint.coefficients.values(), default=0) or constraint.is_contradiction():
            self._at_once.add(id)

    def remove(self, id: int) -> None:
        for literal in self.live.pop(id).coefficients:
            self._with[literal].remove(id)
        self._at_once.discard(id)

    def touching(self, variables: Iterable[str]) -> List[int]:
        """The constraints that have one of the variables."""
        return sorted({id for name in variables for literal in (name, "~" + name) for id in self._with.get(literal, ())})

    def conflicts(self, assumed: List[Constraint]) -> bool:
        """True if unit propagation over all that is live, and over these, comes to a violated constraint."""
        true: Set[str] = set()
        waiting = {-1 - place: constraint for place, constraint in enumerate(assumed)}
        assumed_with = [(place, constraint) for place, constraint in waiting.items()]
        waiting.update((id, self.live[id]) for id in self._at_once)
        while waiting:
            id, constraint = waiting.popitem()
            reached = _advance(constraint, true)
            if reached is None:
                return True
            for literal in reached:
                true.add(literal)
                false = negated(literal)
                waiting.update((other, self.live[other]) for other in self._with.get(false, ()))
                waiting.update((place, other) for place, other in assumed_with if false in other.coefficients)
        return False
