"""Unit propagation over constraints and clauses, by levels that can be taken back.

A constraint keeps its slack: how much its coefficients without those of false literals are above its degree (Chai and Kuehlmann 2005).
Where it is below 0 the constraint is false, and a literal with a greater coefficient has to be true. Of a clause two literals are
watched. Lists that have a place for each literal take its signed number as the place.
"""

from __future__ import annotations

from typing import Dict, List, Sequence, Tuple

from pbcnf.tools.loading import Constraint
from pbcnf.tools.watching import watch_another


class Propagation:
    """Constraints with the ids from 1 on, clauses with ids after them, and the literals that they make true."""

    def __init__(self, variables: int, constraints: Sequence[Constraint]) -> None:
        places = 2 * variables + 1
        self.true = bytearray(places)
        self.false = bytearray(places)
        self.trail: List[int] = []
        """The literals that are true, in the order in which they became so."""
        self.levels: List[int] = []
        """How much was true when each level was opened."""
        self.level = [0] * (variables + 1)
        """By variables: the level in which it got its value, why, and where it is in the trail."""
        self.reason = [0] * (variables + 1)
        self.place = [0] * (variables + 1)
        self.clauses: Dict[int, List[int]] = {}
        self._done = 0
        self._terms = [sorted(constraint.terms, reverse=True) for constraint in ((Constraint([], 0)), *constraints)]
        # The slack where nothing is false, and now, and the greatest coefficient.
        self._whole = [0, *(sum(coefficient for coefficient, _ in constraint.terms) - constraint.degree for constraint in constraints)]
        self._slack = list(self._whole)
        self._most = [terms[0][0] if terms else 0 for terms in self._terms]
        self._found: List[List[Tuple[int, int]]] = [[] for _ in range(places)]
        self._watchers: List[List[int]] = [[] for _ in range(places)]
        for id, constraint in enumerate(constraints, 1):
            if self._is_clause(id, constraint) and id < len(constraints):
                self.add(id, [literal for _, literal in constraint.terms])
            else:
                for coefficient, literal in constraint.terms:
                    self._found[literal].append((id, coefficient))

    def _is_clause(self, id: int, constraint: Constraint) -> bool:
        return len(constraint.terms) > 1 and 0 < constraint.degree <= self._terms[id][-1][0]

    def add(self, id: int, literals: List[int]) -> None:
        """Adds a clause of two literals or more, of which the first two are the last to become false."""
        self.clauses[id] = literals
        for literal in literals[:2]:
            self._watchers[literal].append(id)

    def begin(self) -> int:
        """Makes true what single constraints say by themselves. Gives one that is false, or 0."""
        for id in range(1, len(self._terms)):
            wrong = self.visit(id)
            if wrong:
                return wrong
        return 0

    def visit(self, id: int) -> int:
        """Makes true what this constraint says now. Gives it where it is false, or 0."""
        if id in self.clauses:
            return 0
        if self._slack[id] < 0:
            return id
        for coefficient, literal in self._terms[id]:
            if coefficient <= self._slack[id]:
                break
            if not self.true[literal] and not self.false[literal]:
                self.assign(literal, id)
        return 0

    def tighten(self, id: int, amount: int) -> None:
        """Makes the degree of the last constraint greater, which is kept as no clause."""
        self._whole[id] -= amount
        self._slack[id] -= amount

    def assign(self, literal: int, reason: int) -> None:
        """Makes a literal true, because of a constraint or clause, or as one that is assumed, for 0."""
        self.true[literal] = self.false[-literal] = 1
        variable = abs(literal)
        self.level[variable] = len(self.levels)
        self.reason[variable] = reason
        self.place[variable] = len(self.trail)
        self.trail.append(literal)

    def take_back(self, level: int) -> List[int]:
        """Takes back what became true in levels above this one, and gives these literals."""
        length = self.levels[level]
        gone = self.trail[length:]
        for literal in gone:
            self.true[literal] = self.false[-literal] = 0
        for literal in self.trail[length:self._done]:
            for id, coefficient in self._found[-literal]:
                self._slack[id] += coefficient
        del self.trail[length:], self.levels[level:]
        self._done = min(self._done, length)
        return gone

    def propagate(self) -> int:
        """Goes on from what became true. Gives a constraint or clause that is false then, or 0."""
        trail = self.trail
        while self._done < len(trail):
            gone = -trail[self._done]
            self._done += 1
            wrong = self._visit_found(gone) if self._found[gone] else 0
            if not wrong and self._watchers[gone]:
                wrong = self._visit_watchers(gone)
            if wrong:
                return wrong
        return 0

    def _visit_found(self, gone: int) -> int:
        """Goes through the constraints with a literal that became false; all get their slack, also after a false one."""
        slack, most, true, false = self._slack, self._most, self.true, self.false
        wrong = 0
        for id, coefficient in self._found[gone]:
            left = slack[id] - coefficient
            slack[id] = left
            if left < 0:
                wrong = id
            elif left < most[id] and not wrong:
                for weight, literal in self._terms[id]:
                    if weight <= left:
                        break
                    if not true[literal] and not false[literal]:
                        self.assign(literal, id)
        return wrong

    def _visit_watchers(self, gone: int) -> int:
        """Goes through the clauses that watch a literal which became false; those that find another one to watch go there."""
        true, false, watchers = self.true, self.false, self._watchers
        wrong = 0
        kept: List[int] = []
        visited = iter(watchers[gone])
        for id in visited:
            clause = self.clauses.get(id)
            if clause is None:
                continue
            literal = watch_another(clause, gone, true, false)
            if literal:
                watchers[literal].append(id)
                continue
            kept.append(id)
            literal = clause[0]
            if false[literal]:
                wrong = id
                break
            if not true[literal]:
                self.assign(literal, id)
        watchers[gone] = [*kept, *visited]
        return wrong

    def support(self, id: int, literal: int, favoured: bytearray) -> List[int]:
        """False literals because of which this constraint or clause makes a literal true, or is false, for 0. Where they are more than
        enough, the last ones are left out that are not of favoured variables."""
        clause = self.clauses.get(id)
        if clause is not None:
            return [other for other in clause if other != literal]
        place, false = self.place, self.false
        before = place[abs(literal)] if literal else len(self.trail)
        found = [(place[abs(other)], other, coefficient) for coefficient, other in self._terms[id] if false[other] and place[abs(other)] < before]
        # What is to be taken off the whole slack, so that it is below the literal's coefficient, or below 0.
        coefficient = next(coefficient for coefficient, other in self._terms[id] if other == literal) if literal else 0
        spare = sum(weight for _, _, weight in found) - self._whole[id] + coefficient - 1
        if spare <= 0:
            return [other for _, other, _ in found]
        needed: List[int] = []
        for _, other, weight in sorted(found, reverse=True):
            if weight <= spare and not favoured[abs(other)] and self.level[abs(other)] > 0:
                spare -= weight
            else:
                needed.append(other)
        return needed
