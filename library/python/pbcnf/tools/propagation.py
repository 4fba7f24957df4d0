"""Unit propagation over clauses that come and go.

A clause is known by its number, from 1 on, in the order in which clauses are added; a literal is a signed number. Lists that have a
place for each literal take that number as the place: Python counts negative places from the end.

Most clauses of an encoding have two or three literals. Each of these literals knows the others, so that nothing moves when it becomes
false. Of a longer clause two literals are watched. Clauses on which the refutation is known to rest, the core, are gone through first:
so fewer others come into it.
"""

from __future__ import annotations

from typing import Dict, Iterable, List, Optional, Tuple, TypeVar

from pbcnf.tools.watching import watch_another

# A clause of more literals is watched.
_SHORT = 3
_Entry = TypeVar("_Entry")


class Group:
    """Clauses, as each literal finds them when it has become false."""

    def __init__(self, places: int) -> None:
        self.pairs: List[List[Tuple[int, int]]] = [[] for _ in range(places)]
        """The other literal of a clause of two, and its number."""
        self.triples: List[List[Tuple[int, int, int]]] = [[] for _ in range(places)]
        """Both others of a clause of three, and its number."""
        self.watchers: List[List[int]] = [[] for _ in range(places)]
        """The numbers of the longer clauses in which the literal is watched."""
        self.done = 0
        """How much of the trail has gone through these clauses."""

    def put(self, number: int, clause: List[int]) -> None:
        """Puts a clause in, if it is short, after those that are there."""
        if len(clause) == 2:
            one, two = clause
            self.pairs[one].append((two, number))
            self.pairs[two].append((one, number))
        elif len(clause) == _SHORT:
            one, two, three = clause
            self.triples[one].append((two, three, number))
            self.triples[two].append((one, three, number))
            self.triples[three].append((one, two, number))

    def take(self, number: int, clause: List[int]) -> None:
        """Takes a short clause out, most quickly if it is the last one."""
        if len(clause) == 2:
            one, two = clause
            _drop(self.pairs[one], (two, number))
            _drop(self.pairs[two], (one, number))
        elif len(clause) == _SHORT:
            one, two, three = clause
            _drop(self.triples[one], (two, three, number))
            _drop(self.triples[two], (one, three, number))
            _drop(self.triples[three], (one, two, number))


class Clauses:
    """The clauses, and the literals that they make true, one after the other."""

    def __init__(self, variables: int) -> None:
        places = 2 * variables + 1
        self.literals: List[List[int]] = [[]]
        """Those of each clause, by its number. Of a longer one the first two are watched."""
        self.in_core = bytearray(1)
        self.trail: List[int] = []
        """The literals that are true, in the order in which they became so."""
        self._alive = bytearray(1)
        self._true = bytearray(places)
        self._false = bytearray(places)
        self._reason = [0] * places
        self._core, self._rest = Group(places), Group(places)
        # The watched literals from whose lists a deleted clause was taken.
        self._lost: Dict[int, List[int]] = {}

    def add(self, literals: Iterable[int]) -> int:
        """Adds a clause, and goes on from it. Gives a clause that is false then, or 0."""
        clause = list(dict.fromkeys(literals))
        if self.trail:
            # What is false here is so as long as the clause lives.
            clause.sort(key=self._false.__getitem__)
        number = len(self.literals)
        self.literals.append(clause)
        self.in_core.append(0)
        self._alive.append(1)
        self._rest.put(number, clause)
        for literal in clause[:2] if len(clause) > _SHORT else ():
            self._rest.watchers[literal].append(number)
        if not clause or self._false[clause[0]]:
            return number
        if self._true[clause[0]] or (len(clause) > 1 and not self._false[clause[1]]):
            return 0
        self.assign(clause[0], number)
        return self.propagate()

    def delete(self, number: int) -> None:
        """Takes a clause out that may be put back. It stays where literals find it, until it is met there."""
        self._alive[number] = 0

    def revive(self, number: int) -> None:
        """Puts a deleted clause back."""
        self._alive[number] = 1
        for literal in self._lost.pop(number, ()):
            self._group(number).watchers[literal].append(number)

    def forget(self, number: int) -> None:
        """Takes the last clause out for ever."""
        self._alive[number] = 0
        self._rest.take(number, self.literals[number])
        if self.in_core[number]:
            self._core.take(number, self.literals[number])

    def put_in_core(self, number: int) -> None:
        """Makes a clause one of the core. A longer one comes there when it is met."""
        self.in_core[number] = 1
        self._core.put(number, self.literals[number])

    def is_reason(self, number: int) -> bool:
        """True if a literal is true because of this clause."""
        return any(self._true[literal] and self._reason[literal] == number for literal in self.literals[number])

    def reason_of(self, literal: int) -> int:
        """The clause that has made a literal true, or 0 where it is not, or was only assumed."""
        return self._reason[literal] if self._true[literal] else 0

    def assign(self, literal: int, number: int) -> None:
        """Makes a literal true, because of a clause, or as one that is assumed, for 0."""
        self._true[literal] = self._false[-literal] = 1
        self._reason[literal] = number
        self.trail.append(literal)

    def take_back(self, length: int) -> None:
        """Leaves so many of the true literals."""
        for literal in self.trail[length:]:
            self._true[literal] = self._false[-literal] = 0
        del self.trail[length:]
        for group in (self._core, self._rest):
            group.done = min(group.done, length)

    def propagate(self) -> int:
        """Goes on from what became true, over the core as far as that reaches, before each literal over the others.

        Gives a clause that is false then, or 0.
        """
        trail, core, rest = self.trail, self._core, self._rest
        wrong = self._visit(core, len(self._true))
        while not wrong and rest.done < len(trail):
            wrong = self._visit(rest, 1)
            if not wrong and core.done < len(trail):
                wrong = self._visit(core, len(self._true))
        return wrong

    def justify(self, literals: Iterable[int]) -> Optional[List[int]]:
        """The clauses from which one of these literals follows: they are taken as false, which has to lead to a false clause."""
        before = len(self.trail)
        wrong = 0
        for literal in literals:
            if self._true[literal]:
                wrong = self._reason[literal]
                break
            if not self._true[-literal]:
                self.assign(-literal, 0)
        else:
            wrong = self.propagate()
        reasons = self.support(wrong) if wrong else None
        self.take_back(before)
        return reasons

    def support(self, wrong: int) -> List[int]:
        """The clauses on which a false one rests, each after those that it needs itself, and that one."""
        order: List[int] = []
        seen = set()
        stack = [(wrong, iter(self.literals[wrong]))]
        while stack:
            number, literals = stack[-1]
            for literal in literals:
                reason = self.reason_of(-literal)
                if reason and literal not in seen:
                    seen.add(literal)
                    stack.append((reason, iter(self.literals[reason])))
                    break
            else:
                order.append(number)
                stack.pop()
        return order

    def _group(self, number: int) -> Group:
        return self._core if self.in_core[number] else self._rest

    def _visit(self, group: Group, most: int) -> int:
        """Goes through the clauses of a group for so many of the literals that have not gone through them. Gives one that is false, or 0.

        Most of the time is spent here. So nothing is called for a short clause, and what `assign` does is done in place.
        """
        true, false, reason, alive, trail = self._true, self._false, self._reason, self._alive, self.trail
        wrong, done, ends = 0, group.done, group.done + most
        while not wrong and done < len(trail) and done < ends:
            gone = -trail[done]
            done += 1
            for literal, number in group.pairs[gone]:
                if true[literal] or not alive[number]:
                    continue
                if false[literal]:
                    wrong = number
                    break
                true[literal] = false[-literal] = 1
                reason[literal] = number
                trail.append(literal)
            for literal, other, number in group.triples[gone] if not wrong else ():
                if true[literal] or true[other] or not (false[literal] or false[other]) or not alive[number]:
                    continue
                if false[literal]:
                    if false[other]:
                        wrong = number
                        break
                    literal = other
                true[literal] = false[-literal] = 1
                reason[literal] = number
                trail.append(literal)
            if not wrong and group.watchers[gone]:
                wrong = self._visit_watchers(group.watchers, gone)
        group.done = done
        return wrong

    def _conclude(self, literal: int, number: int) -> int:
        """Makes a literal true that is the last of a clause which is not false, or gives the clause, if that one is false too, or 0."""
        if self._false[literal]:
            return number
        if not self._true[literal]:
            self.assign(literal, number)
        return 0

    def _visit_watchers(self, watchers: List[List[int]], gone: int) -> int:
        """Goes through the longer clauses that watch a literal which became false; those that find another one to watch go there."""
        true, false, literals, alive = self._true, self._false, self.literals, self._alive
        wrong = 0
        kept: List[int] = []
        visited = iter(watchers[gone])
        for number in visited:
            clause = literals[number]
            if not alive[number]:
                self._lost.setdefault(number, []).append(gone)
                continue
            other = watch_another(clause, gone, true, false)
            if other:
                self._group(number).watchers[other].append(number)
            else:
                kept.append(number)
                wrong = self._conclude(clause[0], number)
                if wrong:
                    break
        watchers[gone] = [*kept, *visited]
        return wrong


def _drop(entries: List[_Entry], entry: _Entry) -> None:
    """Takes an entry out of a list, of which it mostly is the last."""
    if entries[-1] == entry:
        entries.pop()
    else:
        entries.remove(entry)
