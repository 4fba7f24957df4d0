"""Variables by objects, and clauses, by the names that PySAT has for them."""

from __future__ import annotations

from bisect import insort
from typing import Any, Dict, Hashable, Iterable, Iterator, List, Optional, Sequence, Tuple


def greatest(literals: Iterable[int]) -> int:
    """The greatest variable of some literals, or 0."""
    return max((abs(literal) for literal in literals), default=0)


class CNF:
    """Clauses as lists of literals.

    clauses: the list of them.
    nv: the greatest variable that is taken.

    >>> formula = CNF([[1, 2]])
    >>> formula.append([-3])
    >>> formula, formula.clauses
    (CNF(nv=3, 2 clauses), [[1, 2], [-3]])
    """

    def __init__(self, clauses: Iterable[List[int]] = (), nv: Optional[int] = None) -> None:
        self.clauses = list(clauses)
        self.nv = max(map(greatest, self.clauses), default=0) if nv is None else nv

    def append(self, clause: Iterable[int]) -> None:
        """Adds a clause."""
        self.clauses.append(list(clause))
        self.nv = max(self.nv, greatest(self.clauses[-1]))

    def extend(self, clauses: Iterable[Iterable[int]]) -> None:
        """Adds clauses."""
        for clause in clauses:
            self.append(clause)

    def __iter__(self) -> Iterator[List[int]]:
        return iter(self.clauses)

    def __len__(self) -> int:
        return len(self.clauses)

    def __repr__(self) -> str:
        return "CNF(nv=%d, %d clauses)" % (self.nv, len(self.clauses))


class IDPool:
    """Gives each object a variable of its own.

    top: the greatest variable that was given.
    obj2id, id2obj: the variables by their objects, and the objects by their variables.

    >>> pool = IDPool(occupied=[[2, 3]])
    >>> pool.id("rain"), pool.id("sun"), pool.id("rain"), pool.obj(4), pool.top
    (1, 4, 1, 'sun', 4)
    """

    def __init__(self, start_from: int = 1, occupied: Sequence[Sequence[int]] = ()) -> None:
        self.restart(start_from, occupied)

    def restart(self, start_from: int = 1, occupied: Sequence[Sequence[int]] = ()) -> None:
        """Forgets all objects."""
        self.top = start_from - 1
        self.obj2id: Dict[Hashable, int] = {}
        self.id2obj: Dict[int, Hashable] = {}
        self._occupied: List[Tuple[int, int]] = []
        for first, last in occupied:
            self.occupy(first, last)

    def occupy(self, start: int, stop: int) -> None:
        """Keeps the variables from the one to the other from being given."""
        if stop >= start:
            insort(self._occupied, (start, stop))

    def id(self, obj: Optional[Hashable] = None) -> int:
        """The variable of an object, which is a new one if it has none; without an object, a new one."""
        if obj is None:
            return self._next()
        if obj not in self.obj2id:
            self.obj2id[obj] = self._next()
            self.id2obj[self.obj2id[obj]] = obj
        return self.obj2id[obj]

    def obj(self, vid: int) -> Optional[Hashable]:
        """The object that has this variable, if one has."""
        return self.id2obj.get(vid)

    def _next(self) -> int:
        self.top += 1
        while self._occupied and self._occupied[0][0] <= self.top:
            self.top = max(self.top, self._occupied.pop(0)[1] + 1)
        return self.top


def renamed(clauses: Iterable[List[int]], first: int, vpool: Any) -> CNF:
    """The clauses with new variables of the pool in the place of those from `first` on. The pool may be PySAT's."""
    numbers: Dict[int, int] = {}

    def number(literal: int) -> int:
        if abs(literal) < first:
            return literal
        if abs(literal) not in numbers:
            numbers[abs(literal)] = vpool.id()
        return numbers[abs(literal)] if literal > 0 else -numbers[abs(literal)]

    made = [[number(literal) for literal in clause] for clause in clauses]
    return CNF(made, max(vpool.top, first - 1))
