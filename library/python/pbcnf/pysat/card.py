"""Cardinality constraints by the names of PySAT's module `pysat.card`.

>>> from pbcnf.pysat.card import CardEnc, EncType
>>> CardEnc.atmost(lits=[1, 2, 3], bound=1, encoding=EncType.pairwise).clauses
[[-1, -2], [-1, -3], [-2, -3]]
"""

from __future__ import annotations

from types import TracebackType
from typing import Any, Iterable, List, Optional, Type

import pbcnf
from pbcnf.pysat._encoded import NoSuchEncodingError, Place, encoded, options_of
from pbcnf.pysat.formula import CNF

__all__ = ["CardEnc", "EncType", "ITotalizer", "NoSuchEncodingError"]


class EncType:
    """Encodings by PySAT's numbers. Those that are here: `pairwise`, `seqcounter` (a ladder where one literal is allowed, else a
    sequential counter), `ladder`, `totalizer`. For `sortnetwrk`, `cardnetwrk`, `bitwise`, `mtotalizer` and `kmtotalizer` the default
    family is taken, with a warning; `native` is none, since no clauses stand for it."""

    pairwise = 0
    seqcounter = 1
    sortnetwrk = 2
    cardnetwrk = 3
    bitwise = 4
    ladder = 5
    totalizer = 6
    mtotalizer = 7
    kmtotalizer = 8
    native = 9


_KNOWN = {
    EncType.pairwise: {"amo": "pairwise"},
    EncType.seqcounter: {"amo": "ladder", "card": "counter"},
    EncType.ladder: {"amo": "ladder"},
    EncType.totalizer: {"card": "totalizer"},
}
_OTHERS = {
    EncType.sortnetwrk: "sorting networks", EncType.cardnetwrk: "cardinality networks", EncType.bitwise: "bitwise encoding",
    EncType.mtotalizer: "modulo totalizers", EncType.kmtotalizer: "modulo totalizers",
}


def _counted(lits: Iterable[int], relation: str, bound: int, place: Place, encoding: int, strict: bool) -> CNF:
    return encoded([([(1, literal) for literal in lits], relation, bound)], place, options_of(encoding, _KNOWN, _OTHERS, strict))


class CardEnc:
    """Clauses of a number of literals that are true. All have a model exactly if the constraint holds, and unit propagation
    reaches all that it forces.

    lits: the literals. bound: how many of them.
    top_id: the last variable that is taken; fresh ones come after it, and after the literals. vpool: a pool that gives them.
    encoding: one of `EncType`. strict: whether only that encoding will do.
    """

    @classmethod
    def atmost(cls, lits: Iterable[int], bound: int = 1, top_id: Optional[int] = None, vpool: Any = None,
               encoding: int = EncType.seqcounter, strict: bool = False) -> CNF:
        """At most so many are true.

        >>> CardEnc.atmost([1, 2, 3], bound=1, encoding=EncType.ladder).nv
        5
        """
        return _counted(lits, "<=", bound, Place(top_id, vpool), encoding, strict)

    @classmethod
    def atleast(cls, lits: Iterable[int], bound: int = 1, top_id: Optional[int] = None, vpool: Any = None,
                encoding: int = EncType.seqcounter, strict: bool = False) -> CNF:
        """At least so many are true.

        >>> CardEnc.atleast([1, 2], bound=1).clauses
        [[1, 2]]
        """
        return _counted(lits, ">=", bound, Place(top_id, vpool), encoding, strict)

    @classmethod
    def equals(cls, lits: Iterable[int], bound: int = 1, top_id: Optional[int] = None, vpool: Any = None,
               encoding: int = EncType.seqcounter, strict: bool = False) -> CNF:
        """Just so many are true.

        >>> CardEnc.equals([1, 2], bound=1).clauses
        [[1, 2], [-1, -2]]
        """
        return _counted(lits, "=", bound, Place(top_id, vpool), encoding, strict)


class ITotalizer:
    """A literal for each number of literals that may be true, so that a bound is an assumption.

    cnf: its clauses. They are all made at once, for each bound, and stay as they are when the bound is raised.
    rhs: `rhs[k]` is true if more than k of the literals are: assume `-rhs[k]`, and at most k are. There is one for each k up to
        `ubound` that is below the number of literals.
    top_id: the last variable that is taken. nof_new: how many clauses the last call has added.

    >>> fewest = ITotalizer([1, 2, 3], ubound=1)
    >>> fewest.rhs
    [6, 7]
    >>> fewest.increase(2)
    >>> fewest.rhs, fewest.nof_new
    ([6, 7, 8], 0)
    """

    def __init__(self, lits: Iterable[int] = (), ubound: int = 1, top_id: Optional[int] = None) -> None:
        self.lits: List[int] = list(lits)
        if len({abs(literal) for literal in self.lits}) < len(self.lits):
            raise ValueError("each variable occurs once among the literals of a totalizer")
        table = pbcnf.Table([(1, literal) for literal in self.lits], first=Place(top_id, None).first(self.lits), budget=10_000_000)
        self._rows = [literal for _, literal in table.rows]
        self.cnf = CNF(table, table.variables)
        self.top_id, self.nof_new = table.variables, len(table)
        self.ubound, self.rhs = ubound, self._rows[:ubound + 1]

    def increase(self, ubound: int = 1, top_id: Optional[int] = None) -> None:
        """Raises the bound. No clause is added, and no variable taken."""
        self.ubound, self.nof_new = max(self.ubound, ubound), 0
        self.top_id = max(self.top_id, top_id or 0)
        self.rhs = self._rows[:self.ubound + 1]

    def delete(self) -> None:
        """Does nothing: nothing is held but memory of Python's."""

    def __enter__(self) -> ITotalizer:
        return self

    def __exit__(self, kind: Optional[Type[BaseException]], value: Optional[BaseException], trace: Optional[TracebackType]) -> None:
        self.delete()
