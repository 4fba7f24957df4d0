"""Pseudo-Boolean constraints by the names of PySAT's module `pysat.pb`.

>>> from pbcnf.pysat.pb import PBEnc
>>> PBEnc.leq(lits=[1, 2], weights=[2, 3], bound=4).clauses
[[-1, -2]]
"""

from __future__ import annotations

from typing import Any, Dict, Iterable, List, Optional, Sequence, Tuple, Union

from pbcnf.conditions import conditioned
from pbcnf.pysat._encoded import NoSuchEncodingError, Place, encoded, options_of
from pbcnf.pysat.formula import CNF

__all__ = ["EncType", "NoSuchEncodingError", "PBEnc"]

Lits = Iterable[Union[int, Tuple[int, int]]]


class EncType:
    """Encodings by PySAT's numbers. Those that are here: `best` (the default family), `bdd`, `adder`. For `seqcounter`, `sortnetwrk`
    and `binmerge` the default family is taken, with a warning; `native` is none, since no clauses stand for it."""

    best = 0
    bdd = 1
    seqcounter = 2
    sortnetwrk = 3
    adder = 4
    binmerge = 5
    native = 6


_KNOWN: Dict[int, Dict[str, str]] = {EncType.best: {}, EncType.bdd: {"general": "diagram"}, EncType.adder: {"general": "adder"}}
_OTHERS = {EncType.seqcounter: "sequential weight counters", EncType.sortnetwrk: "sorting networks", EncType.binmerge: "binary merger"}


def _terms(lits: Lits, weights: Optional[Iterable[int]]) -> List[Tuple[int, int]]:
    """Coefficients and literals; PySAT has the literal first if they stand in pairs."""
    listed = list(lits)
    pairs = [item if isinstance(item, tuple) else (item, 1) for item in listed]
    if weights is None:
        return [(weight, literal) for literal, weight in pairs]
    counted = list(weights)
    if len(counted) != len(listed):
        raise ValueError("there are %d literals and %d weights" % (len(listed), len(counted)))
    return [(weight, literal) for weight, (literal, _) in zip(counted, pairs)]


def _asked(terms: List[Tuple[int, int]], relation: str, bound: int, conditionals: Optional[Iterable[int]]) -> Sequence[Any]:
    """A condition is passed on to the library. Of more than one each is a term."""
    conditions = list(conditionals or ())
    return [(terms, relation, bound, *conditions)] if len(conditions) == 1 else conditioned(terms, relation, bound, conditions)


def _made(asked: Sequence[Any], place: Place, encoding: int, strict: bool) -> CNF:
    return encoded(asked, place, options_of(encoding, _KNOWN, _OTHERS, strict))


class PBEnc:
    """Clauses of weighted sums of literals. They have a model exactly if the constraint holds, and unit propagation reaches all
    that each half of it forces, but where it goes to the adder.

    lits: the literals, or pairs of a literal and its weight. weights: a weight for each, which may be negative. bound: the right side.
    top_id: the last variable that is taken; fresh ones come after it, and after the literals. vpool: a pool that gives them.
    encoding: one of `EncType`. conditionals: literals under which alone the constraint is asked. strict: whether only that
    encoding will do.
    """

    @classmethod
    def leq(cls, lits: Lits, weights: Optional[Iterable[int]] = None, bound: int = 1, top_id: Optional[int] = None, vpool: Any = None,
            encoding: int = EncType.best, conditionals: Optional[Iterable[int]] = None, strict: bool = False) -> CNF:
        """The sum is at most the bound.

        >>> PBEnc.leq([1, 2], weights=[2, 3], bound=4, conditionals=[3]).clauses
        [[-1, -2, -3]]
        """
        asked = _asked(_terms(lits, weights), "<=", bound, conditionals)
        return _made(asked, Place(top_id, vpool), encoding, strict)

    @classmethod
    def geq(cls, lits: Lits, weights: Optional[Iterable[int]] = None, bound: int = 1, top_id: Optional[int] = None, vpool: Any = None,
            encoding: int = EncType.best, conditionals: Optional[Iterable[int]] = None, strict: bool = False) -> CNF:
        """The sum is at least the bound.

        >>> PBEnc.geq([(1, 2), (2, 3)], bound=5).clauses
        [[1], [2]]
        """
        asked = _asked(_terms(lits, weights), ">=", bound, conditionals)
        return _made(asked, Place(top_id, vpool), encoding, strict)

    @classmethod
    def equals(cls, lits: Lits, weights: Optional[Iterable[int]] = None, bound: int = 1, top_id: Optional[int] = None, vpool: Any = None,
               encoding: int = EncType.best, conditionals: Optional[Iterable[int]] = None, strict: bool = False) -> CNF:
        """The sum is the bound.

        >>> PBEnc.equals([1, 2], weights=[2, 3], bound=3).clauses
        [[2], [-1, -2]]
        """
        asked = _asked(_terms(lits, weights), "=", bound, conditionals)
        return _made(asked, Place(top_id, vpool), encoding, strict)

    atmost = leq
    atleast = geq
