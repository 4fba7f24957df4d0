"""The clauses of one constraint, as PySAT's encoders give them back."""

from __future__ import annotations

import warnings
from typing import Any, Dict, Iterable, Mapping, NamedTuple, Optional, Sequence

import pbcnf
from pbcnf.pysat.formula import CNF, greatest, renamed


class Place(NamedTuple):
    """Where the fresh variables are from: after the last that is taken, or from a pool."""

    top_id: Optional[int]
    vpool: Any

    def first(self, literals: Iterable[int]) -> int:
        """The first variable after those of the literals and those that are taken."""
        taken = 0 if self.vpool is not None else self.top_id or 0
        return max(taken, greatest(literals)) + 1


class NoSuchEncodingError(Exception):
    """There is no encoding of this number, or none that is made here."""


def options_of(encoding: int, known: Mapping[int, Dict[str, str]], others: Mapping[int, str], strict: bool) -> Dict[str, str]:
    """The options that stand for one of PySAT's encodings. For one that is not here the default is taken, with a warning, or
    nothing is, where only that encoding will do."""
    if encoding in known:
        return known[encoding]
    if strict or encoding not in others:
        raise NoSuchEncodingError(encoding)
    warnings.warn("pbcnf has no %s: the default family is taken" % others[encoding], stacklevel=4)
    return {}


def encoded(asked: Sequence[Any], place: Place, options: Mapping[str, Any]) -> CNF:
    """The clauses of all of these constraints, each of which may have a condition behind its right side."""
    first = place.first(literal for terms, _, _, *condition in asked for literal in [*(literal for _, literal in terms), *condition])
    encoding = pbcnf.constraints(asked, first=first, **options)
    clauses = list(encoding)
    return CNF(clauses, encoding.variables) if place.vpool is None else renamed(clauses, first, place.vpool)
