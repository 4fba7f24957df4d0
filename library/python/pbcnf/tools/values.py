"""The values that an objective's sum can have, in their order: bounds between two neighbours mean the same."""

from __future__ import annotations

import bisect
import functools
import math
from typing import List, Optional, Sequence

# So many values are listed at most; where there are more, or they are dense, their common divisor is enough.
_MOST = 1024


class Values:
    """The values `least` plus the sum of some of the weights, by their places from 0 on. There may be places of no such value."""

    def __init__(self, least: int, weights: Sequence[int]) -> None:
        self._least = least
        self._step = functools.reduce(math.gcd, weights, 0) or 1
        self._listed = _list(least, weights) if sum(weights) // self._step > _MOST else None

    def place(self, value: int) -> int:
        """The first place whose value is at least this."""
        if self._listed is not None:
            return bisect.bisect_left(self._listed, value)
        return -((self._least - value) // self._step)

    def at(self, place: int) -> int:
        """The value at a place."""
        return self._listed[place] if self._listed is not None else self._least + place * self._step


def _list(least: int, weights: Sequence[int]) -> Optional[List[int]]:
    """All the values, ascending; None where there are too many."""
    found = {least}
    if len(weights) >= _MOST:
        return None
    for weight in weights:
        found |= {value + weight for value in found}
        if len(found) > _MOST:
            return None
    return sorted(found)
