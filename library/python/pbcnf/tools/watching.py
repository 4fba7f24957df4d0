"""Which literals of a clause are watched: the first two (Moskewicz and others 2001). What follows from a clause is seen once one of
them is false and no other can be watched in its place."""

from __future__ import annotations

from typing import List


def watch_another(clause: List[int], gone: int, true: bytearray, false: bytearray) -> int:
    """Has a clause watch a literal that is not false in the place of one that is, and gives it.

    Or 0, if the other one that is watched, which stands first then, is true, or is the last that is not false, or is false too.
    """
    if clause[0] == gone:
        clause[0] = clause[1]
        clause[1] = gone
    if true[clause[0]]:
        return 0
    for place in range(2, len(clause)):
        literal = clause[place]
        if not false[literal]:
            clause[1] = literal
            clause[place] = gone
            return literal
    return 0
