"""On which statements a refutation rests: from the empty clause of an LRAT text back to clauses of the CNF, and from these, through
the derivation that `encode` writes, to the constraints that were loaded.

Nothing here need be believed: what comes out is encoded and refuted by itself.
"""

from __future__ import annotations

from typing import Callable, Dict, Iterable, Iterator, List, Sequence, Set, Tuple

from pbcnf.tools.opb_text import Statement


def clauses_behind(cnf: Iterable[bytes], lrat: Iterable[bytes]) -> Set[int]:
    """The clauses of a CNF, counted from 1, on which the first empty clause of a refutation rests; each text by its lines."""
    count = 0
    for line in cnf:
        if not line.startswith((b"p", b"c")) and line.strip():
            count += 1
            if line.split() == [b"0"]:
                return {count}
    added: Dict[int, bytes] = {}
    last = 0
    for line in lrat:
        words = line.split(None, 2)
        if len(words) == 3 and words[1] != b"d" and words[0] != b"c":
            last = int(words[0])
            added[last] = words[1] + b" " + words[2]
            if words[1] == b"0":
                break
    return {named for named in _behind({last}, added, _hints) if named <= count}


def _hints(line: bytes) -> Iterable[int]:
    """The ids after the literals of an LRAT line."""
    words = line.split()
    return [abs(int(word)) for word in words[words.index(b"0") + 1:-1]]


def loaded_behind(proof: Iterable[bytes], clauses: Set[int]) -> Tuple[int, Set[int]]:
    """How many constraints a derivation loads, and those on which these clauses of its CNF rest, counted from 1."""
    steps: Dict[int, bytes] = {}
    needed: Set[int] = set()
    loaded = last = outputs = 0
    for line in proof:
        word, _, rest = line.strip().partition(b" ")
        if word == b"f":
            loaded = last = int(rest)
        elif word in (b"pol", b"rup", b"red"):
            last += 1
            steps[last] = line
        elif word == b"out":
            outputs += 1
            if outputs in clauses:
                needed.add(int(rest))
    return loaded, {named for named in _behind(needed, steps, lambda line: _named(line.split())) if named <= loaded}


def _named(words: List[bytes]) -> Iterator[int]:
    """The ids that a step names, as each step of `encode` does. A definition of a fresh variable, `red`, rests on none."""
    if words[0] == b"pol":
        for word, after in zip(words[1:], words[2:] + [b""]):
            if word.isdigit() and after not in (b"*", b"d"):
                yield int(word)
    elif words[0] == b"rup":
        yield from map(int, words[words.index(b";") + 1:])


def _behind(needed: Set[int], lines: Dict[int, bytes], named: Callable[[bytes], Iterable[int]]) -> Set[int]:
    """These ids and all that they rest on, where each line names only ids before its own."""
    found = set(needed)
    for own in sorted(lines, reverse=True):
        if own in found:
            found.update(named(lines[own]))
    return found


def statements_behind(statements: Sequence[Statement], loaded: int, needed: Set[int]) -> List[Statement]:
    """The statements of these loaded constraints: the halves of the statements stand after the constraints of products."""
    first = loaded - sum(statement.halves for statement in statements) + 1
    found: List[Statement] = []
    for statement in statements:
        if any(number in needed for number in range(first, first + statement.halves)):
            found.append(statement)
        first += statement.halves
    return found
