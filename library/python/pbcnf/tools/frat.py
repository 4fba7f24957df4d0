"""Makes LRAT of a refutation in the FRAT format with hints, as CryptoMiniSat 5.11 writes it.

A clause that this learns comes with the clauses of its analysis, the last of them first, but for those of one literal. Backwards from
the empty clause, and only where that rests on a clause, these are put in order by unit propagation over them alone, which looks for
nothing. A clause without hints, or whose hints do not suffice, gets its reasons from unit propagation over all clauses before it.
"""

from __future__ import annotations

import mmap
from array import array
from typing import IO, Callable, Dict, Iterable, Iterator, List, Optional, Tuple

from pbcnf.tools.propagation import Clauses
from pbcnf.tools.statuses import Stop

_REFUSED = 1
# So many lines are read without a pause.
_OFTEN = 1000


def is_frat(text: IO[bytes]) -> bool:
    """True if a text begins as FRAT does, with a clause of the CNF."""
    begin = text.read(2)
    text.seek(0)
    return begin == b"o "


def lrat_lines(count: int, frat: IO[bytes], pause: Callable[[], None]) -> Iterator[str]:
    """The lines of an LRAT text, for the refutation of so many clauses. `pause` is called every now and then.

    Nothing is given where the text refutes nothing: that raises `Stop` before the first line.
    """
    with mmap.mmap(frat.fileno(), 0, access=mmap.ACCESS_READ) as text:
        refutation = _Refutation(text, pause)
        refutation.justify_core()
        yield from refutation.lines(count)


class _Literals(Dict[int, List[int]]):
    """The literals of each clause by its id, as they are asked for."""

    def __init__(self, text: mmap.mmap) -> None:
        super().__init__()
        self._text = text
        self.begins = array("q", [0])
        """Where the line of a clause begins."""

    def __missing__(self, id: int) -> List[int]:
        self[id] = literals = list(map(int, self.words(id)[0]))
        return literals

    def words(self, id: int) -> Tuple[List[bytes], bytes]:
        """The literals as they stand in the text, and the text of the hints."""
        begin = self.begins[id]
        clause, _, hints = self._text[begin:self._text.find(b"\n", begin)].partition(b" l ")
        return clause.split()[2:-1], hints


class _Refutation:
    """A refutation, whose clauses are known by the ids that they have in it, from 1 on."""

    def __init__(self, text: mmap.mmap, pause: Callable[[], None]) -> None:
        self._text = text
        self._pause = pause
        self._clauses = _Literals(text)
        # Its number in the CNF, or 0.
        self._numbers = array("q", [0])
        # Which clause says by itself that a literal is true.
        self._units: Dict[int, int] = {}
        # For added clauses of the core: the reasons, and the clauses that nothing needs after it.
        self._reasons: Dict[int, List[int]] = {}
        self._ends: Dict[int, List[int]] = {}
        self._search: Optional[_Search] = None
        self._read()

    def _read(self) -> None:
        """Reads up to the empty clause."""
        at = given = 0
        for count, line in enumerate(iter(self._text.readline, b"")):
            if count % _OFTEN == 0:
                self._pause()
            if line.startswith((b"o ", b"a ")):
                words = line.split(None, 4)
                if int(words[1]) != len(self._clauses.begins):
                    raise ValueError("an id that is not the next one")
                is_given = line.startswith(b"o ")
                given += is_given
                if words[2] != b"0" and words[3] == b"0":
                    self._units.setdefault(int(words[2]), len(self._clauses.begins))
                self._clauses.begins.append(at)
                self._numbers.append(given if is_given else 0)
                if words[2] == b"0":
                    return
            at += len(line)
        raise Stop(_REFUSED, "the text ends without an empty clause, so that nothing is refuted")

    def justify_core(self) -> None:
        """Goes backwards, and finds the reasons of each added clause on which the empty one rests."""
        last = len(self._clauses.begins) - 1
        needed = bytearray(last + 1)
        needed[last] = 1
        for id in range(last, 0, -1):
            if needed[id] and not self._numbers[id]:
                self._pause()
                self._reasons[id] = self._justify(id)
                self._ends[id] = [reason for reason in self._reasons[id] if not needed[reason]]
                for reason in self._ends[id]:
                    needed[reason] = 1

    def _justify(self, id: int) -> List[int]:
        """The clauses from which one follows, each after those that it needs itself."""
        literals = self._clauses[id]
        hints = list(map(int, self._clauses.words(id)[1].split()[:-1]))
        if not all(0 < hint < id for hint in hints):
            raise ValueError("a hint that is no clause before it")
        reasons = self._order(id, hints) if hints else self._find(id)
        if reasons is None:
            self._search = self._search or _Search(id, map(self._clauses.__getitem__, range(1, id)), self._pause)
            reasons = self._search.justify(id, literals)
        if reasons is None:
            raise Stop(_REFUSED, "the clause of the id %d does not follow by unit propagation" % id)
        return reasons

    def _order(self, id: int, hints: List[int]) -> Optional[List[int]]:
        """The hints that are needed, in their order, with clauses of one literal before them. Most are tried once: those of an
        analysis come last first, few have to wait for others, and what has a true literal is not tried again."""
        clauses = self._clauses
        # Which clause has made a literal false.
        false = dict.fromkeys(clauses[id], 0)
        left = list(dict.fromkeys(reversed(hints)))
        while left:
            tried, left = left, []
            for hint in tried:
                free = 0
                for literal in clauses[hint]:
                    if literal not in false:
                        if -literal in false:
                            break
                        if free:
                            left.append(hint)
                            break
                        free = literal
                else:
                    if free == 0:
                        return self._behind(hint, false)
                    false[-free] = hint
            if len(left) == len(tried) and not self._add_units(id, left, false):
                break
        unit = min((self._units.get(literal, id) for literal in false), default=id)
        return self._behind(unit, false) if unit < id else None

    def _add_units(self, id: int, left: List[int], false: Dict[int, int]) -> bool:
        """Adds the literals of these clauses that are false by a clause of one literal. Is there any?"""
        before = len(false)
        for hint in left:
            for literal in self._clauses[hint]:
                unit = self._units.get(-literal, id)
                if unit < id:
                    false.setdefault(literal, unit)
        return len(false) > before

    def _behind(self, wrong: int, false: Dict[int, int]) -> List[int]:
        """The clauses on which a false one rests, in the order in which they have made literals false, and that one."""
        needed = set(self._clauses[wrong])
        reasons = [wrong]
        for literal, reason in reversed(list(false.items())):
            if reason and literal in needed:
                reasons.append(reason)
                needed.update(self._clauses[reason])
        return list(dict.fromkeys(reversed(reasons)))

    def _find(self, id: int) -> Optional[List[int]]:
        """The reasons of a clause without hints, if it has just one literal, as one before it has, or none."""
        units, literals = self._units, self._clauses[id]
        if literals:
            unit = units.get(literals[0], id)
            return [unit] if len(literals) == 1 and unit < id else None
        for tried in range(id - 1, 0, -1):
            if all(-int(word) in units for word in self._clauses.words(tried)[0]):
                return [units[-literal] for literal in self._clauses[tried]] + [tried]
        return None

    def lines(self, count: int) -> Iterator[str]:
        """The text, forwards, numbered after so many clauses of the CNF: what is added, and what nothing needs any more."""
        numbers = self._numbers
        for number, id in enumerate(sorted(self._reasons), count + 1):
            numbers[id] = number
            words = [number, *self._clauses[id], 0, *(numbers[reason] for reason in self._reasons[id]), 0]
            yield " ".join(map(str, words)) + "\n"
            if self._ends[id]:
                yield "%d d %s 0\n" % (number, " ".join(str(numbers[reason]) for reason in self._ends[id]))
        if not self._reasons:
            # The CNF itself has an empty clause.
            yield "%d 0 %d 0\n" % (count + 1, numbers[-1])


class _Search:
    """Unit propagation over all the clauses before one, which is asked for from the last one on."""

    def __init__(self, end: int, clauses: Iterable[List[int]], pause: Callable[[], None]) -> None:
        listed = list(clauses)
        self._clauses = Clauses(max((abs(literal) for literals in listed for literal in literals), default=0))
        self._held = [0]
        self._end = end
        self._wrong = 0
        for count, literals in enumerate(listed):
            if count % _OFTEN == 0:
                pause()
            self._held.append(len(self._clauses.trail))
            self._wrong = self._clauses.add(literals)
            if self._wrong:
                break

    def justify(self, id: int, literals: List[int]) -> Optional[List[int]]:
        """The clauses from which one follows."""
        while self._end > id:
            self._end -= 1
            if self._end < len(self._held):
                self._wrong = 0
                self._clauses.forget(self._end)
                if self._held[self._end] < len(self._clauses.trail):
                    self._clauses.take_back(self._held[self._end])
        return self._clauses.support(self._wrong) if self._wrong else self._clauses.justify(literals)
