"""Reads CNF texts, and refutations of them in the LRAT format, as docs/FORMATS.md has them."""

from __future__ import annotations

from dataclasses import dataclass
from typing import Iterator, List, NamedTuple, Optional, Tuple, Union

from .veripb_texts import Line, expected, integer, last_line, lines_of, natural


@dataclass(frozen=True)
class Cnf:
    variables: int
    clauses: List[List[int]]


def read_cnf(text: str) -> Cnf:
    """The clauses, whose ids are 1, 2, .. in their order."""
    lines = lines_of("CNF", text, "c")
    end = last_line(text)
    head = next(lines, None)
    if head is None:
        raise expected("CNF", end, 1, "p line")
    variables, count = _p_line(head)
    clauses: List[List[int]] = []
    clause: List[int] = []
    for line in lines:
        for place, word in enumerate(line.words):
            if len(clauses) == count:
                raise line.fault(place, "cnf end")
            signed = integer(word)
            if signed is None or abs(signed) > variables:
                raise line.fault(place, "clause word")
            if signed:
                clause.append(signed)
            else:
                clauses.append(clause)
                clause = []
    if len(clauses) < count:
        raise expected("CNF", end, 1, "clause word")
    return Cnf(variables, clauses)


def _p_line(line: Line) -> Tuple[int, int]:
    for place, word in enumerate(["p", "cnf"]):
        if line.words[place:place + 1] != [word]:
            raise line.fault(place, ["p line", "cnf word"][place])
    numbers: List[int] = []
    for place, what in ((2, "var count"), (3, "clause count")):
        number = natural(line.words[place]) if place < len(line.words) else None
        if number is None:
            raise line.fault(place, what)
        numbers.append(number)
    if len(line.words) > 4:
        raise line.fault(4, "line end")
    return numbers[0], numbers[1]


class Added(NamedTuple):
    """A clause that is added for the reasons of its hints."""

    id: int
    clause: List[int]
    hints: List[int]


class Deleted(NamedTuple):
    ids: List[int]


def read_lrat(text: str, variables: int) -> Iterator[Tuple[Line, Union[Added, Deleted]]]:
    """The lines of a refutation, which are read as they are asked for."""
    for line in lines_of("LRAT", text, "c"):
        id = natural(line.words[0])
        if not id:
            raise line.fault(0, "lrat id")
        if line.words[1:2] == ["d"]:
            ids, place = _numbers(line, 2)
            step: Union[Added, Deleted] = Deleted(ids)
        else:
            clause, place = _literals(line, variables)
            hints, place = _numbers(line, place)
            step = Added(id, clause, hints)
        if place < len(line.words):
            raise line.fault(place, "lrat end")
        yield line, step


def _literals(line: Line, variables: int) -> Tuple[List[int], int]:
    """The literals from the second word on, and the place after their 0."""
    clause: List[int] = []
    for place in range(1, len(line.words) + 1):
        signed: Optional[int] = integer(line.words[place]) if place < len(line.words) else None
        if signed is None or abs(signed) > variables:
            raise line.fault(place, "lrat literal")
        if not signed:
            return clause, place + 1
        clause.append(signed)
    raise line.fault(len(line.words), "lrat literal")


def _numbers(line: Line, start: int) -> Tuple[List[int], int]:
    """The ids from this place on, and the place after their 0. A negative one, of a step that is not by unit propagation, is none."""
    ids: List[int] = []
    for place in range(start, len(line.words) + 1):
        number = natural(line.words[place]) if place < len(line.words) else None
        if number is None:
            raise line.fault(place, "lrat hint")
        if not number:
            return ids, place + 1
        ids.append(number)
    raise line.fault(len(line.words), "lrat hint")
