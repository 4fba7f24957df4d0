"""Reads the lines of pbcnf's derivations, as docs/FORMATS.md has them, into steps."""

from __future__ import annotations

from dataclasses import dataclass
from typing import Iterator, List, NamedTuple, Tuple, Union

from .veripb_texts import Line, expected, integer, last_line, lines_of, literal, natural

HEAD = "pseudo-Boolean derivation profile 1"


@dataclass(frozen=True)
class Operation:
    """One of `push`, `axiom`, `w`, `*`, `d`, `+` and `s`, with its id, signed literal, variable or factor, or 0."""

    word: str
    number: int = 0


class Pol(NamedTuple):
    operations: List[Operation]


class Rup(NamedTuple):
    """By reverse unit propagation over the constraints of these ids, or over all where there are none."""

    terms: List[Tuple[int, int]]
    right: int
    ids: List[int]


class Red(NamedTuple):
    """By redundance, with a value for each of some variables."""

    terms: List[Tuple[int, int]]
    right: int
    witness: List[Tuple[int, int]]


class Del(NamedTuple):
    ids: List[int]


class Out(NamedTuple):
    """The constraint of this id gives the next clause of the CNF."""

    id: int


Step = Union[Pol, Rup, Red, Del, Out]


def read_derivation(text: str) -> Tuple[int, Iterator[Tuple[Line, Step]]]:
    """How many constraints are loaded, and the steps with their lines, which are read as they are asked for."""
    lines = lines_of("PROOF", text, "*")
    after = expected("PROOF", last_line(text), 1, "head")
    head = next(lines, None)
    if head is None:
        raise after
    for place, word in enumerate(HEAD.split()):
        if head.words[place:place + 1] != [word]:
            raise head.fault(place, "head")
    _ends(head, 4)
    return _loaded(next(lines, None), text), _steps(lines, text)


def _loaded(line: Union[Line, None], text: str) -> int:
    if line is None:
        raise expected("PROOF", last_line(text), 1, "loaded")
    if line.words[0] != "f":
        raise line.fault(0, "loaded")
    count = natural(line.words[1]) if len(line.words) > 1 else None
    if count is None:
        raise line.fault(1, "loaded count")
    _ends(line, 2)
    return count


def _steps(lines: Iterator[Line], text: str) -> Iterator[Tuple[Line, Step]]:
    ended = False
    for line in lines:
        if ended:
            raise line.fault(0, "derivation end")
        if line.words[0] == "end":
            _ends(line, 1)
            ended = True
        else:
            yield line, _step(line)
    if not ended:
        raise expected("PROOF", last_line(text), 1, "step word")


def _step(line: Line) -> Step:
    word = line.words[0]
    if word == "pol":
        return Pol(_operations(line))
    if word == "rup":
        terms, right, place = _constraint(line)
        return Rup(terms, right, _ids(line, place))
    if word == "red":
        terms, right, place = _constraint(line)
        return Red(terms, right, _witness(line, place))
    if word == "del":
        if len(line.words) == 1:
            raise line.fault(1, "id")
        return Del(_ids(line, 1))
    if word == "out":
        ids = _ids(line, 1)
        if not ids:
            raise line.fault(1, "id")
        _ends(line, 2)
        return Out(ids[0])
    raise line.fault(0, "step word")


def _ends(line: Line, count: int) -> None:
    if len(line.words) > count:
        raise line.fault(count, "line end")


def _operations(line: Line) -> List[Operation]:
    operations: List[Operation] = []
    place = 1
    while place < len(line.words):
        operation, place = _operation(line, place)
        operations.append(operation)
    return operations


def _operation(line: Line, place: int) -> Tuple[Operation, int]:
    """The operation that begins at this word, and the place after it."""
    word = line.words[place]
    behind = line.words[place + 1] if place + 1 < len(line.words) else ""
    number, signed = natural(word), literal(word)
    if number is not None:
        acts = behind in ("*", "d")
        if number == 0:
            raise line.fault(place, "factor" if acts else "operand")
        return (Operation(behind, number), place + 2) if acts else (Operation("push", number), place + 1)
    if signed is not None:
        weakens = behind == "w"
        return (Operation("w", abs(signed)), place + 2) if weakens else (Operation("axiom", signed), place + 1)
    if word in ("+", "s"):
        return Operation(word), place + 1
    raise line.fault(place, "operand")


def _constraint(line: Line) -> Tuple[List[Tuple[int, int]], int, int]:
    """The terms and the right side that begin at the second word, and the place after their semicolon."""
    terms: List[Tuple[int, int]] = []
    place = 1
    while line.words[place:place + 1] != [">="]:
        coefficient = integer(line.words[place]) if place < len(line.words) else None
        if coefficient is None:
            raise line.fault(place, "term")
        terms.append((coefficient, _at(line, place + 1, literal(_word(line, place + 1)), "a literal")))
        place += 2
    right = _at(line, place + 1, integer(_word(line, place + 1)), "an integer")
    if _word(line, place + 2) != ";":
        raise line.fault(place + 2, ";")
    return terms, right, place + 3


def _word(line: Line, place: int) -> str:
    return line.words[place] if place < len(line.words) else ""


def _at(line: Line, place: int, number: Union[int, None], what: str) -> int:
    if number is None:
        raise line.fault(place, what)
    return number


def _ids(line: Line, place: int) -> List[int]:
    ids = [natural(word) or 0 for word in line.words[place:]]
    if 0 in ids:
        raise line.fault(place + ids.index(0), "id")
    return ids


def _witness(line: Line, place: int) -> List[Tuple[int, int]]:
    """The variables that are set, ascending, each with its value."""
    witness: List[Tuple[int, int]] = []
    for start in range(place, len(line.words), 3):
        variable = literal(line.words[start]) or 0
        if variable <= (witness[-1][0] if witness else 0):
            raise line.fault(start, "set var")
        if _word(line, start + 1) != "->":
            raise line.fault(start + 1, "arrow")
        if _word(line, start + 2) not in ("0", "1"):
            raise line.fault(start + 2, "bit")
        witness.append((variable, int(line.words[start + 2])))
    return witness
