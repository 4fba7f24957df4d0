"""What the readers of pbcnf-veripb share: refusals with their exit status, the words of lines, and numbers."""

from __future__ import annotations

import re
from dataclasses import dataclass
from typing import Dict, Iterator, List, Optional, Tuple

NO_COUNTERPART = 65

_WORD = re.compile(r"[^ \t\r]+")
# Python reads no number that is much longer, and no text of the program has one.
_DIGITS = re.compile(r"[0-9]{1,4000}")
_INTEGER = re.compile(r"[+-]?[0-9]{1,4000}")
_LITERAL = re.compile(r"(~?)x([0-9]{1,4000})")


class Refusal(Exception):
    """Nothing is printed, for this cause. The status is that of the program in the same case, or 65 where VeriPB's format has
    nothing that would say the same."""

    def __init__(self, status: int, words: str) -> None:
        super().__init__(words)
        self.status = status


def expected(file: str, line: int, column: int, what: str) -> Refusal:
    """A text leaves its grammar at this place."""
    return Refusal(1, f"{file} {line}:{column}: expected {what}")


@dataclass(frozen=True)
class Line:
    """A line of a derivation or a refutation, by its words."""

    file: str
    number: int
    text: str
    words: List[str]

    def fault(self, word: int, what: str) -> Refusal:
        """The word of this index, from 0, is not what the grammar asks for; after the last one the line ends too early."""
        starts = [found.start() for found in _WORD.finditer(self.text)]
        column = starts[word] if word < len(starts) else len(self.text)
        return expected(self.file, self.number, column + 1, what)

    def denied(self, status: int, why: str) -> Refusal:
        """The line is read, and what it does is not allowed."""
        return Refusal(status, f"{self.file} line {self.number}: {why}")


def lines_of(file: str, text: str, comment: str) -> Iterator[Line]:
    """The lines that say something. One whose first word begins with the comment's sign says nothing."""
    for number, line in enumerate(text.split("\n"), 1):
        words = _WORD.findall(line)
        if words and not words[0].startswith(comment):
            yield Line(file, number, line, words)


def last_line(text: str) -> int:
    """The number of the line after the last one, where a text that ends too early is reported."""
    return text.count("\n") + (0 if text.endswith("\n") or not text else 1) + 1


def natural(word: str) -> Optional[int]:
    """A number of digits alone."""
    return int(word) if _DIGITS.fullmatch(word) else None


def integer(word: str) -> Optional[int]:
    """A number that may have a sign."""
    return int(word) if _INTEGER.fullmatch(word) else None


def literal(word: str) -> Optional[int]:
    """A literal as a signed number of its variable."""
    found = _LITERAL.fullmatch(word)
    if found is None or int(found.group(2)) == 0:
        return None
    variable = int(found.group(2))
    return -variable if found.group(1) else variable


@dataclass(frozen=True)
class Names:
    """The names of variables in VeriPB's texts: those of the problem as it has them, and a number for each fresh variable, which
    no name of the problem is since those that are numbers come first."""

    free: Dict[int, str]

    def variable(self, number: int) -> str:
        return self.free.get(number) or f"x{number}"

    def literal(self, signed: int) -> str:
        return ("~" if signed < 0 else "") + self.variable(abs(signed))

    def constraint(self, terms: List[Tuple[int, int]], right: int) -> str:
        """A constraint as OPB has it, with its semicolon."""
        words = [f"{coefficient:+d} {self.literal(signed)}" for coefficient, signed in terms]
        return " ".join(words + [">=", str(right), ";"])
