"""Reads of an OPB text what a proof about it has to know: the names of its variables, and how many constraints it loads.

It takes the profile of OPB that the program reads, and refuses by name what VeriPB would read in another way: a product of
literals, a name of its kind that VeriPB does not promise to take, and a number with leading zeros, which is another name there.
"""

from __future__ import annotations

import re
from dataclasses import dataclass
from typing import Dict, List, NamedTuple, Set

from .veripb_texts import NO_COUNTERPART, Names, Refusal, expected, integer, natural

_TOKEN = re.compile(r"[ \t\r]*(\*.*|;|>=|<=|=|<|>|[^ \t\r;=<>:]*:|[^ \t\r;=<>:]+)")
_NAME = re.compile(r"[A-Za-z_][A-Za-z0-9_\[\]{}^-]*")
_RELATIONS = {">=", "<=", "="}
_NUMBERED = re.compile(r"x[0-9]+")
# What VeriPB promises to take: a letter first, two bytes at least, and no other bytes than these.
_TAKEN = re.compile(r"[A-Za-z][A-Za-z0-9_\[\]{}^]+")


class Token(NamedTuple):
    word: str
    line: int
    column: int

    def fault(self, what: str) -> Refusal:
        return expected("OPB", self.line, self.column, what)

    def without(self, what: str) -> Refusal:
        return Refusal(NO_COUNTERPART, f"OPB {self.line}:{self.column}: {what} has no counterpart in VeriPB's format")


@dataclass(frozen=True)
class Problem:
    """A linear problem, as far as a proof has to know it."""

    numbered: int
    """So many variables are named by their numbers."""
    free: List[str]
    """The other names, whose variables come after those, in the order of the text."""
    loaded: int
    """How many constraints are loaded: an equality is two, the lower bound first, for VeriPB as for the program."""
    has_objective: bool

    def names(self) -> Names:
        return Names({self.numbered + place: name for place, name in enumerate(self.free, 1)})

    def variables(self) -> int:
        return self.numbered + len(self.free)


def read_problem(text: str) -> Problem:
    """The problem of an OPB text, each of whose characters is a byte."""
    return _Reader(text).problem()


class _Reader:
    """Goes through the tokens, and notes each variable where it first stands."""

    def __init__(self, text: str) -> None:
        lines = text.split("\n")
        self.tokens = [token for number, line in enumerate(lines, 1) for token in _tokens(line, number)]
        self.tokens.append(Token("", len(lines), len(lines[-1]) + 1))
        self.numbered = _variables_told(lines[0])
        self.free: Dict[str, None] = {}
        self.place = 0

    def problem(self) -> Problem:
        has_objective = self._next().word == "min:"
        if has_objective:
            self.place += 1
            self._pass_sum()
            self._take({";"}, "a coefficient or ;")
        loaded = 0
        while self._next().word:
            self._judge_start()
            loaded += self._pass_statement()
        return Problem(self.numbered, list(self.free), loaded, has_objective)

    def _next(self) -> Token:
        return self.tokens[self.place]

    def _take(self, words: Set[str], what: str) -> str:
        token = self._next()
        if token.word not in words:
            raise token.fault(what)
        self.place += 1
        return token.word

    def _judge_start(self) -> None:
        if integer(self._next().word) is None and self._next().word not in _RELATIONS:
            raise self._next().fault("a statement or the end" if self.place else "min:, a statement or the end")

    def _pass_statement(self) -> int:
        """How many constraints it loads."""
        self._pass_sum()
        relation = self._take(_RELATIONS, "a coefficient or a relation")
        if integer(self._next().word) is None:
            raise self._next().fault("an integer")
        self.place += 1
        self._take({";"}, ";")
        return 2 if relation == "=" else 1

    def _pass_sum(self) -> None:
        while integer(self._next().word) is not None:
            self.place += 1
            token = self._next()
            name = _name_in(token.word)
            if not name:
                raise token.fault("a literal")
            self._note(token, name)
            self.place += 1
            if _name_in(self._next().word):
                raise self._next().without("a product of literals")

    def _note(self, token: Token, name: str) -> None:
        if not _NUMBERED.fullmatch(name):
            if not _TAKEN.fullmatch(name):
                raise token.without(f"the name {name}")
            self.free[name] = None
        elif name.startswith("x0"):
            raise token.without(f"the name {name}, which is x{int(name[1:])} here and another variable there,")
        else:
            self.numbered = max(self.numbered, int(name[1:]))


def _tokens(line: str, number: int) -> List[Token]:
    tokens = []
    for found in _TOKEN.finditer(line):
        if found.group(1).startswith("*"):
            break
        tokens.append(Token(found.group(1), number, found.start(1) + 1))
    return tokens


def _name_in(word: str) -> str:
    """The name in a literal, or nothing where the word is none."""
    name = word[1:] if word.startswith("~") else word
    return name if _NAME.fullmatch(name) and name != "x0" else ""


def _variables_told(line: str) -> int:
    """The number of variables in the first line, if that declares it."""
    words = line.split()
    told = len(words) > 2 and words[:2] == ["*", "#variable="]
    return natural(words[2]) or 0 if told else 0
