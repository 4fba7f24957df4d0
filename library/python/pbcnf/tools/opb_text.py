"""OPB texts as the program reads them: tokens with their places, and where statements begin and end.

This is docs/FORMATS.md once more, for tools that have to say which line of a text they speak of. The program stays the judge: what
is read here is judged by nothing but the grammar, and no limit is tested.
"""

from __future__ import annotations

import re
from typing import Iterable, Iterator, List, NamedTuple, Optional, Tuple

_WHITE_OR_COMMENT = re.compile(rb"(?:[ \t\r\n]|\*[^\n]*(?:\n|\Z))*")
_TOKEN = re.compile(rb">=|<=|[;=<>]|[^ \t\r\n;=<>:]*:|[^ \t\r\n;=<>:]+")
_INTEGER = re.compile(rb"[+-]?[0-9]+\Z")
_LITERAL = re.compile(rb"~?(?!x0+\Z)[A-Za-z_][A-Za-z0-9_\[\]{}^-]*\Z")
_RELATIONS = (b">=", b"=", b"<=")
# What may follow a token of each kind.
_TERM, _FACTOR, _FURTHER, _RIGHT, _END = "term", "factor", "further", "right", "end"


class Token(NamedTuple):
    """A token, and the bytes of the text from `start` to before `end`."""

    text: bytes
    start: int
    end: int


class Statement(NamedTuple):
    """A statement: which it is, from 1, its bytes, its `;` among them, the line on which it begins, and its relation."""

    number: int
    text: bytes
    line: int
    relation: bytes

    @property
    def halves(self) -> int:
        """How many constraints are loaded for it: an equality gives two."""
        return 2 if self.relation == b"=" else 1


def skip(text: bytes, at: int) -> int:
    """Where the next token begins, or the end of the text."""
    found = _WHITE_OR_COMMENT.match(text, at)
    return found.end() if found else at


def token_at(text: bytes, at: int) -> Optional[Token]:
    """The first token from a place on, unless the text ends before."""
    at = skip(text, at)
    found = _TOKEN.match(text, at)
    return Token(found.group(), at, found.end()) if found else None


def place(text: bytes, at: int) -> Tuple[int, int]:
    """The line and the column of a byte, both from 1, as the program counts them."""
    return next(places(text, [at]))


def places(text: bytes, ascending: Iterable[int]) -> Iterator[Tuple[int, int]]:
    """The line and the column of each of many bytes, in one go through the text."""
    line, counted = 1, 0
    for at in ascending:
        line, counted = line + text.count(b"\n", counted, at), at
        yield line, at - text.rfind(b"\n", 0, at)


def offset(text: bytes, line: int, column: int) -> int:
    """Which byte stands at a line and a column; the end of the text where there is none."""
    start = 0
    for _ in range(line - 1):
        start = text.find(b"\n", start) + 1
        if not start:
            return len(text)
    return min(start + column - 1, len(text))


def is_literal(word: bytes) -> bool:
    """True if a word is a literal, by its spelling."""
    return _LITERAL.match(word) is not None


def end_of_piece(text: bytes, at: int, is_objective: bool) -> Optional[int]:
    """After the `;` of the statement that begins here, or of the objective after its `min:`; none where the grammar is left."""
    state = _TERM
    while state:
        token = token_at(text, at)
        after = _step(state, token.text, is_objective) if token else None
        if token is None or after is None:
            return None
        state, at = after, token.end
    return at


def _step(state: str, word: bytes, is_objective: bool) -> Optional[str]:
    """What may follow a word: the empty word after the last one, and none if the word itself may not be there."""
    if state in (_TERM, _FURTHER) and _INTEGER.match(word):
        return _FACTOR
    if state in (_FACTOR, _FURTHER) and _LITERAL.match(word):
        return _FURTHER
    if state in (_TERM, _FURTHER):
        if is_objective:
            return "" if word == b";" else None
        return _RIGHT if word in _RELATIONS else None
    if state == _RIGHT:
        return _END if _INTEGER.match(word) else None
    return "" if state == _END and word == b";" else None


def statements(text: bytes) -> List[Statement]:
    """The statements of a text that the program accepts, in their order, without its objective."""
    pieces = (piece for piece in _pieces(text) if piece[3])
    return [Statement(number, text[start:end], line, relation) for number, (start, end, line, relation) in enumerate(pieces, 1)]


def _pieces(text: bytes) -> Iterator[Tuple[int, int, int, bytes]]:
    """The first byte of each piece, the one after its `;`, its line, and its relation, which the objective lacks."""
    start, line, counted, relation = -1, 1, 0, b""
    at = 0
    while True:
        token = token_at(text, at)
        if token is None:
            return
        if start < 0:
            start = token.start
            line, counted = line + text.count(b"\n", counted, start), start
        if token.text in _RELATIONS:
            relation = token.text
        if token.text == b";":
            yield start, token.end, line, relation
            start, relation = -1, b""
        at = token.end
