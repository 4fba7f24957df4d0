"""Words of OPB texts as people and other programs spell them, beyond those that the program reads.

A byte that may stand in a name ends no name here either: `x1-x2` is one. What else is taken apart is what the program would refuse
as one word, as `2x1`, `x1+x2` and `3*x1`.
"""

from __future__ import annotations

import re
from typing import List, NamedTuple, Tuple

from .causes import Unreadable

SIGN, NUMBER, NEGATION, NAME, TIMES, RELATION, END, OTHER, NOTHING = (
    "sign", "number", "negation", "name", "times", "relation", "end", "other", "nothing")

_NAME = rb"[A-Za-z_][A-Za-z0-9_\[\]{}^-]*"
_WORDS: Tuple[Tuple[str, bytes], ...] = (
    (RELATION, rb">[ \t]*=|<[ \t]*=|=>|=<|==|!=|<>|[<>=]|\xe2\x89[\xa0\xa4\xa5]"),
    (END, rb";"),
    (SIGN, rb"[+-]|\xe2\x88\x92"),
    (NUMBER, rb"[0-9]+(?:\.0*)?(?![0-9.,'])"),
    (NEGATION, rb"[~!]|\xc2\xac"),
    (NAME, _NAME),
    (TIMES, rb"\*|\xc2\xb7"),
    (OTHER, rb"[^ \t\r\n;=<>]+"),
)
_WORD = re.compile(b"|".join(b"(?P<%s>%s)" % (kind.encode("ascii"), pattern) for kind, pattern in _WORDS))
_BLANKS = re.compile(rb"[ \t\r\n]*")
# Vertical tab, form feed, and the blanks of UTF-8 that editors and web pages put in the place of a blank.
_ODD_WHITE = re.compile(rb"[\x0b\x0c]|\xc2\xa0|\xe2\x80[\x80-\x8b\xaf]|\xe3\x80\x80")
_COMMENT = re.compile(rb"(\*|#|//)[^\n]*")
_FACTOR = re.compile(rb"\*[ \t]*(?:[~!][ \t]*)?" + _NAME + rb"(?![A-Za-z0-9_\[\]{}^-])([ \t\r\n]*)(?:\Z|[-+*;<>=0-9\xe2\xc2])")
_GLUED_LITERAL = re.compile(rb"\*[~!]?" + _NAME)
_NUMBER_BEHIND = re.compile(rb"\*[ \t]*[0-9]")

RELATIONS = {
    b">=": b">=", b"<=": b"<=", b"=": b"=", b"==": b"=", b"=>": b">=", b"=<": b"<=", b">": b">", b"<": b"<",
    b"\xe2\x89\xa5": b">=", b"\xe2\x89\xa4": b"<=",
}


class Word(NamedTuple):
    """A word of a kind, and the bytes of the text from `start` to before `end`."""

    kind: str
    text: bytes
    start: int
    end: int


class Gap(NamedTuple):
    """Something between words that the program does not take as that: a comment, or a blank of another kind."""

    start: int
    end: int
    mended: bytes


def skip(text: bytes, start: int, gaps: List[Gap], comments: List[bytes], behind: str = NOTHING, is_right: bool = False) -> int:
    """Where the next word begins, after white bytes and comments.

    `behind` is the kind of the word that ends where this starts: on the line of a number or a name a `*` may be one of a product.
    """
    at = start
    while True:
        at = _BLANKS.match(text, at).end()  # type: ignore[union-attr]
        odd = _ODD_WHITE.match(text, at)
        if odd:
            gaps.append(Gap(at, odd.end(), b" "))
            at = odd.end()
            continue
        found = _COMMENT.match(text, at)
        if not found:
            return at
        if found.group(1) == b"*" and behind in (NUMBER, NAME) and b"\n" not in text[start:at] and _multiplies(text, at, behind, is_right):
            return at
        mended = b"*" + found.group()[len(found.group(1)):]
        comments.append(mended)
        if found.group(1) != b"*":
            gaps.append(Gap(at, found.end(), mended if at == 0 or text[at - 1:at].isspace() else b" " + mended))
        at = found.end()


def _multiplies(text: bytes, at: int, behind: str, is_right: bool) -> bool:
    """True if a `*` on the line of a number or a name is one of a product, and no comment; refuses what may be either.

    Without blanks before it, it is no comment. Else it is none where just one literal follows, and then what stands after a
    literal: a sign, a number, a relation or the end.
    """
    is_glued = not text[at - 1:at].isspace()
    factor = _FACTOR.match(text, at)
    if not _NUMBER_BEHIND.match(text, at):
        if is_glued and (factor or _GLUED_LITERAL.match(text, at)):
            return True
        if not is_glued and not factor:
            return False
        if factor and not is_right and (behind == NUMBER or b"\n" not in factor.group(1)):
            return True
    raise Unreadable(at, "a * of a product, or of a comment? a coefficient comes before its *, and a comment on a line of its own")


def word_at(text: bytes, at: int) -> Word:
    """The word at a place where one begins, or the nothing after the last one."""
    found = _WORD.match(text, at)
    if not found:
        return Word(NOTHING, b"", at, at)
    kind = str(found.lastgroup)
    return Word(kind, found.group(), at, found.end())


def relation_of(word: Word) -> bytes:
    """Which of `>=`, `<=`, `=`, `>` and `<` a relation is; nothing where it is none of these."""
    return RELATIONS.get(re.sub(rb"[ \t]", b"", word.text), b"")


def minus(word: Word) -> bool:
    """True if a sign is a minus, of ASCII or of UTF-8."""
    return word.text != b"+"


def digits(word: Word) -> bytes:
    """A number without the `.0` that it may end with."""
    return word.text.partition(b".")[0]
