"""Sums of OPB texts as people write them, term by term: what each says, and what has to be edited so that the program reads it."""

from __future__ import annotations

import re
from typing import List, NamedTuple, Optional

from . import spellings
from .causes import Unreadable, unreadable
from .spellings import Gap, Word


class Edit(NamedTuple):
    """Bytes in the place of those from `start` to before `end`."""

    start: int
    end: int
    new: bytes


def apply(text: bytes, edits: List[Edit], start: int, end: int) -> bytes:
    """A part of a text after its edits, in the order of their places: what is put in stands before what is replaced there, and
    within what is replaced no other edit counts."""
    made: List[bytes] = []
    for edit in sorted(edits, key=lambda edit: (edit.start, edit.end)):
        if edit.start >= start:
            made += [text[start:edit.start], edit.new]
            start = edit.end
    return b"".join(made + [text[start:end]])


class Term(NamedTuple):
    """A term, or a constant where it has no literals; and its edits, with why they are made."""

    start: int
    end: int
    negative: bool
    digits: bytes
    literals: List[bytes]
    edits: List[Edit]
    why: List[str]

    def mended(self, text: bytes) -> bytes:
        """As it stands in the rewritten text."""
        return apply(text, self.edits, self.start, self.end).strip()

    def spelled(self, turned: bool = False) -> bytes:
        """As the program reads it, with the other sign where it is turned."""
        sign = b"-" if self.negative != turned else b"+"
        return b" ".join([sign + self.digits, *self.literals])

    def value(self) -> int:
        """What a constant is."""
        try:
            return int((b"-" if self.negative else b"+") + self.digits)
        except ValueError:
            raise Unreadable(self.start, "a number of more digits than any that the program takes") from None


class Words:
    """Goes through the words of a piece of a text, and keeps what stands between them."""

    def __init__(self, text: bytes, at: int, zero: bytes) -> None:
        self.text = text
        self.zero = zero
        self.gaps: List[Gap] = []
        self.comments: List[bytes] = []
        self.end = at
        self.kind = ""
        self.is_right = False
        self._next: Optional[Word] = None

    def peek(self) -> Word:
        """The next word, which stays the next."""
        if self._next is None:
            at = spellings.skip(self.text, self.end, self.gaps, self.comments, self.kind, self.is_right)
            self._next = spellings.word_at(self.text, at)
        return self._next

    def take(self) -> Word:
        """The next word, which is after this place then."""
        word = self.peek()
        self._next = None
        self.end, self.kind = word.end, word.kind
        return word

    def take_if(self, kind: str) -> Optional[Word]:
        """The next word if it is of this kind."""
        return self.take() if self.peek().kind == kind else None


def read_sum(words: Words) -> List[Term]:
    """The terms and constants up to a relation, a `;` or the end."""
    found: List[Term] = []
    while words.peek().kind not in (spellings.RELATION, spellings.END, spellings.NOTHING):
        glued = words.kind in (spellings.NAME, spellings.NUMBER) and words.end == words.peek().start
        term = _read_term(words)
        if glued:
            term.edits.insert(0, Edit(term.start, term.start, b" "))
            term.why.append("no blank between terms")
        _judge(words.text, term, found[-1] if found else None)
        found.append(term)
    return found


def _read_term(words: Words) -> Term:
    """A term or a constant: signs, a number, literals, of which it has a number or a literal at least."""
    edits: List[Edit] = []
    why: List[str] = []
    start = words.peek().start
    signs: List[Word] = []
    while words.peek().kind == spellings.SIGN:
        signs.append(words.take())
    number = words.take_if(spellings.NUMBER)
    negative = sum(map(spellings.minus, signs)) % 2 == 1
    digits = spellings.digits(number) if number else b"1"
    if not number or words.text[start:number.end] not in (digits, b"+" + digits, b"-" + digits):
        for sign in signs:
            edits.append(Edit(sign.start, _behind_blanks(words.text, sign.end), b""))
        why.append(_wrong_head(signs, number))
        spelled = (b"-" if negative else b"+") + digits
        edits.append(Edit(number.start, number.end, spelled) if number else Edit(words.peek().start, words.peek().start, spelled + b" "))
    literals = _read_literals(words, number, edits, why)
    if not number and not literals:
        raise unreadable(words.text, words.peek().start)
    return Term(start, words.end, negative, digits, literals, edits, why)


def _wrong_head(signs: List[Word], number: Optional[Word]) -> str:
    """What is wrong with a coefficient that is no sign and digits."""
    if not number:
        return "a term without its coefficient"
    if b"." in number.text:
        return "a point in a number"
    return "a sign apart from its digits" if len(signs) == 1 else "more signs than one"


def _behind_blanks(text: bytes, at: int) -> int:
    """The first place on the line that has no blank."""
    while text[at:at + 1] in (b" ", b"\t"):
        at += 1
    return at


def _read_literals(words: Words, number: Optional[Word], edits: List[Edit], why: List[str]) -> List[bytes]:
    """The literals of a term, with blanks between them."""
    found: List[bytes] = []
    is_clear = number is not None
    while True:
        before = words.end
        is_glued = bool(found) or number is not None
        times = words.take_if(spellings.TIMES)
        if times:
            blank = b" " if before == times.start else b""
            edits.append(Edit(times.start, _behind_blanks(words.text, times.end), blank))
            why.append("a * between literals" if found else "a * after the coefficient")
            is_glued = False
            is_clear = is_clear or bool(found)
        elif found and not is_clear and words.peek().kind in (spellings.NAME, spellings.NEGATION):
            raise Unreadable(words.peek().start, "two names without a coefficient: a sum, or a product? +1 before each, or a * between")
        negation = words.take_if(spellings.NEGATION)
        name = words.take_if(spellings.NAME)
        if not name:
            if negation or times:
                raise unreadable(words.text, words.peek().start)
            return found
        first = negation or name
        if is_glued and before == first.start:
            edits.append(Edit(first.start, first.start, b" "))
            why.append("no blank after the coefficient" if not found else "no blank between literals")
        _judge_exponent(number if not found and is_glued else None, name)
        found.append(_spell(words, negation, name, edits, why))


def _judge_exponent(number: Optional[Word], name: Word) -> None:
    """Refuses a number such as 1e6, which would be taken for a coefficient and a name."""
    if number and number.end == name.start and re.match(rb"[eE][-+]?[0-9]+\Z", name.text):
        raise Unreadable(number.start, "an exponent; write all digits")


def _spell(words: Words, negation: Optional[Word], name: Word, edits: List[Edit], why: List[str]) -> bytes:
    """A literal, its `~` right before its name, and another name where that is a variable of the number 0."""
    if negation and negation.text != b"~":
        edits.append(Edit(negation.start, name.start, b"~"))
        why.append("another sign of negation than ~")
    elif negation and negation.end != name.start:
        edits.append(Edit(negation.end, name.start, b""))
        why.append("a blank after ~")
    spelled = name.text
    if re.match(rb"x0+\Z", name.text):
        spelled = words.zero
        edits.append(Edit(name.start, name.end, spelled))
        why.append("a variable of the number 0, where numbers begin at 1: another name")
    return (b"~" if negation else b"") + spelled


def _judge(text: bytes, term: Term, before: Optional[Term]) -> None:
    """Refuses what may mean two things."""
    if term.edits:
        for literal in term.literals:
            if b"-" in literal:
                at = text.find(literal.lstrip(b"~"), term.start)
                raise Unreadable(at, "a name with - in it, or a difference? blanks around the - would tell")
    bare = re.match(rb"[-+](?=[A-Za-z_~])", text[term.start:term.end])
    if bare and before and not before.literals:
        raise Unreadable(term.start, "a sign after a coefficient: for a negation write ~")
