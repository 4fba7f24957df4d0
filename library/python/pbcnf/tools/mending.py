"""Rewrites an OPB text as people have it into one that the program reads, and says each change.

What the program reads is left as it is, statement by statement: only where its grammar is left is a piece read with other eyes.
"""

from __future__ import annotations

import re
from typing import List, NamedTuple, Tuple

from . import opb_text, spellings
from .causes import Unreadable, foreign, unreadable
from .spellings import Word
from .terms import Edit, Term, Words, apply, read_sum

_MARK = b"\xef\xbb\xbf"
_OBJECTIVE = re.compile(rb"(?:minimi[sz]e|maximi[sz]e|min|max)(?:[ \t]*:|(?=[ \t\r\n][^;<>=]*;))", re.IGNORECASE)
_SOFT = re.compile(rb"soft[ \t]*:|\[")
_LABEL = re.compile(rb"(?:@[^ \t\r\n;=<>]+(?=[ \t\r\n])|[A-Za-z_][^ \t\r\n;=<>:]*[ \t]*:(?!=))[ \t]*")
_SHIFTS = {b">": 1, b"<": -1}
_CUT = "no ; at the end of the text, which may be cut off"
_TURNED = {b">=": b"<=", b"<=": b">=", b"=": b"=", b">": b"<", b"<": b">"}


class Change(NamedTuple):
    """What was changed: where it stood, what it was and became, and what was wrong with it."""

    at: int
    before: bytes
    after: bytes
    why: str


def mend(text: bytes) -> Tuple[bytes, List[Change]]:
    """The text as the program reads it, and the changes in their order; or raises `Unreadable` at what cannot be read."""
    mender = _Mender(text)
    try:
        mender.go()
    except Unreadable as fault:
        raise Unreadable(fault.at, foreign(text) or fault.cause) from None
    return apply(text, mender.edits, 0, len(text)), sorted(mender.changes, key=lambda change: change.at)


class _Mender:
    """Goes through a text piece by piece, and keeps the edits and what is to be said of them."""

    def __init__(self, text: bytes) -> None:
        self.text = text
        self.edits: List[Edit] = []
        self.changes: List[Change] = []
        self.zero = _name_of_zero(text)
        self.first = -1
        self.has_objective = False

    def go(self) -> None:
        """Reads the whole text."""
        at = self._lead_in(0)
        while at < len(self.text):
            aim = _OBJECTIVE.match(self.text, at)
            first = at
            at = self._objective(at, aim.group()) if aim else self._statement(at)
            if self.first < 0:
                self.first = first
            at = self._lead_in(at)

    def _change(self, start: int, end: int, new: bytes, why: str) -> None:
        """Keeps an edit that is a change by itself."""
        self.edits.append(Edit(start, end, new))
        self.changes.append(Change(start, self.text[start:end], new, why))

    def _lead_in(self, at: int) -> int:
        """Where the next piece begins, after comments, the mark of some editors, and the names of statements."""
        if at == 0 and self.text.startswith(_MARK):
            self._change(0, len(_MARK), b"", "a byte order mark")
            at = len(_MARK)
        while True:
            gaps: List[spellings.Gap] = []
            at = spellings.skip(self.text, at, gaps, [])
            self._close(gaps)
            label = _LABEL.match(self.text, at)
            if _SOFT.match(self.text, at):
                raise unreadable(self.text, at)
            if not label or _OBJECTIVE.match(self.text, at):
                return at
            self._change(at, label.end(), b"", "a name of a statement, which the program does not take")
            at = label.end()

    def _close(self, gaps: List[spellings.Gap]) -> None:
        """Mends what stands between words."""
        for gap in gaps:
            is_comment = gap.mended.strip().startswith(b"*")
            self._change(gap.start, gap.end, gap.mended, "a comment begins with *" if is_comment else "a blank of another kind")

    # --- The objective

    def _objective(self, at: int, aim: bytes) -> int:
        """Reads the objective that begins with these bytes, and gives where it ends."""
        if self.has_objective:
            raise Unreadable(at, "a second objective")
        self.has_objective = True
        behind = at + len(aim)
        if aim == b"min:" and self.first < 0:
            end = opb_text.end_of_piece(self.text, behind, True)
            if end is not None:
                return end
        words = Words(self.text, behind, self.zero)
        terms = read_sum(words)
        self._end_objective(words, terms)
        turned = aim[:3].lower() == b"max"
        if turned or self.first >= 0:
            self._rewrite_objective(at, words, terms, turned)
            return words.end
        if aim != b"min:":
            self._change(at, behind, b"min:", "an objective begins with min:")
        self._keep(words, terms)
        return words.end

    def _end_objective(self, words: Words, terms: List[Term]) -> None:
        """Goes past the `;` of an objective, which has no constants."""
        for term in terms:
            if not term.literals:
                raise Unreadable(term.start, "a constant in the objective, which changes no choice: leave it out")
        end = words.peek()
        if end.kind != spellings.END:
            raise unreadable(self.text, end.start)
        words.take()

    def _rewrite_objective(self, at: int, words: Words, terms: List[Term], turned: bool) -> None:
        """Turns the signs of what is maximised, and has the objective stand first."""
        spelled = b" ".join([b"min:"] + [term.spelled(turned) for term in terms] + [b";"])
        why = "what is least with its signs turned is greatest; values have the other sign" if turned else "the objective comes first"
        new = _with_comments(spelled, words)
        if self.first < 0:
            self.edits.append(Edit(at, words.end, new))
        else:
            # In front of what is edited where the first statement begins.
            self.edits = [Edit(self.first, self.first, new + b"\n"), *self.edits, Edit(at, words.end, b"")]
        self.changes.append(Change(at, self.text[at:words.end], spelled, why))

    # --- Statements

    def _statement(self, at: int) -> int:
        """Reads a statement, and gives where it ends."""
        end = opb_text.end_of_piece(self.text, at, False)
        if end is not None:
            return end
        words = Words(self.text, at, self.zero)
        left = read_sum(words)
        relation = words.take()
        meant = spellings.relation_of(relation)
        if relation.kind != spellings.RELATION or not meant:
            raise unreadable(self.text, relation.start)
        words.is_right = True
        right = read_sum(words)
        if not right:
            raise unreadable(self.text, words.peek().start)
        last = words.end
        ended = words.peek()
        if ended.kind not in (spellings.END, spellings.NOTHING):
            raise unreadable(self.text, ended.start)
        words.take()
        is_cut = ended.kind == spellings.NOTHING
        if len(right) == 1 and not right[0].literals and all(term.literals for term in left):
            self._keep(words, left)
            self._mend_right(relation, meant, right[0])
            if is_cut:
                self.edits.append(Edit(last, last, b" ;"))
                self.changes.append(Change(last, b"", b";", _CUT))
        else:
            self._move(at, words, _moved(left, meant, right), is_cut)
        return words.end

    def _keep(self, words: Words, terms: List[Term]) -> None:
        """Mends terms where they stand."""
        self._close(words.gaps)
        for term in terms:
            self.edits += term.edits
            if term.edits:
                why = ", ".join(dict.fromkeys(term.why))
                self.changes.append(Change(term.start, self.text[term.start:term.end], term.mended(self.text), why))

    def _mend_right(self, relation: Word, meant: bytes, right: Term) -> None:
        """Mends a relation and the integer after it where they stand."""
        written = self.text[right.start:right.end]
        shift = _SHIFTS.get(meant, 0)
        new = _at_least(meant)
        integer = written if not right.edits else b"%d" % right.value()
        if shift:
            integer = b"%d" % (right.value() + shift)
        if relation.text == new and written == integer:
            return
        self.edits += [Edit(relation.start, relation.end, new), Edit(right.start, right.end, integer)]
        why = "%s of integers" % meant.decode("ascii") if shift else "a relation of another spelling" if relation.text != new else ", ".join(right.why)
        self.changes.append(Change(relation.start, self.text[relation.start:right.end], new + b" " + integer, why))

    def _move(self, at: int, words: Words, spelled: bytes, is_cut: bool) -> None:
        """Puts a statement that is written anew in the place of one."""
        before = self.text[at:words.end]
        new = _with_comments(spelled, words)
        if before.endswith(b"\n") and not new.endswith(b"\n"):
            new += b"\n"
        self.edits.append(Edit(at, words.end, new))
        why = "all terms stand on the left, and one integer on the right"
        self.changes.append(Change(at, before, spelled, why + "; " + _CUT if is_cut else why))


def _moved(left: List[Term], meant: bytes, right: List[Term]) -> bytes:
    """A statement with all terms on the left and one integer on the right."""
    value = sum(term.value() for term in right if not term.literals) - sum(term.value() for term in left if not term.literals)
    terms = [term.spelled() for term in left if term.literals] + [term.spelled(True) for term in right if term.literals]
    if not any(term.literals for term in left):
        meant, value = _TURNED[meant], -value
        terms = [term.spelled() for term in right if term.literals]
    value += _SHIFTS.get(meant, 0)
    return b" ".join(terms + [_at_least(meant), b"%d" % value, b";"])


def _at_least(meant: bytes) -> bytes:
    """The relation that stands for another of integers, whose right side is shifted."""
    return meant + b"=" if meant in _SHIFTS else meant


def _with_comments(spelled: bytes, words: Words) -> bytes:
    """A piece that is written anew, and after it the comments that stood within."""
    return spelled + b"".join(b" " + comment.rstrip() + b"\n" for comment in words.comments)


def _name_of_zero(text: bytes) -> bytes:
    """A name that the text does not have, for a variable of the number 0."""
    if not re.search(rb"x0", text):
        return b"y0"
    names = set(re.findall(rb"[A-Za-z_][A-Za-z0-9_\[\]{}^-]*", text))
    name = b"y0"
    while name in names:
        name = b"y" + name
    return name
