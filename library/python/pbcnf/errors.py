"""What the calls raise. Each kind has the exit status of the program in the same case, and can be copied and pickled."""

from __future__ import annotations

from typing import TYPE_CHECKING, Optional

if TYPE_CHECKING:
    from pbcnf._native import Refusal

FILES = ("", "OPB", "CNF", "PROOF", "MODEL", "LRAT")


class Error(Exception):
    """A call did not do what was asked. `str` of it is what the program would print.

    status: the exit status of the program in the same case.
    """

    status: int = 70

    def _take(self, refusal: Refusal) -> None:
        """Takes what the numbers say."""


class Refused(Error):
    """A text leaves its grammar, first at this place.

    file: which text, `OPB`, `CNF`, `PROOF`, `MODEL` or `LRAT`.
    line, column: from 1, columns in bytes.
    expected: what the grammar allows there.

    >>> try:
    ...     pbcnf.encode("+1 x1 >= ;")
    ... except pbcnf.Refused as error:
    ...     print(error.file, error.line, error.column, error.expected)
    OPB 1 10 an integer
    """

    status = 1
    file: str = ""
    line: int = 0
    column: int = 0
    expected: str = ""

    def _take(self, refusal: Refusal) -> None:
        self.file = FILES[refusal.file]
        self.line, self.column = refusal.line, refusal.column
        self.expected = str(self).partition(": expected ")[2]


class Usage(Error, ValueError):
    """What was passed chooses nothing: an option, a relation, the first fresh variable or a literal. The words say which.

    >>> pbcnf.encode("+1 x1 >= 1 ;", budget=0)
    Traceback (most recent call last):
    pbcnf.errors.Usage: pbcnf: usage: the budget is 0, and not from 1 to 10000000
    """

    status = 2


class LimitPassed(Error):
    """A text, or what is to be made of it, passes a limit.

    limit: which, `text`, `statements`, `terms`, `weight`, `bounds`, `variables`, `clauses`, `line`, `lines`, `number` or `name`.
    file, line, column: the place that is to blame, if one is.
    constraint: which of many is to blame, from 1, if one is.

    >>> pbcnf.constraints([([(1, 1)], ">=", 1), ([(2**100, 1)], ">=", 1)], first=2)
    Traceback (most recent call last):
    pbcnf.errors.LimitPassed: pbcnf: constraint 2: limit weight
    """

    status = 3
    limit: str = ""
    constraint: Optional[int] = None
    file: Optional[str] = None
    line: Optional[int] = None
    column: Optional[int] = None

    def _take(self, refusal: Refusal) -> None:
        self.limit = str(self).rpartition(": limit ")[2]
        self.file = FILES[refusal.file] or None
        self.line, self.column = refusal.line or None, refusal.column or None
        self.constraint = refusal.number or None


class OutOfMemory(Error, MemoryError):
    """The library was given no memory."""

    status = 6


class Rejected(Error):
    """A step of a derivation is not allowed.

    line: its line, from 1.
    reason: why, as `not implied by 4`.
    """

    status = 7
    line: int = 0
    reason: str = ""

    def _take(self, refusal: Refusal) -> None:
        self.line = refusal.line
        self.reason = str(self).partition(" line %d: " % self.line)[2]


class NotASolution(Error):
    """The values of the model violate a statement.

    statement: the first that they violate, from 1; a bound on the objective counts as the last.

    >>> pbcnf.decode("+1 x1 >= 1 ;", [-1])
    Traceback (most recent call last):
    pbcnf.errors.NotASolution: pbcnf: statement 1 is violated
    """

    status = 8
    statement: int = 0

    def _take(self, refusal: Refusal) -> None:
        self.statement = refusal.number


class NoModel(Error):
    """The solver does not say that there is a model.

    >>> pbcnf.decode("+1 x1 >= 1 ;", "s UNSATISFIABLE\\n")
    Traceback (most recent call last):
    pbcnf.errors.NoModel: pbcnf: no model
    """

    status = 9


class NotRefuted(Rejected):
    """A line of a refutation is none, or it ends before that line without an empty clause."""

    status = 10


class NoLibrary(Error, OSError):
    """There is no libpbcnf that this module can call: none was found, or it is of another version."""


KINDS = {kind.status: kind for kind in (Refused, Usage, LimitPassed, OutOfMemory, Rejected, NotASolution, NoModel, NotRefuted)}


def error_of(refusal: Refusal, words: str) -> Error:
    """What a refusal is raised as, with the words that the library has for it."""
    error = KINDS.get(refusal.status, Error)(words)
    error._take(refusal)
    return error
