"""`pbcnf-hints`: gives a refutation in the DRAT format, as text, the hints that `refute` asks for, which makes it one in LRAT. One in the
FRAT format, which has hints, is left to `frat`.

Both texts are read forwards, up to where unit propagation meets a false clause. From there it goes backwards, and looks for reasons
for those clauses alone on which that rests, as Wetzler, Heule and Hunt's DRAT-trim does. Each has to follow by unit propagation, as
the clauses that CaDiCaL adds do. What comes out need not be believed: `refute` checks it.
"""

from __future__ import annotations

import argparse
import itertools
import os
import re
import sys
from typing import IO, Callable, Dict, Iterable, Iterator, List, NamedTuple, Optional, Tuple, TypeVar

import pbcnf
from pbcnf.tools.frat import is_frat
from pbcnf.tools.frat import lrat_lines as frat_lines
from pbcnf.tools.output import say, status_of, test_output
from pbcnf.tools.propagation import Clauses
from pbcnf.tools.statuses import Status, Stop

_NAME = "pbcnf-hints"
_ABOUT = """Prints a refutation of a CNF in the LRAT format, which `pbcnf refute` takes. It is given in DRAT, as `cadical --no-binary` writes it, or
in FRAT with hints, as CryptoMiniSat 5.11 does."""
_STATUSES = """exit status:
  0   the refutation was printed
  1   a clause does not follow, nothing is refuted, or a text is not one of these
  2   a word has no place; nothing was done
  4   a file could not be read
  5   nothing can be printed
"""
_TEXT = re.compile(rb"(c.*|[-0-9d \t\r]*)\n?\Z")
_REFUSED = 1
# So many lines are read without a pause, and printed at once.
_OFTEN = 1000
_Line = TypeVar("_Line")


class _Event(NamedTuple):
    """A clause that was added or deleted, and the line of the text that says so."""

    number: int
    is_added: bool
    line: int


def main(words: Optional[List[str]] = None) -> int:
    """Runs the command, and gives its exit status."""
    parser = argparse.ArgumentParser(
        prog=_NAME, usage="%(prog)s CNF REFUTATION >LRAT", description=_ABOUT, epilog=_STATUSES, allow_abbrev=False, formatter_class=argparse.RawDescriptionHelpFormatter)
    parser.add_argument("cnf", metavar="CNF", help="the clauses, as `pbcnf encode` writes them")
    parser.add_argument("refutation", metavar="REFUTATION", help="the refutation, as text")
    parser.add_argument("--version", action="version", version="pbcnf " + pbcnf.__version__)
    given = parser.parse_args(words)
    return status_of(_NAME, lambda: _run(given))


def _run(given: argparse.Namespace) -> int:
    test_output()
    lines = lrat_lines(given.cnf, given.refutation)
    for block in iter(lambda: "".join(itertools.islice(lines, _OFTEN)), ""):
        say(block)
    return Status.DONE


def lrat_lines(cnf: str, refutation: str, pause: Callable[[], None] = lambda: None) -> Iterator[str]:
    """The lines of an LRAT text, for the files of a CNF and of a refutation in DRAT or FRAT. `pause` is called every now and then.

    Nothing is given where the texts refute nothing: that raises `Stop` before the first line.
    """
    try:
        with open(cnf, "rb") as clauses, open(refutation, "rb") as added:
            if is_frat(added):
                yield from frat_lines(sum(1 for _ in _clauses_of(clauses)), added, pause)
                return
            hints = _Hints(pause)
            hints.read(clauses, added)
    except OSError as error:
        raise Stop(Status.UNREAD, "%s: %s" % (error.filename, error.strerror))
    except (ValueError, IndexError):
        raise Stop(_REFUSED, "%s or %s has a line that is none of clauses" % (os.path.basename(cnf), os.path.basename(refutation)))
    hints.justify_core()
    yield from hints.lines()


class _Hints:
    """A refutation, as it is read, and the reasons for what it adds."""

    def __init__(self, pause: Callable[[], None]) -> None:
        self._pause = pause
        self._clauses = Clauses(0)
        self._numbers: Dict[Tuple[int, ...], List[int]] = {}
        self._events: List[_Event] = []
        # How much was true before a clause was added.
        self._held: List[int] = [0]
        self._wrong = 0
        # For added clauses of the core, and at 0 for the empty one: the reasons, and the clauses that nothing needs after it.
        self._reasons: Dict[int, List[int]] = {}
        self._ends: Dict[int, List[int]] = {}

    def read(self, cnf: IO[bytes], drat: IO[bytes]) -> None:
        """Reads both texts, up to where a clause is false."""
        given = [[int(word) for word in line.split()[:-1]] for line in self._paused(_clauses_of(cnf))]
        added = list(self._paused(_lines_of(drat)))
        every = itertools.chain(given, (literals for _, _, literals in added))
        self._clauses = Clauses(max((max(max(literals), -min(literals)) for literals in every if literals), default=0))
        for literals in given:
            self._add(literals)
        for line, is_added, literals in added:
            if self._wrong:
                return
            self._pause()
            if is_added:
                self._events.append(_Event(self._add(literals), True, line))
            else:
                self._delete(literals, line)
        if not self._wrong:
            raise Stop(_REFUSED, "the texts end without a conflict, so that nothing is refuted")

    def _paused(self, lines: Iterable[_Line]) -> Iterator[_Line]:
        """The same, with a pause now and then."""
        for count, line in enumerate(lines):
            if count % _OFTEN == 0:
                self._pause()
            yield line

    def _add(self, literals: List[int]) -> int:
        number = len(self._held)
        self._held.append(len(self._clauses.trail))
        if self._wrong:
            # It still has a number, since refutations count it.
            return number
        self._numbers.setdefault(tuple(sorted(literals)), []).append(number)
        self._wrong = self._clauses.add(literals)
        return number

    def _delete(self, literals: List[int], line: int) -> None:
        """Deletes the last such clause, unless it has made a literal true, which then would not follow any more."""
        numbers = self._numbers.get(tuple(sorted(literals)))
        if numbers and not self._clauses.is_reason(numbers[-1]):
            number = numbers.pop()
            self._clauses.delete(number)
            self._events.append(_Event(number, False, line))

    def justify_core(self) -> None:
        """Goes backwards, and finds the reasons of each added clause on which the empty one rests."""
        clauses = self._clauses
        self._rest_on(clauses.support(self._wrong), 0)
        for event in reversed(self._events):
            if not event.is_added:
                clauses.revive(event.number)
                continue
            self._pause()
            clauses.forget(event.number)
            if self._held[event.number] < len(clauses.trail):
                clauses.take_back(self._held[event.number])
            if clauses.in_core[event.number]:
                self._justify(event)

    def _justify(self, event: _Event) -> None:
        """Has unit propagation show that a clause follows from those before it."""
        reasons = self._clauses.justify(self._clauses.literals[event.number])
        if reasons is None:
            raise Stop(_REFUSED, "line %d does not follow by unit propagation" % event.line)
        self._rest_on(reasons, event.number)

    def _rest_on(self, reasons: List[int], user: int) -> None:
        """Makes these clauses ones of the core: those that were not before serve the user of them for the last time, seen forwards."""
        self._reasons[user] = reasons
        self._ends[user] = [number for number in reasons if not self._clauses.in_core[number]]
        for number in self._ends[user]:
            self._clauses.put_in_core(number)

    def lines(self) -> Iterator[str]:
        """The text, forwards: what is added, and what nothing needs any more."""
        for event in self._events:
            if event.is_added and event.number in self._reasons:
                words = [event.number, *self._clauses.literals[event.number], 0, *self._reasons[event.number], 0]
                yield " ".join(map(str, words)) + "\n"
                if self._ends[event.number]:
                    yield "%d d %s 0\n" % (event.number, " ".join(map(str, self._ends[event.number])))
        yield " ".join(map(str, [len(self._held), 0, *self._reasons[0], 0])) + "\n"


def _clauses_of(cnf: IO[bytes]) -> Iterator[bytes]:
    """The lines of a CNF with its clauses, one a line, as `encode` writes them."""
    return (line for line in cnf if line[:1] not in b"cp" and line.strip())


def _lines_of(drat: IO[bytes]) -> Iterator[Tuple[int, bool, List[int]]]:
    """The lines of a refutation: which it is, whether it adds, and the literals."""
    for number, line in enumerate(drat, 1):
        if number == 1 and not _TEXT.match(line):
            raise Stop(_REFUSED, "the DRAT file is binary; CaDiCaL writes text with --no-binary")
        words = line.split()
        if words and words[0] != b"c":
            is_added = words[0] != b"d"
            yield number, is_added, [int(word) for word in words[0 if is_added else 1:-1]]


if __name__ == "__main__":
    sys.exit(main())
