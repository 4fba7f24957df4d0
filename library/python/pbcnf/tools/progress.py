"""One line on standard error on how far the search is: drawn in place on a terminal, else written where something has changed."""

from __future__ import annotations

import os
import sys
from typing import IO, Optional

from pbcnf.tools.program import Summary
from pbcnf.tools.search import Found

# Goes to the beginning of the line, and clears it.
_ANEW = "\r\033[K"


class Progress:
    """What is known, what is asked for, and since when."""

    def __init__(self, name: str, quiet: bool = False) -> None:
        self._name = name
        self._error: Optional[IO[str]] = None if quiet else sys.stderr
        self._in_place = self._error is not None and self._error.isatty() and os.environ.get("TERM", "dumb") != "dumb"
        self._known = Found()
        self._doing = ""

    def asks(self, bound: Optional[int], size: Summary) -> None:
        """The solver is about to look for a solution of at most this value, over a CNF of this size."""
        words = "any" if bound is None else "at most %d" % bound
        self._doing = "; %s: %d variables, %d clauses" % (words, size.variables, size.clauses)

    def refutes(self, is_long: bool) -> None:
        """That there is nothing better is about to be refuted, which may take long."""
        self._doing = "; having it refuted that any is better"
        if is_long:
            self._doing += ", which takes minutes; with CaDiCaL from 1.7 on, or drat-trim or CryptoMiniSat on the path, it is quicker"
            self._write(self._name + self._doing.replace(";", ":", 1) + "\n")

    def knows(self, found: Found, seconds: float) -> None:
        """One of the bounds has changed."""
        self._known = found
        self._write(self.line(seconds) if self._in_place else self.line(seconds) + "\n")

    def tick(self, seconds: float) -> None:
        """Time has passed."""
        if self._in_place:
            self._write(self.line(seconds))

    def clear(self) -> None:
        """Takes the line away that is drawn in place, before something else is written."""
        if self._in_place:
            self._write("")

    def line(self, seconds: float) -> str:
        """The line, as `pbcnf-minimize: 0.1 s: -4 <= objective <= 39; at most 17: 80 variables, 352 clauses`."""
        return "%s: %.1f s: %s%s" % (self._name, seconds, self._bounds(), self._doing)

    def _bounds(self) -> str:
        incumbent = self._known.incumbent
        if incumbent is None:
            return "no solution yet"
        if incumbent.value is None:
            return "a solution"
        lower = "" if self._known.lower is None else "%d <= " % self._known.lower
        return "%sobjective <= %d" % (lower, incumbent.value)

    def _width(self) -> int:
        """How much has room in one line of the terminal: what goes on to a second is not cleared."""
        try:
            return max(1, os.get_terminal_size(sys.stderr.fileno()).columns - 1)
        except (OSError, ValueError):
            return 79

    def _write(self, words: str) -> None:
        """That nobody is there to read it is no fault."""
        if self._error is None:
            return
        try:
            self._error.write(_ANEW + words[:self._width()] if self._in_place else words)
            self._error.flush()
        except (OSError, ValueError):
            self._error = None
