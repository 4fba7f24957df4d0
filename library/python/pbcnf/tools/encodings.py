"""Which encoding a problem gets: the one that the options name, and for the rest what solvers were seen to be quicker with.

- Weighted sums: a tree, where it has fewer variables than the diagram, and is not too large. With it a bound on a long objective of
  few different weights is met and refuted in a half to a tenth of the time, though it has many more clauses. Where weights are
  large and different it has more of both, a thousand times as many.
- A diagram may be large before adders are taken, over which solvers take longer by far.
- Equalities as one, where each says that just one literal is true: the hardest schedules and timetables in a fifth to a half of the
  time. With weighted equalities it was the other way round.
"""

from __future__ import annotations

import os
import re
from typing import List, Sequence, Tuple

from pbcnf.tools.program import Program, Summary

# The fresh variables of a constraint, past which it goes to adders.
_BUDGET = "--budget=300000"
# So long may a CNF with trees be, as a multiple of that with diagrams and in bytes.
_WORTH = 32
_MOST = 30000000
# After so many trees that were too large none is tried.
_PATIENCE = 2
# A longer text is not looked through for equalities.
_LONG = 4000000
_COMMENT = re.compile(rb"\*[^\n]*")
_EQUALITY = re.compile(rb"([^<>=]*)=[ \t\r\n]*([^ \t\r\n]*)[ \t\r\n]*\Z")
_NUMBER = re.compile(rb"(?<![^ \t\r\n])[+-]?[0-9]+(?![^ \t\r\n])")


class Encodings:
    """Encodes a problem with bounds on its objective."""

    def __init__(self, program: Program, options: Sequence[str], chooses: bool = False) -> None:
        self._program = program
        self.options = list(options)
        """Those without a bound."""
        named = {option.partition("=")[0] for option in options}
        self._patience = _PATIENCE if chooses and "--general" not in named else 0
        if chooses and "--budget" not in named:
            self.options.append(_BUDGET)
        if chooses and "--equal" not in named and has_choices_alone(program.text):
            self.options.append("--equal=joint")

    def encode(self, bound: Sequence[str], cnf: str) -> Tuple[Summary, List[str]]:
        """Writes the CNF, and gives the options with which it is written once more, for its derivation."""
        options = [*self.options, *bound]
        size = self._program.encode(options, cnf)
        if self._patience == 0 or size.weighted == 0:
            return size, options
        trees, beside = [*options, "--general=tree"], cnf + ".tree"
        other = self._program.encode_within(min(_WORTH * os.path.getsize(cnf), _MOST), trees, beside)
        if other is not None and (other.adders, other.variables) < (size.adders, size.variables):
            os.replace(beside, cnf)
            return other, trees
        self._patience -= other is None
        if os.path.exists(beside):
            os.unlink(beside)
        return size, options


def has_choices_alone(text: bytes) -> bool:
    """True if there are equalities, and each says that just one of some literals is true."""
    if len(text) > _LONG:
        return False
    found = [_EQUALITY.match(statement) for statement in _COMMENT.sub(b"", text).split(b";")]
    sums = [(match.group(1), match.group(2)) for match in found if match]
    return bool(sums) and all(right.lstrip(b"+") == b"1" and all(number.lstrip(b"+") == b"1" for number in _NUMBER.findall(left)) for left, right in sums)
