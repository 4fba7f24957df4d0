"""Prints the lines of VeriPB's proof format, version 2.0, and counts the ids that its constraints get.

No line but `pol`, `rup` and `red` takes an id there, and each of those takes one: a `red` without a subproof too.
"""

from __future__ import annotations

from typing import IO, Iterable, List, Optional, Tuple

from .veripb_texts import Names

Terms = List[Tuple[int, int]]


class Proof:
    """A proof that is being printed. A method that derives a constraint gives the constraint's id."""

    def __init__(self, file: IO[str], names: Names, loaded: int, hinted: bool) -> None:
        self._file = file
        self._names = names
        self._loaded = loaded
        self._hinted = hinted
        self._last = loaded
        self._line("pseudo-Boolean proof version 2.0")
        self._line(f"f {loaded}")

    def pol(self, words: Iterable[str]) -> int:
        self._line("pol " + " ".join(words))
        return self._derived()

    def rup(self, terms: Terms, right: int, hints: List[int]) -> int:
        """By unit propagation over all constraints. Hints are printed where they are asked for: `~` is the negated constraint, which
        is propagated first."""
        shown = " ".join([""] + ["~"] + [str(id) for id in hints]) if self._hinted and hints else ""
        self._line(f"rup {self._names.constraint(terms, right)}{shown}")
        return self._derived()

    def clause(self, literals: List[int], hints: List[int]) -> int:
        """A clause, each literal of which occurs once."""
        return self.rup([(1, signed) for signed in dict.fromkeys(literals)], 1, hints)

    def red(self, terms: Terms, right: int, witness: Terms) -> int:
        sets = "".join(f" {self._names.variable(variable)} -> {value}" for variable, value in witness)
        self._line(f"red {self._names.constraint(terms, right)}{sets}")
        return self._derived()

    def delete(self, ids: List[int]) -> None:
        """Constraints that were loaded stay: VeriPB has them in its core, and may ask for a reason why they can go."""
        derived = [str(id) for id in ids if id > self._loaded]
        if derived:
            self._line("del id " + " ".join(derived))

    def conclude(self, contradiction: Optional[int]) -> None:
        self._line("output NONE")
        self._line("conclusion NONE" if contradiction is None else f"conclusion UNSAT : {contradiction}")
        self._line("end pseudo-Boolean proof")

    def literal(self, signed: int) -> str:
        return self._names.literal(signed)

    def variable(self, number: int) -> str:
        return self._names.variable(number)

    def _line(self, text: str) -> None:
        self._file.write(text + "\n")

    def _derived(self) -> int:
        self._last += 1
        return self._last
