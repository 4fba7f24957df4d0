"""Solutions that are better and better, by a solver that is a command, or an object in this process."""

from __future__ import annotations

import os
import subprocess
import tempfile
from typing import Any, Iterator, List, Mapping, Optional, Sequence, Union

import pbcnf
from pbcnf.conditions import Terms
from pbcnf.results import Solution


def command_search(words: Union[str, Sequence[str]], text: str, cost: Terms, chosen: Mapping[str, Any]) -> Iterator[Solution]:
    """Solutions by a command that reads a file. Each asks it for one that is cheaper than the one before."""
    best: Optional[int] = None
    with tempfile.TemporaryDirectory() as folder:
        while True:
            said = _said([words] if isinstance(words, str) else [*words], pbcnf.dimacs(text, at_most=best, **chosen), folder)
            if b"s UNSATISFIABLE" in said.splitlines():
                return
            found = pbcnf.decode(text, said, at_most=best)
            yield found
            if found.objective is None:
                return
            best = found.objective - 1


def _said(words: List[str], cnf: str, folder: str) -> bytes:
    place = os.path.join(folder, "problem.cnf")
    with open(place, "w", encoding="ascii") as file:
        file.write(cnf)
    return subprocess.run([*words, place], stdin=subprocess.DEVNULL, stdout=subprocess.PIPE, check=False).stdout


def object_search(solver: Any, text: str, cost: Terms, chosen: Mapping[str, Any]) -> Iterator[Solution]:
    """Solutions by a solver in this process. For each it gets a constraint more, that the next is cheaper."""
    encoding = pbcnf.encode(text, **chosen)
    while _takes(solver, encoding):
        model = _model(solver)
        if model is None:
            return
        found = pbcnf.decode(text, model)
        yield found
        if found.objective is None:
            return
        encoding = pbcnf.constraint(cost, "<=", found.objective - 1, first=encoding.next_free, **chosen)


def _takes(solver: Any, encoding: pbcnf.Encoding) -> bool:
    """Adds clauses, unless one is empty, which not every solver takes."""
    for clause in encoding:
        if not clause:
            return False
        solver.add_clause(clause)
    return True


def _model(solver: Any) -> Optional[List[int]]:
    """The true literals of a model, if there is one: by PySAT's `get_model`, or of the values that pycryptosat answers."""
    answer = solver.solve()
    if not isinstance(answer, tuple):
        return list(solver.get_model()) if answer else None
    found, values = answer
    return [var for var, value in enumerate(values) if value] if found else None
