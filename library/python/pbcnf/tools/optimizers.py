"""A solver that looks for better and better solutions by itself: clasp over the weighted CNF, where it is on the path and can take the
weights, else the search over the constraints themselves.

It keeps what it has learned from one solution to the next, which a new run for each bound does not. What it prints is tested as any
other solution. That it finds nothing better is no proof, but shows what to have refuted next.
"""

from __future__ import annotations

import shutil
import subprocess
from typing import List, Optional, Sequence

from pbcnf.tools.children import can_learn, learn
from pbcnf.tools.program import Program
from pbcnf.tools.watch import Running, Watch
from pbcnf.tools.workspace import Workspace

_NAME = "clasp"
# Weights that are greater in all are beyond its numbers.
_MOST = 2 ** 31 - 1


class Descent:
    """An optimizer at work."""

    def __init__(self, running: Running) -> None:
        self.running = running
        self.has_ended = False
        """True if it says that nothing is better."""
        self._lines = b""

    @property
    def runnings(self) -> List[Running]:
        """The program that is heard."""
        return [self.running]

    def model(self) -> Optional[bytes]:
        """The last model that it has said since, as a solver's text."""
        said, _, rest = (self._lines + self.running.take()).rpartition(b"\n")
        self._lines = rest
        model, values = None, b""
        for line in said.split(b"\n"):
            if line.startswith(b"v "):
                values += line + b"\n"
            elif line.startswith(b"o "):
                model, values = values, b""
            self.has_ended = self.has_ended or line == b"s OPTIMUM FOUND"
        # A model goes on after what was said until now.
        self._lines = values + self._lines
        return None if model is None else b"s SATISFIABLE\n" + model


def start(program: Program, bound: int, options: Sequence[str], watch: Watch, workspace: Workspace) -> Optional[Descent]:
    """Starts the optimizer that can take the problem, if there is one."""
    clasp = shutil.which(_NAME)
    if clasp is not None:
        wcnf, older = workspace.path("optimizer.wcnf"), workspace.path("optimizer.older")
        variables = program.weighted(options, wcnf).variables
        if _write_older(wcnf, older, variables):
            return Descent(watch.start([clasp, older], stderr=subprocess.DEVNULL, is_heard=True))
    if not can_learn(program.text):
        return None
    return Descent(watch.start(learn(program.problem, str(bound)), stderr=subprocess.DEVNULL, is_heard=True))


def _write_older(wcnf: str, older: str, variables: int) -> bool:
    """Writes a weighted CNF in the older format, with a first line and a weight for hard clauses; False where it is too great."""
    with open(wcnf, "rb") as file:
        next(file)
        weights = [0 if line.startswith(b"h") else int(line.split(b" ", 1)[0]) for line in file]
    top = sum(weights) + 1
    if top > _MOST:
        return False
    with open(wcnf, "rb") as file, open(older, "wb") as made:
        next(file)
        made.write(b"p wcnf %d %d %d\n" % (variables, len(weights), top))
        for line in file:
            made.write(b"%d%s" % (top, line[1:]) if line.startswith(b"h") else line)
    return True
