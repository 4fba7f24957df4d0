"""Finds the proved program, and runs its commands."""

from __future__ import annotations

import os
import shutil
import subprocess
import sys
from typing import Iterator, List, Mapping, NamedTuple, Optional, Sequence

from pbcnf.tools.children import within
from pbcnf.tools.output import tell
from pbcnf.tools.statuses import Status, Stop
from pbcnf.tools.values import Values
from pbcnf.tools.watch import Watch
from pbcnf.tools.workspace import Workspace

# The program's status for a syntax error.
_SYNTAX = 1
# Where the launcher writes down which program it has tested, in its first line.
_TESTED = "crates/pbcnf/out/tested"


def find(environment: Mapping[str, str]) -> str:
    """The program: the one that PBCNF names, the one beside this command, that of the repository, or the one on the path."""
    places = [environment.get("PBCNF"), *_places(), shutil.which("pbcnf")]
    for place in places:
        if place:
            return place
    raise Stop(Status.MISSING, "pbcnf is not on the path")


def _places() -> Iterator[str]:
    """The programs that lie beside this command, and above it in a repository."""
    top = os.path.abspath(os.path.join(os.path.dirname(os.path.realpath(__file__)), *[os.pardir] * 4))
    places = [os.path.join(os.path.dirname(os.path.abspath(sys.argv[0])), "pbcnf")]
    if os.path.isdir(os.path.join(top, "crates")):
        places.append(os.path.join(top, "pbcnf"))
    return (place for place in places if os.path.isfile(place) and os.access(place, os.X_OK))


def bound_option(value: int) -> str:
    """The option for the statement that the objective is at most this."""
    return "--at-most-minus=%d" % -value if value < 0 else "--at-most=%d" % value


class Summary(NamedTuple):
    """What `encode` says of the CNF."""

    variables: int
    clauses: int
    weighted: int = 0
    """How many weighted sums there are."""
    adders: int = 0
    """How many of them are encoded by adders."""


class Solution(NamedTuple):
    """A solution that `decode` has tested against every statement."""

    value: Optional[int]
    """That of the objective, if there is one."""
    values: str
    """The `v` line."""
    model: bytes = b""
    """The solver's text that gave it."""


class Refutation(NamedTuple):
    """The files of a CNF, its derivation, and a refutation of it."""

    cnf: str
    proof: str
    lrat: str


class Program:
    """The proved program over one problem, from a file of this name. What it prints on standard error is the user's to read."""

    def __init__(self, path: str, watch: Watch, workspace: Workspace, problem: bytes, name: str) -> None:
        self._path = path
        self._watch = watch
        self._workspace = workspace
        self.text = problem
        self._name = name
        self.problem = workspace.write("opb", problem)
        """The path of the text."""

    def encode(self, options: Sequence[str], cnf: str, proof: Optional[str] = None) -> Summary:
        """Writes the CNF, and a derivation where a path for one is given."""
        files = [self.problem, cnf] + ([proof] if proof else [])
        return _summary(self._ask("encode", files, options))

    def encode_within(self, size: int, options: Sequence[str], cnf: str) -> Optional[Summary]:
        """Writes the CNF, if it is not longer than so many bytes; else what is there of it is cut off."""
        words = within(size, [self._path, "encode", self.problem, cnf, *options])
        said = self._workspace.path("said")
        with open(said, "wb") as answer:
            if self._watch.run(words, stdout=answer, stderr=subprocess.DEVNULL) == 0:
                return _summary(_read(said))
        return None

    def decode(self, model: str, bound: Sequence[str] = ()) -> Solution:
        """The solution that a solver's text gives."""
        lines = self._ask("decode", [self.problem, model], bound).splitlines()
        value = next((int(line[2:]) for line in lines if line.startswith("o ")), None)
        with open(model, "rb") as file:
            return Solution(value, next(line for line in lines if line.startswith("v")), file.read())

    def weighted(self, options: Sequence[str], wcnf: str) -> Summary:
        """Writes the weighted CNF."""
        return _summary(self._ask("wcnf", [self.problem, wcnf], options))

    def values(self, options: Sequence[str]) -> Values:
        """The values that the objective's sum could have, whatever the statements are: its normal form, as `wcnf` writes it, is an
        offset and the weights of the soft clauses."""
        path = self._workspace.path("wcnf")
        self.weighted(options, path)
        with open(path, "rb") as file:
            least = int(file.readline().split()[2])
            weights = [int(line.split(b" ", 1)[0]) for line in file if line[:1].isdigit()]
        os.unlink(path)
        return Values(least, weights)

    def refute(self, refutation: Refutation, bound: Sequence[str]) -> None:
        """Comes back where the program says `refuted`."""
        said = self._ask("refute", [self.problem, *refutation], bound)
        if said != "refuted\n":
            raise Stop(Status.NO_ANSWER, "refute has not said `refuted`")

    def optimum(self, best: Solution, refutation: Refutation) -> None:
        """Comes back where the program, which tests the solution anew, says that it is an optimum."""
        model = self._workspace.write("best.model", best.model)
        said = self._ask("optimum", [self.problem, model, *refutation], [])
        if said != "o %s\ns OPTIMUM FOUND\n%s\n" % (best.value, best.values):
            raise Stop(Status.NO_ANSWER, "optimum has not said that this solution is one")

    def _ask(self, command: str, files: List[str], options: Sequence[str]) -> str:
        """What a command says, where it ends with 0; else its status is that of all."""
        said, told = self._workspace.path("said"), self._workspace.path("told")
        with open(said, "wb") as answer, open(told, "wb") as error:
            try:
                status = self._watch.run([self._path, command, *files, *options], stdout=answer, stderr=error)
            except OSError as fault:
                raise Stop(Status.MISSING, "%s: %s" % (self._path, fault.strerror))
        if status != 0:
            self._watch.test()
        line = _read(told)
        tell(line)
        if status != 0:
            raise Stop(_as_status(status), self._advice(line) if status == _SYNTAX else "")
        self._skip_launcher()
        return _read(said)

    def _advice(self, line: str) -> str:
        """What is to be said besides the line about a text that was refused."""
        # It is needed only here, and takes as long to import as the program takes for a small problem.
        from pbcnf.tools import tidy
        return tidy.advice(self._name, line, self.text) or ""

    def _skip_launcher(self) -> None:
        """Calls the launcher's program itself from now on, once the launcher has run it: one test of it is enough for one problem."""
        top = os.path.dirname(self._path)
        try:
            with open(os.path.join(top, _TESTED), encoding="utf-8") as file:
                tested = os.path.join(top, file.readline().rstrip("\n"))
        except OSError:
            return
        if os.path.isfile(tested) and os.access(tested, os.X_OK):
            self._path = tested


def _summary(said: str) -> Summary:
    """The two lines that `encode` says: words and their numbers, in turn."""
    words = said.split()
    counts = {word: int(number) for word, number in zip(words[::2], words[1::2])}
    adders = counts["adder"]
    return Summary(counts["variables"], counts["clauses"], counts["diagram"] + counts["tree"] + adders, adders)


def _read(path: str) -> str:
    with open(path, encoding="utf-8", errors="surrogateescape") as file:
        return file.read()


def _as_status(status: Optional[int]) -> int:
    """A program's exit status as a shell has it, 128 and more for a signal."""
    return Status.NO_ANSWER if status is None else status if status >= 0 else 128 - status
