"""Which SAT solver is run, and how: with limits and a refutation where it has them."""

from __future__ import annotations

import functools
import os
import shlex
import shutil
import subprocess
from enum import Enum
from typing import Dict, List, Mapping, NamedTuple, Optional, Tuple, Union

from pbcnf.tools.children import learn, within
from pbcnf.tools.statuses import Status, Stop
from pbcnf.tools.watch import Running, Watch

KNOWN = ("cadical", "kissat", "cryptominisat5", "clasp", "picosat", "glucose", "minisat")
# The words that each known solver is given so that it prints `s` and `v` lines and little else.
_WORDS: Dict[str, Tuple[str, ...]] = {"cadical": ("-q",), "kissat": ("-q",), "cryptominisat5": ("--verb", "0"), "glucose": ("-model",)}
# How those that can be limited are given the most conflicts of a run.
_CONFLICTS = {"cadical": ("-c", "%d"), "kissat": ("--conflicts=%d",), "cryptominisat5": ("--maxconfl", "%d")}
# What MiniSat's file of the result has for the lines of the competitions.
_MINISAT = {b"SAT": b"s SATISFIABLE", b"UNSAT": b"s UNSATISFIABLE", b"INDET": b"s UNKNOWN"}
_MINISAT_FILE = ".minisat"
PROVER = "cadical"
# It writes reasons that come with hints, and otherwise finds them later than CaDiCaL.
RIVAL = "cryptominisat5"
# So many bytes of reasons may be written beside the prover's.
_ROOM = 1 << 30


class Verdict(Enum):
    """What a solver says of a CNF."""

    MODEL = "SATISFIABLE"
    NO_MODEL = "UNSATISFIABLE"
    UNKNOWN = "UNKNOWN"


class Reasons(Enum):
    """The format in which a solver writes why a CNF has no model, by the words that ask for it.

    Those for CryptoMiniSat leave out the techniques that write clauses without hints, or with too few. A derivation is not of the CNF,
    but of the problem itself.
    """

    LRAT = ("--lrat", "--no-binary")
    DRAT = ("--no-binary",)
    DERIVATION = ()
    FRAT = ("--distill=0", "--distillbin=0", "--decbased=0", "--bva=0", "--intree=0", "--recur=0", "--schedsimp=0")


class Effort(NamedTuple):
    """How far a run of a solver may go, if not to its end: conflicts for those that count them, seconds for the others."""

    conflicts: int
    seconds: float

    def times(self, factor: int) -> Effort:
        """So many times as far."""
        return Effort(self.conflicts * factor, self.seconds * factor)


class Files(NamedTuple):
    """The files of a run: the CNF, what `decode` takes, and why there is no model, if that is asked for."""

    cnf: str
    model: str
    reasons: str = ""


class Solver:
    """A SAT solver, by the words of its command, and how it writes why there is no model, if it does."""

    def __init__(self, command: List[str], watch: Watch, reasons: Optional[Reasons] = None) -> None:
        self.name = os.path.basename(command[0])
        self._watch = watch
        self._kind = _kind(command)
        self._command = command + [word for word in _WORDS.get(self._kind, ()) if word not in command]
        self.reasons = _reasons_of(command[0]) if self._kind == PROVER else reasons

    def run(self, files: Files, seconds: Optional[float] = None) -> Run:
        """Runs it to its end, or for so many seconds."""
        run = self.start(files, None, seconds)
        self._watch.wait([run.running])
        return run

    def start(self, files: Files, effort: Optional[Effort] = None, seconds: Optional[float] = None) -> Run:
        """Starts it over a CNF."""
        command = list(self._command)
        if effort is not None:
            command += [word.replace("%d", str(effort.conflicts)) for word in _CONFLICTS.get(self._kind, ())]
            if self._kind not in _CONFLICTS:
                seconds = effort.seconds
        if files.reasons and self.reasons is not None:
            command += [*self.reasons.value, files.cnf, files.reasons]
        else:
            command.append(files.cnf)
        is_minisat = self._kind == "minisat"
        if is_minisat:
            # It writes its values to a second file, in words of its own.
            command.append(files.model + _MINISAT_FILE)
        is_rival = bool(files.reasons) and self.reasons is Reasons.FRAT
        if is_rival:
            command = within(_ROOM, command)
        # What these say there, as they are ended or of a variable that occurs nowhere, is of no use.
        told = subprocess.DEVNULL if is_rival or self._kind in ("clasp", "minisat") else None
        with open(files.model, "wb") as said:
            try:
                running = self._watch.start(command, subprocess.DEVNULL if is_minisat else said.fileno(), told, seconds)
            except OSError as error:
                raise Stop(Status.MISSING, "%s: %s" % (command[0], error.strerror))
        return Run(self, running, files.model)


class Run:
    """A run of a solver. What it came to is known once it has ended."""

    def __init__(self, solver: Union[Solver, Learner], running: Running, model: str) -> None:
        self.running = running
        self._solver = solver
        self._model = model

    def verdict(self) -> Verdict:
        """What it says, if it was left to end."""
        return self._said() or Verdict.UNKNOWN

    @property
    def gave_up(self) -> bool:
        """True if it came to its limit, and did not fail."""
        return self._said() is Verdict.UNKNOWN or self.running.status in (None, 0)

    def ended(self) -> str:
        """How it ended, for a person."""
        status = self.running.status
        return "%s %s" % (self._solver.name, "was ended" if status is None else "ended with status %d" % status)

    def _said(self) -> Optional[Verdict]:
        if self.running.status is None:
            return None
        if os.path.exists(self._model + _MINISAT_FILE):
            _translate_minisat(self._model)
        return _verdict(self._model)


class Learner:
    """The search over the constraints themselves, as a solver. The reasons that it writes are a derivation, of the empty clause as the CNF."""

    name = "pbcnf.tools.learning"
    reasons = Reasons.DERIVATION

    def __init__(self, watch: Watch) -> None:
        self._watch = watch

    def start(self, problem: str, bound: int, files: Files, seconds: Optional[float] = None) -> Run:
        """Starts it over a problem with a bound on its objective, for so many seconds."""
        with open(files.model, "wb") as said:
            command = within(_ROOM, learn(problem, str(bound), files.cnf, files.reasons))
            return Run(self, self._watch.start(command, said.fileno(), subprocess.DEVNULL, seconds), files.model)


class Attempt(NamedTuple):
    """A solver's run over a CNF."""

    solver: Union[Solver, Learner]
    files: Files
    run: Run


class Team:
    """Who is run: the solver, and who says why there is no model, the solver itself or another, if any does and that is asked for."""

    def __init__(self, solver: Solver, prover: Optional[Solver], watch: Watch, is_proved: bool = True) -> None:
        self.solver = solver
        self.prover = prover
        self.is_proved = is_proved
        self._watch = watch

    @functools.cached_property
    def rival(self) -> Optional[Solver]:
        """CryptoMiniSat from the path, where the prover's reasons have no hints: it may say why beside the prover. It is looked for
        when it is needed, which for most problems it is not."""
        return _find_rival(self._watch) if self.prover is not None and self.prover.reasons is Reasons.DRAT else None


def find(named: Optional[str], environment: Mapping[str, str], watch: Watch) -> Solver:
    """The solver of this command, or of SOLVER, else the first of those known that is on the path."""
    wanted = named or environment.get("SOLVER")
    try:
        command = shlex.split(wanted) if wanted else [name for name in KNOWN if shutil.which(name)][:1]
    except ValueError as error:
        raise Stop(Status.USAGE, "the solver %s: %s" % (wanted, error))
    if not command or not shutil.which(command[0]):
        raise Stop(Status.MISSING, "no SAT solver%s is on the path; install one of %s" % (" " + command[0] if command else "", " ".join(KNOWN)))
    return Solver(command, watch)


def find_team(named: Optional[str], environment: Mapping[str, str], watch: Watch, is_proved: bool = True) -> Team:
    """The solver as `find` finds it, and if it is to be proved that there is no model, those who say why."""
    solver = find(named, environment, watch)
    if not is_proved:
        solver.reasons = None
    return Team(solver, (solver if solver.reasons else find_prover(named, environment, watch)) if is_proved else None, watch, is_proved)


def find_prover(named: Optional[str], environment: Mapping[str, str], watch: Watch) -> Optional[Solver]:
    """A solver that says why there is no model: CaDiCaL by its name here, or from the path, else CryptoMiniSat from the path."""
    for word in (named, environment.get("SOLVER"), PROVER):
        command = word.split() if word else []
        if command and _kind(command) == PROVER and shutil.which(command[0]):
            return Solver(command, watch)
    return _find_rival(watch)


def prover_named(named: str, watch: Watch) -> Optional[Solver]:
    """The solver of this name or path, if it is there and gives reasons."""
    solver = _find_rival(watch, named) if _kind([named]) == RIVAL else Solver([named], watch) if shutil.which(named) else None
    return solver if solver is not None and solver.reasons is not None else None


def _find_rival(watch: Watch, command: str = RIVAL) -> Optional[Solver]:
    return Solver([command], watch, Reasons.FRAT) if shutil.which(command) and b"[frat-trim-file]" in _help_of(command) else None


def _kind(command: List[str]) -> str:
    """Which of the known solvers it is, by its name: `cadical-1.9.5` is CaDiCaL, too."""
    return os.path.basename(command[0]).split("-", 1)[0]


def _reasons_of(cadical: str) -> Reasons:
    """How this CaDiCaL writes them: in LRAT from 1.7 on, as its help says."""
    return Reasons.LRAT if b"--lrat" in _help_of(cadical) else Reasons.DRAT


def _help_of(command: str) -> bytes:
    """What a solver says of itself."""
    try:
        return subprocess.run([command, "--help"], stdin=subprocess.DEVNULL, stdout=subprocess.PIPE, stderr=subprocess.DEVNULL, check=False).stdout
    except OSError:
        return b""


def _translate_minisat(model: str) -> None:
    """Makes of MiniSat's result what the others print."""
    with open(model + _MINISAT_FILE, "rb") as file:
        first, values = file.readline().strip(), file.readline()
    os.unlink(model + _MINISAT_FILE)
    with open(model, "wb") as made:
        made.write((_MINISAT[first] + b"\n" if first in _MINISAT else b"") + (b"v " + values if values else b""))


def _verdict(model: str) -> Optional[Verdict]:
    """What the `s` line of a text says, if there is one; clasp prints it last, after its `v` lines."""
    said = {b"s " + verdict.value.encode(): verdict for verdict in Verdict}
    with open(model, "rb") as file:
        for line in file:
            if line.startswith(b"s "):
                return said.get(line.strip(), Verdict.UNKNOWN)
    return None
