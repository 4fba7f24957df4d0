"""Makes an LRAT text, which `refute` takes, of why solvers found no model: it is one, or hints are found for it, or it has hints that
are put in order. Where that takes long several are made beside one another, and the first is taken."""

from __future__ import annotations

import os
import shutil
from typing import Callable, Dict, List, Sequence, Tuple

from pbcnf.tools.children import command_of
from pbcnf.tools.solvers import Attempt, Reasons, Verdict
from pbcnf.tools.statuses import Status, Stop
from pbcnf.tools.watch import Running, Watch
from pbcnf.tools.workspace import Workspace

# From so many bytes on drat-trim is faster, where it is there: it takes a fifth of a second to start.
_LARGE = 50000
# From so many on it pays to start other programs beside one another, and to say that it takes long.
_LONG = 500000
_VERY_LARGE = 2000000
_READY = (Reasons.LRAT, Reasons.DERIVATION)


def takes_long(attempts: Sequence[Attempt]) -> bool:
    """True if it takes minutes to find hints for the reasons of a solver that has found no model, where nobody else says why."""
    return len(attempts) == 1 and is_long(attempts[0]) and _size(attempts[0]) > _VERY_LARGE


def is_long(attempt: Attempt) -> bool:
    """True if its reasons are so long that it pays to start other programs beside one another."""
    return attempt.solver.reasons is Reasons.DRAT and _size(attempt) > _LONG and not shutil.which("drat-trim")


def make_lrat(attempts: Sequence[Attempt], watch: Watch, workspace: Workspace) -> Tuple[Attempt, str]:
    """One of these attempts, and the path of an LRAT text for its CNF. One has found no model, and others may still run."""
    first = next(attempt for attempt in attempts if attempt.run.running.status is not None)
    size = _size(first)
    if first.solver.reasons in _READY:
        return first, _ready(first, workspace)
    lrat = workspace.path("lrat")
    others = [attempt for attempt in attempts if attempt is not first]
    if _trim(first, lrat, watch, workspace):
        return first, lrat
    if size > _LONG and others:
        return _Race([first, *others], watch, workspace).run()
    try:
        _write(first, lrat, watch.test)
        return first, lrat
    except Stop:
        if not others:
            raise
    return _Race(others, watch, workspace).run()


def _ready(attempt: Attempt, workspace: Workspace) -> str:
    """The path of the LRAT text that is there: after a derivation of the empty clause it has no line."""
    return attempt.files.reasons if attempt.solver.reasons is Reasons.LRAT else workspace.write("lrat", b"")


def _size(attempt: Attempt) -> int:
    """The bytes of its reasons. There may be none where a clause of the CNF is empty."""
    with open(attempt.files.reasons, "ab") as file:
        return file.tell()


def _trim(attempt: Attempt, lrat: str, watch: Watch, workspace: Workspace) -> bool:
    """Has drat-trim make the text, where it is on the path and that pays."""
    trim = shutil.which("drat-trim") if attempt.solver.reasons is Reasons.DRAT and _size(attempt) > _LARGE else None
    if trim is None:
        return False
    with open(workspace.path("trim"), "wb") as said:
        return watch.run([trim, attempt.files.cnf, attempt.files.reasons, "-L", lrat], stdout=said, stderr=said) == 0


def _write(attempt: Attempt, lrat: str, pause: Callable[[], None]) -> None:
    # It is needed only here, and by few problems.
    from pbcnf.tools.hints import lrat_lines
    try:
        with open(lrat, "w", encoding="ascii") as file:
            file.writelines(lrat_lines(attempt.files.cnf, attempt.files.reasons, pause))
    except OSError as error:
        raise Stop(Status.NO_FOLDER, "%s: %s" % (os.path.basename(lrat), error.strerror))
    except Stop as stop:
        # The solver's text is at fault, and no file of the user's.
        raise _refused(stop.words)


def _refused(words: str) -> Stop:
    return Stop(Status.NO_ANSWER, "the solver's reasons: " + words)


class _Race:
    """Makes texts beside one another, of the reasons of those who have found no model and of those who still look for one."""

    def __init__(self, attempts: Sequence[Attempt], watch: Watch, workspace: Workspace) -> None:
        self._watch = watch
        self._workspace = workspace
        self._looking: List[Attempt] = []
        self._making: Dict[Running, Tuple[Attempt, str]] = {}
        for attempt in attempts:
            self._looking.append(attempt)
            if attempt.run.running.status is not None:
                self._make(attempt)

    def run(self) -> Tuple[Attempt, str]:
        """The first that is made."""
        while self._making or self._looking:
            heard = self._watch.wait([*self._making, *(attempt.run.running for attempt in self._looking)])
            if heard in self._making:
                made = self._making.pop(heard)
                if heard.status == 0:
                    return self._end(*made)
                continue
            attempt = next(attempt for attempt in self._looking if attempt.run.running is heard)
            if attempt.solver.reasons in _READY and attempt.run.verdict() is Verdict.NO_MODEL:
                return self._end(attempt, _ready(attempt, self._workspace))
            self._make(attempt)
        with open(self._workspace.path("hints.told"), "a+", encoding="utf-8", errors="surrogateescape") as file:
            file.seek(0)
            raise _refused(file.readline().rstrip("\n").partition(": ")[2])

    def _make(self, attempt: Attempt) -> None:
        """Begins to make the text of one that has ended, if it has found no model."""
        self._looking.remove(attempt)
        if attempt.run.verdict() is Verdict.NO_MODEL:
            lrat = self._workspace.path("lrat.%s" % attempt.solver.name)
            # Where hints have to be looked for it takes long, and others may be sooner.
            command = command_of("hints", [attempt.files.cnf, attempt.files.reasons], 10 if attempt.solver.reasons is Reasons.DRAT else 0)
            with open(lrat, "wb") as made, open(self._workspace.path("hints.told"), "wb") as told:
                run = self._watch.start(command, made, told)
            self._making[run] = attempt, lrat

    def _end(self, attempt: Attempt, lrat: str) -> Tuple[Attempt, str]:
        for running in [*self._making, *(attempt.run.running for attempt in self._looking)]:
            self._watch.end(running)
        return attempt, lrat
