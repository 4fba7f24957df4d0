"""The answers of `pbcnf-solve` and `pbcnf-minimize` for programs: a problem is an OPB text, and an answer has the values by their names.

>>> from pbcnf.tools.answers import best
>>> best("min: +2 rain +1 sun ; +1 rain +1 sun >= 1 ;").values
{'rain': False, 'sun': True}
"""

from __future__ import annotations

import os
import subprocess
import sys
from typing import Dict, NamedTuple, Optional, Tuple

from pbcnf.tools.statuses import Status, Stop

_ANSWERED = (Status.DONE, Status.NO_SOLUTION, Status.NO_OBJECTIVE, Status.UNPROVED)


class Answer(NamedTuple):
    """A solution, which was tested."""

    values: Dict[str, bool]
    value: Optional[int]
    """That of the objective, if there is one."""
    is_best: bool
    """True if it was refuted that any is better."""


def solution(problem: str, *words: str) -> Optional[Answer]:
    """A solution, or None where `pbcnf-solve` says that there is none. The words are its options. Raises `Stop` where neither
    is known, and where the problem is refused."""
    return _ask("solve", problem, words)


def best(problem: str, *words: str) -> Optional[Answer]:
    """A best solution, or the best one that was found, as with `--seconds=10`; None where it is refuted that there is any. The words
    are options of `pbcnf-minimize`. Raises `Stop` as `solution` does."""
    return _ask("minimize", problem, ("-q", *words))


def _ask(command: str, problem: str, words: Tuple[str, ...]) -> Optional[Answer]:
    """Runs a command, which prints on standard error what is wrong."""
    package = os.path.dirname(os.path.dirname(os.path.dirname(os.path.abspath(__file__))))
    environment = dict(os.environ, PYTHONPATH=os.pathsep.join([package, *filter(None, [os.environ.get("PYTHONPATH")])]))
    run = [sys.executable, "-m", "pbcnf.tools", command, "-", *words]
    ended = subprocess.run(run, input=problem.encode(), stdout=subprocess.PIPE, env=environment, check=False)
    if ended.returncode not in _ANSWERED:
        raise Stop(ended.returncode, "pbcnf-%s ended with the status %d" % (command, ended.returncode))
    value, values = None, None
    lines = ended.stdout.decode().splitlines()
    for line in lines:
        if line.startswith("o "):
            value = int(line[2:])
        elif line.startswith("v"):
            values = {word.lstrip("-"): not word.startswith("-") for word in line.split()[1:]}
    if values is None and ended.returncode != Status.NO_SOLUTION:
        raise Stop(ended.returncode, "pbcnf-%s found no solution, and has not refuted that there is any" % command)
    return None if values is None else Answer(values, value, "s OPTIMUM FOUND" in lines)
