"""What goes to standard output and standard error."""

from __future__ import annotations

import os
import sys
from typing import Callable

from pbcnf.tools.statuses import Status, Stop


class Unheard(Stop):
    """Standard output takes nothing, so that no answer can be printed."""

    def __init__(self, error: OSError) -> None:
        super().__init__(Status.UNWRITTEN, "standard output: %s" % error.strerror)


def say(text: str) -> None:
    """Writes to standard output at once, without a buffer that could be lost at a signal or be written twice."""
    content = text.encode("utf-8", "surrogateescape")
    try:
        while content:
            content = content[os.write(1, content):]
    except OSError as error:
        raise Unheard(error)


def test_output() -> None:
    """Refuses a closed standard output: the number of its stream would be given to the next file."""
    try:
        os.fstat(1)
    except OSError as error:
        raise Unheard(error)


def tell(text: str) -> None:
    """Writes to standard error. That nobody is there to read it is no fault."""
    try:
        sys.stderr.write(text)
        sys.stderr.flush()
    except (AttributeError, OSError, ValueError):
        pass


def complain(name: str, words: str) -> None:
    """Writes a command's line to standard error."""
    tell("%s: %s\n" % (name, words))


def status_of(name: str, run: Callable[[], int]) -> int:
    """Runs what a command is for, and gives its exit status; if that cannot go on, the command of this name says why."""
    try:
        return run()
    except Stop as stop:
        if stop.words:
            complain(name, stop.words)
        return stop.status
    except KeyboardInterrupt:
        return 130
