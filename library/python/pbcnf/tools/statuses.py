"""Exit statuses, and how a command ends before its time."""

from __future__ import annotations

from enum import IntEnum


class Status(IntEnum):
    """The exit statuses that the commands give by themselves; any other is the program's own, where it refused something."""

    DONE = 0
    USAGE = 2
    UNREAD = 4
    UNWRITTEN = 5
    NO_ANSWER = 9
    NO_SOLUTION = 20
    NO_OBJECTIVE = 65
    MISSING = 69
    NO_FOLDER = 73
    UNPROVED = 75
    """What was printed is the best so far, and not proved to be the best. The number is that of `sysexits.h` for what may come out
    otherwise when it is tried again, with more time; SAT solvers, the program and the shell have other uses for all lower ones."""


class Stop(Exception):
    """A command cannot go on. The words are for standard error, and may be none if the program has printed the cause."""

    def __init__(self, status: int, words: str = "") -> None:
        super().__init__(words)
        self.status = status
        self.words = words
