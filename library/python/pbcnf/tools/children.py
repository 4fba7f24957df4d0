"""Commands that run parts of this package as programs of their own, so that they can be ended and run beside others."""

from __future__ import annotations

import os
import sys
from typing import List

# A longer text is not searched by `learning`.
_LONG = 2000000
_RUN = "import importlib, os, sys; os.nice(int(sys.argv[2])); sys.path.insert(0, sys.argv[1]); sys.exit(importlib.import_module(sys.argv[3]).main(sys.argv[4:]))"


def command_of(module: str, words: List[str], nice: int = 0) -> List[str]:
    """The command that runs the main function of a module with these words, which gives way to others by so much."""
    package = os.path.dirname(os.path.dirname(os.path.dirname(os.path.abspath(__file__))))
    # What lies in the user's folder is not imported, nor is what else is installed, which takes time to look for.
    python = [sys.executable, "-I", "-S"] + (["-B"] if sys.dont_write_bytecode else [])
    return [*python, "-c", _RUN, package, str(nice), "pbcnf.tools." + module, *words]


def can_learn(text: bytes) -> bool:
    """Whether a text is not too long for the search over its constraints."""
    return len(text) <= _LONG


def learn(*words: str) -> List[str]:
    """The command that runs `learning`, the search over the constraints, with these words."""
    return command_of("learning", list(words))


def within(size: int, command: List[str]) -> List[str]:
    """The same command, whose files may not be longer than so many bytes: it is ended at that, or fails."""
    # The shell counts in blocks of 512 bytes. A core of what passes the limit would be of no use.
    return ["/bin/sh", "-c", 'ulimit -c 0; ulimit -f "$0" && exec "$@"', str(size // 512 + 1), *command]
