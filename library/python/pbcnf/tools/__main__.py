"""Runs a command by its name, as `python3 -m pbcnf.tools minimize OPB`."""

from __future__ import annotations

import importlib
import sys
from typing import List

from pbcnf.tools import COMMANDS
from pbcnf.tools.statuses import Status


def main(words: List[str]) -> int:
    """Runs the command that the first word names with the others, and gives its exit status."""
    if not words or words[0] not in COMMANDS:
        sys.stderr.write("usage: python3 -m pbcnf.tools %s ..\n" % "|".join(sorted(COMMANDS)))
        return Status.USAGE
    status: int = importlib.import_module("pbcnf.tools." + COMMANDS[words[0]]).main(words[1:])
    return status


if __name__ == "__main__":
    sys.exit(main(sys.argv[1:]))
