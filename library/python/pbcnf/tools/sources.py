"""Reads the OPB text, packed or not, and says what looks like a text that was cut off."""

from __future__ import annotations

import bz2
import gzip
import lzma
import re
import sys
import zlib
from typing import IO, Callable, Dict, Iterator, cast

from pbcnf.tools.statuses import Status, Stop

_OPENERS: Dict[str, Callable[[str], IO[bytes]]] = {
    ".gz": lambda path: cast("IO[bytes]", gzip.open(path, "rb")),
    ".bz2": lambda path: cast("IO[bytes]", bz2.open(path, "rb")),
    ".xz": lambda path: cast("IO[bytes]", lzma.open(path, "rb")),
}


def read(path: str) -> bytes:
    """The text of a file, unpacked where its name ends in `.gz`, `.bz2` or `.xz`; `-` is standard input."""
    try:
        if path == "-":
            if sys.stdin is None:
                raise Stop(Status.UNREAD, "standard input is closed")
            return sys.stdin.buffer.read()
        for ending, opener in _OPENERS.items():
            if path.endswith(ending):
                with opener(path) as file:
                    return file.read()
        with open(path, "rb") as file:
            return file.read()
    except (EOFError, lzma.LZMAError, zlib.error) as error:
        raise Stop(Status.UNREAD, "%s: %s" % (path, error))
    except OSError as error:
        raise Stop(Status.UNREAD, "%s: %s" % (path, error.strerror or error))


def doubts(text: bytes) -> Iterator[str]:
    """What a person should know of an accepted text: that it has no statement, or fewer than its first line says."""
    bare = re.sub(rb"\*[^\n]*", b"", text)
    count = bare.count(b";") - (1 if bare.lstrip().startswith(b"min:") else 0)
    first = text[:text.find(b"\n") + 1] or text
    told = re.match(rb"\*.*#constraint=\s*([0-9]{1,18})", first)
    if told and int(told.group(1)) > count:
        yield "the first line says %d constraints, and the text has %d: was it cut off?" % (int(told.group(1)), count)
    elif count == 0:
        yield "the text has no statement"
