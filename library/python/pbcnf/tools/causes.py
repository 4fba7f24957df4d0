"""Why a word stands in an OPB text that no reader takes: the likeliest cause, from its spelling."""

from __future__ import annotations

import re
from typing import Optional, Tuple

_WHOLE: Tuple[Tuple[bytes, str], ...] = (
    (rb"\s*p\s+cnf\b", "a CNF file; `pbcnf probe` reads those"),
    (rb"\s*(p\s+wcnf\b|h\s+-?[0-9])", "a weighted CNF file, which is what `pbcnf wcnf` writes"),
    (rb"\s*<\?xml", "an XML file"),
    (rb"(?is)(\s*\\[^\n]*\n)*\s*(minimi[sz]e|maximi[sz]e|min|max)\b.*?\n\s*(subject to|such that|s\.?t\.?)\s", "an LP file; write it as OPB"),
    (rb"\s*NAME\b", "an MPS file; write it as OPB"),
    (rb"pseudo-Boolean ", "a derivation, which `encode` writes; the OPB file comes first"),
    (rb"[^\n]*[\x00-\x08\x0e-\x1f]", "bytes that no text has; packed by something else than gzip, bzip2 or xz?"),
)
_WORDS: Tuple[Tuple[bytes, str], ...] = (
    (rb"\Z", "the text ends inside a statement; it may be cut off"),
    (rb"soft\s*:|\[", "a soft constraint, as of WBO texts, which are not read"),
    (rb"(?i)max[a-z]*\s*:?|min[a-z]*\s*:", "a second objective, or one that does not begin a statement"),
    (rb"[0-9]+\.[0-9]*[1-9]", "a fraction; multiply the statement"),
    (rb"[0-9]*\.", "a point in a number"),
    (rb"[0-9]+[eE][-+]?[0-9]+", "an exponent; write all digits"),
    (rb"[0-9]+[,'_][0-9]", "a mark between digits; write them without"),
    (rb"!=|<>|\xe2\x89\xa0", "not equal, which no linear relation says"),
    (rb"[()]", "brackets, which no sum has; write the terms out"),
    (rb"/\*", "a comment of C; one begins with * and ends with the line"),
    (rb";", "a statement lacks its relation, or what comes with it"),
    (rb"[A-Za-z_][^ \t\r\n;=<>]*:", "a name of a statement in the midst of one; is there a `;` before it?"),
    (rb"[A-Za-z_~]", "a byte that no name has: those are letters of ASCII, digits and _ [ ] { } ^ -"),
    (rb"[\x80-\xff]", "a byte beyond ASCII, which no name has"),
    (rb">|<|=", "a second relation in one statement: is a ; missing before it? a range is two statements"),
)


class Unreadable(Exception):
    """What stands at a place cannot be rewritten, and the likeliest cause of it."""

    def __init__(self, at: int, cause: str) -> None:
        super().__init__(cause)
        self.at = at
        self.cause = cause


def unreadable(text: bytes, at: int) -> Unreadable:
    """Refuses the word at a place, or in whose midst that is."""
    if text[at:at + 1] not in (b"", b";", b"=", b"<", b">"):
        while at > 0 and text[at - 1:at] not in (b" ", b"\t", b"\r", b"\n", b";", b"=", b"<", b">", b"+", b"*"):
            at -= 1
    for pattern, words in _WORDS:
        if re.match(pattern, text[at:at + 300]):
            return Unreadable(at, words)
    return Unreadable(at, "a word that has no place in a statement")


def foreign(text: bytes) -> Optional[str]:
    """What a text looks like that is no OPB text."""
    return next((words for pattern, words in _WHOLE if re.match(pattern, text)), None)


def shown(piece: bytes, most: int = 60) -> str:
    """Bytes of a text for a person: on one line, and not too long."""
    words = piece.decode("utf-8", "backslashreplace").split()
    line = "".join(letter if letter.isprintable() else repr(letter)[1:-1] for letter in " ".join(words))
    return line if len(line) <= most else line[:most - 3] + "..."
