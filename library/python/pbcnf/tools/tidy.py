"""`pbcnf-tidy`: an OPB text as people have it, rewritten so that the program reads it, each change said with its place.

What the program already reads is left as it is, byte for byte. `advice` is what another command adds to the program's refusal.
"""

from __future__ import annotations

import argparse
import bz2
import gzip
import lzma
import os
import re
import sys
import zlib
from typing import Callable, List, Optional, Tuple

import pbcnf
from pbcnf.tools import opb_text, sources
from pbcnf.tools.causes import Unreadable, shown
from pbcnf.tools.mending import Change, mend
from pbcnf.tools.output import complain, say, status_of, test_output
from pbcnf.tools.statuses import Status, Stop
from pbcnf.tools.workspace import Workspace, put_whole

_NAME = "pbcnf-tidy"
_ABOUT = "Rewrites an OPB text of another spelling into one that pbcnf reads, and says each change on standard error."
_STATUSES = """exit status:
  0   the text was written, which may be as it was
  1   it cannot be rewritten; a line on standard error says where, and why
  2   a word has no place
  4   the file could not be read
  5   the text could not be written
  73  no temporary files could be made
"""
_REFUSED = 1
_PACKED: Tuple[Tuple[bytes, str, Callable[[bytes], bytes]], ...] = (
    (b"\x1f\x8b", "gzip", gzip.decompress), (b"BZh", "bzip2", bz2.decompress), (b"\xfd7zXZ", "xz", lzma.decompress))
_REFUSAL = re.compile(r"OPB ([0-9]+):([0-9]+): expected ")


def main(words: Optional[List[str]] = None) -> int:
    """Runs the command, and gives its exit status."""
    parser = argparse.ArgumentParser(
        prog=_NAME, description=_ABOUT, epilog=_STATUSES, allow_abbrev=False, formatter_class=argparse.RawDescriptionHelpFormatter)
    parser.add_argument("opb", metavar="OPB", help="the text, which may be packed (.gz, .bz2, .xz); - is standard input")
    parser.add_argument("--keep", metavar="FILE", help="write there, whole or not at all, and not to standard output")
    parser.add_argument("--version", action="version", version="pbcnf " + pbcnf.__version__)
    given = parser.parse_args(words)
    return status_of(_NAME, lambda: _run(given))


def _run(given: argparse.Namespace) -> int:
    if given.keep is None:
        test_output()
    elif given.opb != "-" and os.path.exists(given.keep) and os.path.exists(given.opb) and os.path.samefile(given.opb, given.keep):
        raise Stop(Status.UNWRITTEN, "%s: it is the file that is read" % given.keep)
    rewritten = read(given.opb, _NAME)
    if given.keep is None:
        say(rewritten.decode("utf-8", "surrogateescape"))
    else:
        _keep(rewritten, given.keep)
    return Status.DONE


def read(opb: str, name: str) -> bytes:
    """The text of a file, rewritten; the command of this name says each change."""
    text, unpacked = unpack(sources.read(opb), opb)
    for words in unpacked:
        complain(name, words)
    try:
        rewritten, changes = mend(text)
    except Unreadable as fault:
        raise Stop(_REFUSED, "OPB %d:%d: %s" % (*opb_text.place(text, fault.at), fault.cause)) from None
    for place, change in zip(opb_text.places(text, [change.at for change in changes]), changes):
        complain(name, "OPB %d:%d: %s" % (*place, _said(change)))
    return rewritten


def unpack(text: bytes, name: str) -> Tuple[bytes, List[str]]:
    """The text itself, where it was packed, or has two bytes a letter; and what is to be said of that."""
    said = ["OPB: packed, by its name: unpacked"] if name.endswith((".gz", ".bz2", ".xz")) else []
    for first, kind, opener in _PACKED:
        if text.startswith(first):
            try:
                text = opener(text)
            except (EOFError, OSError, ValueError, lzma.LZMAError, zlib.error) as error:
                raise Stop(Status.UNREAD, "%s: packed by %s, and damaged: %s" % (name, kind, error)) from None
            said.append("OPB: packed by %s: unpacked" % kind)
    if text.startswith((b"\xff\xfe", b"\xfe\xff")):
        text = text.decode("utf-16", "replace").encode("utf-8")
        said.append("OPB: two bytes a letter (UTF-16): one")
    return text, said


def _said(change: Change) -> str:
    """A change for a person: what stood there, what it became, and why."""
    before, after = shown(change.before), shown(change.after)
    if change.before == b"\xef\xbb\xbf":
        became = "left out"
    elif not before:
        became = "%s added" % after
    else:
        became = "%s became %s" % (before, after) if after else "%s left out" % before
    return "%s: %s" % (became, change.why)


def _keep(rewritten: bytes, target: str) -> None:
    """Puts the text into a file; a device or a pipe is written as it is."""
    if os.path.exists(target) and not os.path.isfile(target):
        try:
            with open(target, "wb") as file:
                file.write(rewritten)
        except OSError as error:
            raise Stop(Status.UNWRITTEN, "%s: %s" % (target, error.strerror)) from None
        return
    with Workspace() as workspace:
        put_whole(workspace.write("opb", rewritten), target)


def advice(opb: str, fault_line: str, text: Optional[bytes] = None) -> Optional[str]:
    """A second line after the program's refusal of an OPB text, `pbcnf: OPB 1:13: expected ..`: the file, the word that stands
    there, the likeliest cause, and what tidy would make of it; none where the line is none of these.

    `opb` is the file's name, and `text` what was read of it, where it cannot be read again.
    """
    refusal = _REFUSAL.search(fault_line)
    if not refusal:
        return None
    try:
        read, unpacked = unpack(sources.read(opb) if text is None else text, opb)
    except Stop as stop:
        return stop.words
    at = opb_text.offset(read, int(refusal.group(1)), int(refusal.group(2)))
    token = opb_text.token_at(read, at)
    if unpacked and (text is None or read != text):
        return "%s: %s; pbcnf-tidy does that" % (opb, unpacked[-1].partition(": ")[2])
    there = "'%s'" % shown(token.text, 30) if token else "the end of the text"
    return "%s: %s is there: %s" % (opb, there, _remedy(read, at))


def _remedy(text: bytes, at: int) -> str:
    """What tidy would do at a place where the program refuses a text."""
    try:
        changes = mend(text)[1]
    except Unreadable as fault:
        line, column = opb_text.place(text, fault.at)
        return fault.cause if fault.at == at else "at %d:%d %s" % (line, column, fault.cause)
    if not changes:
        return "tidy has nothing to change"
    before = [change for change in changes if change.at <= at < change.at + max(len(change.before), 1)]
    change = (before or [change for change in changes if change.at >= at] or changes)[0]
    others = len(changes) - 1
    more = "" if not others else ", and changes %d other place%s" % (others, "" if others == 1 else "s")
    return "%s; pbcnf-tidy %s%s" % (change.why, _deed(change), more)


def _deed(change: Change) -> str:
    """What tidy does at a change."""
    before, after = shown(change.before, 30), shown(change.after, 30)
    if not after:
        return "leaves it out"
    if not before:
        return "adds %s" % after
    return "moves it there" if before == after else "makes '%s' of '%s'" % (after, before)


if __name__ == "__main__":
    sys.exit(main())
