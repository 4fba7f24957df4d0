"""A folder for temporary files, which is gone at the end, and files that are written whole or not at all."""

from __future__ import annotations

import contextlib
import os
import shutil
import tempfile
from types import TracebackType
from typing import Iterator, Optional, Type

from pbcnf.tools.output import Unheard
from pbcnf.tools.statuses import Status, Stop
from pbcnf.tools.watch import Watch


# Where less is left, files are taken to have been cut off for want of room.
_ROOM = 16384


class Workspace:
    """A folder of its own below TMPDIR, from `with` on, named so that one which a killed process has left can be recognized."""

    def __init__(self) -> None:
        self.folder = ""

    def __enter__(self) -> Workspace:
        try:
            self.folder = tempfile.mkdtemp(prefix="pbcnf.")
        except OSError as error:
            raise Stop(Status.NO_FOLDER, "no folder for temporary files could be made: %s" % error.strerror)
        return self

    def __exit__(self, kind: Optional[Type[BaseException]], value: Optional[BaseException], trace: Optional[TracebackType]) -> None:
        shutil.rmtree(self.folder, ignore_errors=True)

    def path(self, name: str) -> str:
        """The path of a file in the folder."""
        return os.path.join(self.folder, name)

    def write(self, name: str, content: bytes) -> str:
        """Makes a file in the folder, and gives its path."""
        path = self.path(name)
        try:
            with open(path, "wb") as file:
                file.write(content)
        except OSError as error:
            raise Stop(Status.NO_FOLDER, "%s: %s" % (path, error.strerror))
        return path

    def blame(self, stop: Stop) -> Stop:
        """The same, but where the folder has no room left: that shows in many ways, and has one cause."""
        if isinstance(stop, Unheard) or shutil.disk_usage(self.folder).free >= _ROOM:
            return stop
        return Stop(Status.UNWRITTEN, "no room is left in %s for temporary files; TMPDIR may name another folder" % self.folder)


@contextlib.contextmanager
def workspace_of(watch: Watch) -> Iterator[Workspace]:
    """A workspace for the programs that a watch runs: they are ended before their files go, and what stops for want of room says so."""
    with watch, Workspace() as workspace:
        try:
            yield workspace
        except Stop as stop:
            raise workspace.blame(stop)
        finally:
            watch.end_all()


def put_whole(source: str, target: str) -> None:
    """Copies a file beside its place first, and then has it take that: who reads there finds the old file or the new one, whole."""
    beside = "%s.%d.new" % (target, os.getpid())
    try:
        shutil.copyfile(source, beside)
        os.replace(beside, target)
    except OSError as error:
        try:
            os.unlink(beside)
        except OSError:
            pass
        raise Stop(Status.UNWRITTEN, "%s: %s" % (target, error.strerror))
