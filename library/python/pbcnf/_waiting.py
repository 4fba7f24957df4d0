"""Calls of the library in a thread of their own, so that the thread which waits can be interrupted."""

from __future__ import annotations

import _thread
import threading
from typing import Callable, Optional, Sequence


def status_of(call: Callable[..., int], given: Sequence[object], kept: object, may_be_long: bool) -> int:
    """The status of a call of the library.

    The main thread hands one that may be long to another thread and waits, since Python runs the handlers of signals in the main
    thread alone, and not before a call of C comes back. What a handler raises, as KeyboardInterrupt, ends the waiting: the call then
    runs to its end by itself, which keeps what it was passed, and what is `kept`, and nobody sees what it puts.
    """
    if may_be_long and threading.current_thread() is threading.main_thread():
        other = _Other(call, given, kept)
        if other.start():
            return other.status()
    return call(*given)


class _Other:
    """A call in another thread."""

    def __init__(self, call: Callable[..., int], given: Sequence[object], kept: object) -> None:
        self._call, self._given, self._kept = call, given, kept
        self._status = 0
        self._error: Optional[BaseException] = None
        self._ended = _thread.allocate_lock()
        self._ended.acquire()

    def start(self) -> bool:
        """Starts it. A program that ends does not wait for it. False if there is no room for a thread, or the interpreter ends."""
        try:
            _thread.start_new_thread(self._run, ())
        except RuntimeError:
            return False
        return True

    def _run(self) -> None:
        try:
            self._status = self._call(*self._given)
        except BaseException as error:
            self._error = error
        finally:
            self._ended.release()

    def status(self) -> int:
        """What it came back with, once it has ended."""
        self._ended.acquire()
        if self._error is not None:
            raise self._error
        return self._status
