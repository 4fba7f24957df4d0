"""Runs other programs, also some at once, and ends them at signals and at the limit of time.

A signal only leaves a mark here, and a byte in a pipe that wakes up who waits for a program. So it is never met in the middle of
what puts things in order, and a program that ends is seen at once, without asking again and again.
"""

from __future__ import annotations

import fcntl
import os
import select
import signal
import subprocess
import time
from types import FrameType, TracebackType
from typing import IO, Callable, Dict, List, Optional, Sequence, Type, Union

_ENDING = (signal.SIGHUP, signal.SIGINT, signal.SIGTERM)
# So long a program has to end by itself when it is asked to.
_GRACE = 0.5
# So often whoever draws a line in place may do it anew.
_TICK = 0.5
# As long as this a single wait may be.
_LONG = 3600.0

Stream = Union[int, IO[bytes], None]
Handler = Union[Callable[[int, Optional[FrameType]], object], int, signal.Handlers]


class Interrupted(Exception):
    """A signal came, or the time is over."""

    def __init__(self, number: Optional[int]) -> None:
        super().__init__("the time is over" if number is None else "the signal %s" % signal.Signals(number).name)
        self.signal = number


class Running:
    """A program that was started."""

    def __init__(self, child: subprocess.Popen[bytes], limit: Optional[float]) -> None:
        self.child = child
        self.limit = limit
        """When it is to be ended, if not before."""
        self.status: Optional[int] = None
        """Its exit status, negative for a signal; None as long as it runs, and where it was ended here."""
        self.output = child.stdout
        """What it says, if that is heard."""
        self._said = b""

    def listen(self) -> bool:
        """True if it has said more."""
        if self.output is None:
            return False
        try:
            piece = os.read(self.output.fileno(), 1 << 20)
        except BlockingIOError:
            return False
        if not piece:
            self.output.close()
            self.output = None
        self._said += piece
        return bool(piece)

    def take(self) -> bytes:
        """What it has said since this was asked for."""
        said, self._said = self._said, b""
        return said


class Watch:
    """Looks out for signals and for the end of the time, from `with` on, while other programs run."""

    def __init__(self, seconds: Optional[float] = None, tick: Optional[Callable[[float], None]] = None) -> None:
        self._began = time.monotonic()
        self._end = None if seconds is None else self._began + seconds
        self._tick = tick
        self._running: List[Running] = []
        self._came: Optional[int] = None
        self._before: Dict[int, Handler] = {}
        self._pipe = (-1, -1)
        self._wakeup = -1

    def __enter__(self) -> Watch:
        self._pipe = os.pipe()
        for end in self._pipe:
            os.set_blocking(end, False)
            fcntl.fcntl(end, fcntl.F_SETFD, fcntl.FD_CLOEXEC)
        self._wakeup = signal.set_wakeup_fd(self._pipe[1], warn_on_full_buffer=False)
        for number in (*_ENDING, signal.SIGCHLD):
            before = signal.getsignal(number)
            self._before[number] = signal.SIG_DFL if before is None else before
            # What the caller has us ignore, as nohup does, stays ignored.
            if number == signal.SIGCHLD or self._before[number] != signal.SIG_IGN:
                signal.signal(number, self._note)
        return self

    def __exit__(self, kind: Optional[Type[BaseException]], value: Optional[BaseException], trace: Optional[TracebackType]) -> None:
        self.end_all()
        for number, handler in self._before.items():
            signal.signal(number, handler)
        signal.set_wakeup_fd(self._wakeup)
        for end in self._pipe:
            os.close(end)

    def _note(self, number: int, frame: Optional[FrameType]) -> None:
        if number != signal.SIGCHLD and self._came is None:
            self._came = number

    @property
    def seconds(self) -> float:
        """The seconds since the beginning."""
        return time.monotonic() - self._began

    def test(self) -> None:
        """Raises `Interrupted` where a signal came, or the time is over."""
        if self._came is not None:
            raise Interrupted(self._came)
        if self._end is not None and time.monotonic() >= self._end:
            raise Interrupted(None)

    def run(self, command: Sequence[str], stdout: Stream = None, stderr: Stream = None, seconds: Optional[float] = None) -> Optional[int]:
        """Runs a program to its end, and gives its exit status; None where it took more than these seconds."""
        running = self.start(command, stdout, stderr, seconds)
        try:
            return self.wait([running]).status
        finally:
            self.end(running)

    def start(
            self, command: Sequence[str], stdout: Stream = None, stderr: Stream = None, seconds: Optional[float] = None, is_heard: bool = False) -> Running:
        """Starts a program, which may run for so many seconds. What it says may be heard here, and not go to a file.

        It and all that it starts are a session of their own: Ctrl-C reaches this process alone, which ends them all.
        """
        self.test()
        if is_heard:
            stdout = subprocess.PIPE
        child = subprocess.Popen(command, stdin=subprocess.DEVNULL, stdout=stdout, stderr=stderr, restore_signals=False, start_new_session=True)
        if child.stdout is not None:
            os.set_blocking(child.stdout.fileno(), False)
        running = Running(child, None if seconds is None else time.monotonic() + seconds)
        self._running.append(running)
        return running

    def wait(self, some: Sequence[Running]) -> Running:
        """Gives the first of these programs that ends, by itself or at its limit, or that is heard."""
        while True:
            self.test()
            now = time.monotonic()
            for running in some:
                has_ended = running.child.poll() is not None
                # What has ended has said all that can be heard.
                if running.listen():
                    return running
                if has_ended or (running.limit is not None and now >= running.limit):
                    running.status = running.child.returncode
                    self.end(running)
                    return running
            ends = [_LONG] + [end - now for end in (self._end, *(running.limit for running in some)) if end is not None]
            if self._tick is not None:
                ends.append(_TICK)
                self._tick(self.seconds)
            outputs = [running.output for running in some if running.output is not None]
            select.select([self._pipe[0], *outputs], [], [], max(0.0, min(ends)))
            self._drain()

    def ends_within(self, running: Running, seconds: float) -> bool:
        """True if a program ends in so short a time, which is waited for."""
        last = time.monotonic() + seconds
        while running.child.poll() is None and time.monotonic() < last:
            self.test()
            select.select([self._pipe[0]], [], [], max(0.0, last - time.monotonic()))
            self._drain()
        return running.child.poll() is not None

    def end(self, running: Running) -> None:
        """Ends a program where it still runs."""
        if running in self._running:
            self._running.remove(running)
            _end(running.child)
            if running.output is not None:
                running.output.close()

    def end_all(self) -> None:
        """Ends all programs that still run, as before their files go."""
        for running in list(self._running):
            self.end(running)

    def _drain(self) -> None:
        try:
            while os.read(self._pipe[0], 4096):
                pass
        except BlockingIOError:
            pass


def _end(child: subprocess.Popen[bytes]) -> None:
    """Ends a program and all that it has started, where it still runs.

    It is waited for, and its number stays its own, until all have got the second signal.
    """
    if child.returncode is not None:
        return
    os.killpg(child.pid, signal.SIGTERM)
    limit = time.monotonic() + _GRACE
    while time.monotonic() < limit and os.waitid(os.P_PID, child.pid, os.WEXITED | os.WNOWAIT | os.WNOHANG) is None:
        time.sleep(0.002)
    os.killpg(child.pid, signal.SIGKILL)
    child.wait()
