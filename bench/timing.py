"""How much processor time, memory and instructions commands take."""

import os
import re
import subprocess
import threading
import time

LIMIT = 60


class Run:
    """The least processor time of some runs of a command in seconds, and the exit status of the last one."""

    def __init__(self):
        self.seconds = self.status = None
        self.is_over = False

    def add(self, words):
        """Runs the command once more. One that took longer than the limit is not run again."""
        if self.is_over:
            return
        took, self.status = run_once(words)
        self.is_over = took >= LIMIT
        self.seconds = took if self.seconds is None else min(self.seconds, took)

    def is_done(self):
        return not self.is_over and self.status == 0


def start(words):
    return subprocess.Popen(words, stdin=subprocess.DEVNULL, stdout=subprocess.DEVNULL, stderr=subprocess.DEVNULL)


def run_once(words):
    """The processor time of a run, user and system, and its exit status."""
    child = start(words)
    ender = threading.Timer(2 * LIMIT, child.kill)
    ender.start()
    _, status, used = os.wait4(child.pid, 0)
    ender.cancel()
    child.returncode = os.WEXITSTATUS(status) if os.WIFEXITED(status) else -1
    return used.ru_utime + used.ru_stime, child.returncode


def side_by_side(commands, runs):
    """The runs of each command by its name, turn by turn, so that what else the machine does meets all alike."""
    measured = {name: Run() for name in commands}
    for _ in range(runs):
        for name, words in commands.items():
            measured[name].add(words)
    return measured


def memory_of(words):
    """The most memory in MiB that a run of the command had, by what the system reports of it while it runs, or None where it does not.

    It is a run of its own, which is not timed: a process that starts another hands its own peak on to it.
    """
    most, child = None, start(words)
    while child.poll() is None:
        try:
            with open("/proc/%d/status" % child.pid) as file:
                parts = [line.split() for line in file if line.startswith("VmHWM:")]
        except OSError:
            parts = []
        if parts:
            most = int(parts[0][1]) / 1024
        time.sleep(0.0003)
    return most


def memory_of_long(run, words):
    """The same, of a command that was run; of one of a few milliseconds the system reports nothing reliable."""
    return memory_of(words) if run.is_done() and run.seconds >= 0.01 else None


def instructions_of(words):
    """How many instructions a run of the command takes by callgrind, or None where it does not end well."""
    counted = ["valgrind", "--tool=callgrind", "--callgrind-out-file=/dev/null", *words]
    ran = subprocess.run(counted, stdin=subprocess.DEVNULL, stdout=subprocess.DEVNULL, stderr=subprocess.PIPE, text=True)
    found = re.search(r"Collected : (\d+)", ran.stderr)
    return int(found.group(1)) if found and ran.returncode == 0 else None


def size(path):
    return os.path.getsize(path) if os.path.exists(path) else None
