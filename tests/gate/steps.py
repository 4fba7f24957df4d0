"""Steps that run side by side, each a process that begins once what it needs has passed: proofs of crates, tries of edits, tests."""
import os
import signal
import subprocess
import tempfile
import time
from collections import namedtuple

from build_plan import MOST_JOBS, Plan

# How a step ended: whether it passed, what it said, and its seconds of wall and of processor time.
Ended = namedtuple("Ended", "passed said wall seconds")


class Command:
    """A step that runs a command, of this kind and for this crate. A word `JOBS` of the command stands for the number of its jobs, of
    which it takes at most so many."""

    def __init__(self, kind, crate, needs, cost, words, folder, most=MOST_JOBS):
        self.kind, self.crate, self.needs, self.cost, self.most = kind, crate, set(needs), cost, most
        self.words, self.folder, self.said = words, folder, None
        self.name = f"{kind} of {crate}"

    def begin(self, jobs):
        """Begins its process, in a session of its own, so that it can be ended with all that it began."""
        self.said = tempfile.TemporaryFile("w+", errors="replace")
        words = [str(jobs) if it == "JOBS" else it for it in self.words]
        how = {"stdin": subprocess.DEVNULL, "stdout": self.said, "stderr": subprocess.STDOUT, "start_new_session": True}
        return subprocess.Popen(words, cwd=self.folder, **how)

    def end(self, status):
        """Does what is left once its process ended so, and returns whether all is well."""
        return status == 0

    def words_said(self):
        """What it said."""
        with self.said:
            self.said.seek(0)
            return self.said.read()


class Running:
    """A process of a step."""

    def __init__(self, step, jobs):
        self.step, self.jobs, self.began = step, jobs, time.time()
        self.process = step.begin(jobs)

    def ended(self, status, used):
        """How it ended."""
        self.process.returncode = -os.WTERMSIG(status) if os.WIFSIGNALED(status) else os.WEXITSTATUS(status)
        passed = self.step.end(self.process.returncode)
        return Ended(passed, self.step.words_said(), time.time() - self.began, used.ru_utime + used.ru_stime)

    def stop(self):
        """Ends it, and all that it began."""
        try:
            os.killpg(self.process.pid, signal.SIGTERM)
        except OSError:
            self.process.terminate()


def plan_of(steps, ended):
    """The plan of the steps that can still pass: those that need none that failed."""
    lost = {name for name, it in ended.items() if not it.passed}
    left = dict(steps)
    while lost:
        left = {name: it for name, it in left.items() if name not in lost}
        lost = {name for name, it in left.items() if not it.needs <= set(left)}
    return Plan({name: it.needs for name, it in left.items()}, {name: it.cost for name, it in left.items()})


def begin_all(plan, steps, done, running, limits):
    """Begins what can begin, one at a time: what a step leaves of its jobs is there for the next."""
    while True:
        jobs_of = {it.step.name: it.jobs for it in running.values()}
        chosen = plan.choose(done, jobs_of, limits)
        if not chosen:
            return
        name, jobs = next(iter(chosen.items()))
        it = Running(steps[name], min(jobs, steps[name].most))
        running[it.process.pid] = it


def run_all(several, limits, tell):
    """Runs steps, reports each as it ends, and returns how each ended, by its name. Those that need one that failed do not run."""
    steps, ended, running = {it.name: it for it in several}, {}, {}
    plan = plan_of(steps, ended)
    try:
        while True:
            begin_all(plan, steps, set(ended), running, limits)
            if not running:
                return ended
            pid, status, used = os.wait4(-1, 0)
            if pid in running:
                it = running.pop(pid)
                ended[it.step.name] = it.ended(status, used)
                tell(it.step, it.jobs, ended[it.step.name])
                plan = plan_of(steps, ended)
    finally:
        for it in running.values():
            it.stop()
