"""Proves and builds crates by the prover that rt calls, several at a time.

`rt lib` locks every crate below the one that it builds, so two of them never run side by side. So the prover is called here with the
very words that rt's own library gives, and what it makes is left with the stamps that rt writes: `rt check` in a crate goes on from
there, and a crate whose stamp fits is not built again. `rt all check` goes over the whole program before its first proof, and has a
processor wait where its next crate cannot begin yet.

No page of the kit promises that library, so what is taken of it is one list (TAKEN), and a kit without these names is refused.
"""

import fcntl
import hashlib
import importlib.machinery
import importlib.util
import os
import shutil
import signal
import subprocess
import sys
import time

from build_plan import Progress, Run, processor_seconds

# What is taken of the kit's library.
TAKEN = ("KIT", "RATTLE", "KEPT", "crates_below", "files_of", "guarded", "lock", "sum_of", "text_of")
# How rt links a program.
TARGET = "x86_64-unknown-linux-gnu"


class Refused(Exception):
    """Why there is no build."""


def load_kit():
    """The library of the rt that is on the path, as a module."""
    if not shutil.which("rt"):
        raise Refused("rt, which proves and builds, is not on the path; CONTRIBUTING.md says which one it is")
    said = subprocess.run(["rt", "doc"], stdout=subprocess.PIPE, stderr=subprocess.DEVNULL, stdin=subprocess.DEVNULL)
    page = os.fsdecode(said.stdout).strip()
    file = os.path.join(os.path.dirname(page), "bin", "rtlib.py")
    if not page or not os.path.isfile(file):
        raise Refused("%s is of no kit that has bin/rtlib.py, whose words the build takes" % shutil.which("rt"))
    sys.dont_write_bytecode = True
    loader = importlib.machinery.SourceFileLoader("rtlib", file)
    kit = importlib.util.module_from_spec(importlib.util.spec_from_loader("rtlib", loader))
    sys.modules["rtlib"] = kit
    loader.exec_module(kit)
    for name in TAKEN:
        if not hasattr(kit, name):
            raise Refused("%s has no %s, which the build takes: this kit is another than it knows" % (file, name))
    return kit


def take_turn(top, tell):
    """Waits until no other build works here. Who else wants to waits until this process ends."""
    folder = os.open(os.path.join(top, "crates"), os.O_RDONLY)
    try:
        fcntl.flock(folder, fcntl.LOCK_EX | fcntl.LOCK_NB)
    except BlockingIOError:
        tell("waiting for another build to end")
        fcntl.flock(folder, fcntl.LOCK_EX)
    except OSError:
        # Some file systems have no locks.
        pass


class Stamps:
    """The sum of all that a crate's library or program is made of: the one that rt writes, but each crate is read once, and not once
    for each way that leads to it."""

    def __init__(self, kit):
        self.kit, self.known = kit, {}

    def of(self, crate):
        if crate.name not in self.known:
            made = hashlib.sha256(repr((crate.said, crate.has_c)).encode())
            with open(os.path.join(self.kit.KIT, "WHAT"), "rb") as file:
                made.update(file.read())
            for name in self.kit.files_of(crate.folder):
                with open(name, "rb") as file:
                    made.update(repr((name.replace(crate.folder, ""), file.read())).encode())
            made.update(repr([self.of(other) for other in crate.deps]).encode())
            self.known[crate.name] = made.hexdigest()
        return self.known[crate.name]

    def look_again(self, crate):
        """Reads the crate once more the next time, as its build begins only now."""
        self.known.pop(crate.name, None)

    def is_changed(self, crate):
        """True if the crate, or one below it, is another than when its stamp was made."""
        return Stamps(self.kit).of(crate) != self.of(crate)


class Workshop:
    """Where crates are proved and built: what is there, and what one more takes."""

    def __init__(self, kit, crates):
        self.kit, self.crates, self.stamps = kit, crates, Stamps(kit)

    def made(self, crate):
        """The file, or the folder of a library, that the crate becomes."""
        if crate.makes_rlib():
            return crate.rlib
        return "%s/out/%s" % (crate.folder, "lib%s.a" % crate.name if crate.is_static else crate.name)

    def stamp_file(self, crate):
        return "%s/out/rlib/stamp" % crate.folder if crate.makes_rlib() else self.made(crate) + ".stamp"

    def stamp(self, crate):
        """What is in the stamp, for a program with the sum of its bytes."""
        return self.stamps.of(crate) + ("" if crate.makes_rlib() else self.kit.sum_of(self.made(crate)))

    def is_done(self, crate):
        return os.path.exists(self.made(crate)) and self.kit.text_of(self.stamp_file(crate)) == self.stamp(crate)

    def has_kept(self, crate):
        return os.path.isdir("%s/out/incremental" % crate.folder)

    def log(self, crate):
        return "%s/out/build.log" % crate.folder

    def words(self, crate, jobs):
        """The words of the prover's build of a crate."""
        made, kit = self.made(crate), self.kit.KIT
        words = ["build", *crate.words(["--jobs", str(jobs)]), *self.kit.KEPT]
        if crate.makes_rlib():
            return [*words, "-o", made]
        return [*words, "--toolchain", "%s/toolchain" % kit, "--backend", "llvm", "-o", made if crate.is_static else made + ".o"]

    def begin(self, crate, jobs):
        """Begins the build of a crate, without a stamp, and returns its process."""
        os.makedirs("%s/out" % crate.folder, exist_ok=True)
        self.stamps.look_again(crate)
        self.stamps.of(crate)
        if crate.makes_rlib():
            shutil.rmtree("%s/out/rlib" % crate.folder, ignore_errors=True)
            os.makedirs("%s/out/rlib" % crate.folder)
        elif os.path.exists(self.stamp_file(crate)):
            os.remove(self.stamp_file(crate))
        with open(self.log(crate), "wb") as log:
            # What the kit guards ends with this process, however that ends.
            words = [*self.kit.guarded(), self.kit.RATTLE, *self.words(crate, jobs)]
            return subprocess.Popen(words, cwd=crate.folder, stdin=subprocess.DEVNULL, stdout=log, stderr=subprocess.STDOUT)

    def link(self, crate):
        """Links a program of the object that was built, beside an older one; whether that succeeded."""
        made, kit = self.made(crate), self.kit.KIT
        words = ["--target", TARGET, "--toolchain", "%s/toolchain" % kit, "-o", made + ".new", made + ".o",
                 "%s/c/libos_c.a" % kit, "%s/c/liblibc_c.a" % kit]
        with open(self.log(crate), "ab") as log:
            linker = [*self.kit.guarded(), "%s/bin/rattle-link" % kit, *words]
            ran = subprocess.run(linker, cwd=crate.folder, stdin=subprocess.DEVNULL, stdout=log, stderr=subprocess.STDOUT)
        return ran.returncode == 0

    def end(self, crate, status):
        """Ends the build of a crate: links a program, and writes the stamp where the sources are still those that were built."""
        if status or crate.is_program and not self.link(crate):
            raise Refused("%s is not proved and built; %s says why" % (crate.name, os.path.relpath(self.log(crate))))
        if self.stamps.is_changed(crate):
            raise Refused("the sources of %s, or of a crate below it, changed while it was built; ./build goes on from there" % crate.name)
        if crate.is_program:
            os.replace(self.made(crate) + ".new", self.made(crate))
        with open(self.stamp_file(crate), "w", encoding="utf-8") as file:
            file.write(self.stamp(crate))


def wait_for_any(runs):
    """Waits until one of these processes ends, by their crates: which one, its status, and the time and memory that it used."""
    while True:
        process, status, used = os.wait4(-1, 0)
        for name, run in runs.items():
            if run.process.pid == process:
                status = -os.WTERMSIG(status) if os.WIFSIGNALED(status) else os.WEXITSTATUS(status)
                run.process.returncode = status
                return name, status, used


class Begun:
    """A crate that is being built."""

    def __init__(self, process, jobs):
        self.process, self.jobs, self.since = process, jobs, time.monotonic()

    def run(self):
        return Run(self.jobs, time.monotonic() - self.since)


class Build:
    """Builds all crates of a plan, each after those that it uses."""

    def __init__(self, workshop, plan, limits, tell):
        self.workshop, self.plan, self.limits, self.tell = workshop, plan, limits, tell
        self.done = {name for name, crate in workshop.crates.items() if workshop.is_done(crate)}
        self.begun = {}
        self.progress = Progress(plan, limits, self.done)
        # What crates that had no work kept took: seconds of a processor by one job, and GB.
        self.seen = {}

    def runs(self):
        return {name: begun.run() for name, begun in self.begun.items()}

    def begin(self, name, jobs):
        self.begun[name] = Begun(self.workshop.begin(self.workshop.crates[name], jobs), jobs)

    def begin_what_can(self):
        jobs = {name: begun.jobs for name, begun in self.begun.items()}
        for name, more in self.plan.choose(self.done, jobs, self.limits).items():
            self.begin(name, more)

    def end_one(self):
        """Waits for a crate, and ends its build."""
        name, status, used = wait_for_any(self.begun)
        begun, crate = self.begun.pop(name), self.workshop.crates[name]
        if status == -signal.SIGKILL and begun.jobs > 1:
            self.tell("%s was killed, most likely for memory; it is built once more by one job" % name)
            self.begin(name, 1)
            return
        self.workshop.end(crate, status)
        run = begun.run()
        self.done.add(name)
        self.progress.end(name, run)
        seconds = (used.ru_utime + used.ru_stime) / processor_seconds(1, run.jobs)
        self.seen[name] = seconds, used.ru_maxrss / 1e6
        self.tell(self.told_of(name, run))

    def told_of(self, name, run):
        """How far the build is, now that this crate is proved."""
        runs, share = self.runs(), self.progress.percent(self.runs())
        text = "proved %s in %.0f s: %d of %d crates, %.0f %% of the work" % (name, run.taken, len(self.done), len(self.plan.uses), share)
        minutes = self.progress.minutes_left(self.done, runs)
        if minutes:
            text += "; about %s more" % told_minutes(minutes)
        return text

    def stop(self):
        """Ends what still runs. What it kept stays, and no stamp is left."""
        for begun in self.begun.values():
            begun.process.kill()
            begun.process.wait()

    def run(self):
        try:
            while len(self.done) < len(self.plan.uses):
                self.begin_what_can()
                self.end_one()
        finally:
            self.stop()


def told_minutes(minutes):
    minutes = round(minutes)
    return "a minute" if minutes <= 1 else "%d minutes" % minutes
