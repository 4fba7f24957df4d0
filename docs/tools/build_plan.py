"""In which order crates are built side by side, and how long that takes.

The seconds and the memory of each crate, by one job, are in crate_seconds.json beside this file; ./build --measure writes it. What
it lacks is guessed by the size of the crate.

By more jobs a crate is done sooner: a part of its seconds stays, and the rest goes faster, as measured on pb_base (172 s by one job,
83 s by four).

Of the crates that can begin, the one with the longest chain of seconds after it comes first; processors that no crate could use are
jobs of those with the longest chains. That is half an hour on four processors, where `rt all check` took an hour. Among three
thousand orders tried at random none was better on four, and on two the best by 4 %.
"""

import json
import os
from collections import namedtuple

from crate_list import TOP

TABLE = os.path.join(TOP, "docs", "tools", "crate_seconds.json")
FIXED_SECONDS = 12
FASTER = (0, 1, 1.6, 2.0, 2.3)
MOST_JOBS = len(FASTER) - 1
# Of processor time and of memory, in GB, each job past the first takes this much more.
SHARE_OF_A_JOB, MEMORY_OF_A_JOB = 0.1, 0.6
# A crate with work kept of an earlier build takes this share of its seconds; an edit proves little anew.
KEPT_SHARE = 0.15

Cost = namedtuple("Cost", "seconds memory")
Limits = namedtuple("Limits", "processors memory")
Run = namedtuple("Run", "jobs taken")
Step = namedtuple("Step", "name jobs begins ends")


def by_jobs(seconds, jobs):
    """The seconds that a crate takes by so many jobs, where it takes these by one."""
    if seconds <= FIXED_SECONDS:
        return seconds
    return FIXED_SECONDS + (seconds - FIXED_SECONDS) / FASTER[min(jobs, MOST_JOBS)]


def processor_seconds(seconds, jobs):
    return seconds * (1 + SHARE_OF_A_JOB * (jobs - 1))


def guessed(name, top=TOP):
    """What a crate costs that was never measured, by its lines of Rust and of proofs."""
    lines = {".rt": 0, ".antt": 0}
    for folder, _, files in os.walk(os.path.join(top, "crates", name)):
        for file in files:
            kind = os.path.splitext(file)[1]
            if kind in lines and "out" not in os.path.relpath(folder, top).split(os.sep):
                with open(os.path.join(folder, file), "rb") as text:
                    lines[kind] += text.read().count(b"\n")
    return Cost(10 + 0.1 * lines[".rt"] + 0.01 * lines[".antt"], 1.6)


def read_table(table=TABLE):
    """What each crate costs that was measured."""
    if not os.path.isfile(table):
        return {}
    with open(table, encoding="utf-8") as file:
        return {name: Cost(*cost) for name, cost in json.load(file).items()}


def write_table(costs, table=TABLE):
    """Writes the table, a crate a line."""
    rows = ['"%s": [%.0f, %.1f]' % (name, *costs[name]) for name in sorted(costs)]
    with open(table, "w", encoding="utf-8") as file:
        file.write("{\n%s\n}\n" % ",\n".join(rows))


def costs_of(names, kept=()):
    """What these crates cost; those in kept have work kept of an earlier build."""
    measured = read_table()
    costs = {name: measured.get(name) or guessed(name) for name in names}
    for name in kept:
        costs[name] = costs[name]._replace(seconds=FIXED_SECONDS + KEPT_SHARE * costs[name].seconds)
    return costs


class Plan:
    """Which crates there are, what each uses, what it costs, and the seconds of the longest chain of crates that begins with it."""

    def __init__(self, uses, costs):
        self.uses, self.costs = uses, costs
        self.users = {name: [other for other in uses if name in uses[other]] for name in uses}
        self.chain = {}
        for name in uses:
            self.measure_chain(name)

    def measure_chain(self, name):
        if name not in self.chain:
            behind = [self.measure_chain(user) for user in self.users[name]]
            self.chain[name] = self.costs[name].seconds + max(behind, default=0)
        return self.chain[name]

    def longest_chain(self):
        """The crates of the longest chain, the lowest first."""
        chain, users = [], list(self.uses)
        while users:
            chain.append(max(users, key=self.chain.get))
            users = self.users[chain[-1]]
        return chain

    def memory(self, name, jobs=1):
        return self.costs[name].memory + MEMORY_OF_A_JOB * (jobs - 1)

    def ready(self, done, running):
        """The crates that can begin, as all that they use is done; whoever has the longest chain comes first."""
        names = [name for name in self.uses if name not in done and name not in running]
        names = [name for name in names if all(other in done for other in self.uses[name])]
        return sorted(names, key=lambda name: -self.chain[name])

    def choose(self, done, running, limits):
        """The crates to begin now, each with its jobs. running has the jobs of each that is being built."""
        ready, begun = self.ready(done, running), {}
        idle = limits.processors - sum(running.values())
        free = limits.memory - sum(self.memory(name, jobs) for name, jobs in running.items())
        for at, name in enumerate(ready):
            # A crate that is larger than what is free is built alone.
            if idle <= 0 or free < self.memory(name) and (running or begun):
                break
            spare = min(idle - (len(ready) - at), int((free - self.memory(name)) / MEMORY_OF_A_JOB), MOST_JOBS - 1)
            begun[name] = 1 + max(spare, 0)
            idle -= begun[name]
            free -= self.memory(name, begun[name])
        return begun

    def simulate(self, limits, done=(), running=()):
        """What begins and ends when, by the model, from now on. running has a Run of each crate that is being built."""
        done, now, steps, ends = set(done), 0.0, [], {}
        for name, run in dict(running).items():
            left = max(by_jobs(self.costs[name].seconds, run.jobs) - run.taken, 1)
            ends[name] = Step(name, run.jobs, -run.taken, left)
        while len(done) < len(self.uses):
            for name, jobs in self.choose(done, {name: step.jobs for name, step in ends.items()}, limits).items():
                ends[name] = Step(name, jobs, now, now + by_jobs(self.costs[name].seconds, jobs))
            first = min(ends.values(), key=lambda step: step.ends)
            now = first.ends
            steps.append(ends.pop(first.name))
            done.add(first.name)
        return steps

    def seconds_left(self, limits, done=(), running=()):
        return max((step.ends for step in self.simulate(limits, done, running)), default=0)


class Progress:
    """How far a build is: by the seconds of the model, and by how much slower than that this machine has been so far."""

    def __init__(self, plan, limits, done):
        self.plan, self.limits = plan, limits
        self.whole = sum(plan.costs[name].seconds for name in plan.uses if name not in done)
        self.seen = self.expected = self.proved = 0

    def end(self, name, run):
        self.seen += run.taken
        self.expected += by_jobs(self.plan.costs[name].seconds, run.jobs)
        self.proved += self.plan.costs[name].seconds

    def slower(self):
        return self.seen / self.expected if self.expected else 1

    def by_model(self, running):
        """As many seconds of the model as the crates that are being built have taken."""
        return {name: run._replace(taken=run.taken / self.slower()) for name, run in running.items()}

    def percent(self, running):
        """The share of the work that is done."""
        done = self.proved
        for name, run in self.by_model(running).items():
            seconds = self.plan.costs[name].seconds
            done += seconds * min(run.taken / by_jobs(seconds, run.jobs), 0.95)
        return 100 * done / self.whole if self.whole else 100

    def minutes_left(self, done, running):
        return self.slower() * self.plan.seconds_left(self.limits, done, self.by_model(running)) / 60
