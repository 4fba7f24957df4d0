"""Tries the plan of ./build: no crate begins before those that it uses have ended, each is built once, and no more processors and
memory are taken than there are, but for a crate that is built alone. Prints each fault.

usage: tests/building/plan.py TOP
"""

import os
import sys

top = sys.argv[1]
sys.dont_write_bytecode = True
sys.path.insert(0, os.path.join(top, "docs", "tools"))

from build_plan import Cost, Limits, Plan, costs_of  # noqa: E402
from crate_list import uses_of  # noqa: E402


def faults_of(plan, limits):
    steps = plan.simulate(limits)
    ends = {step.name: step.ends for step in steps}
    if sorted(ends) != sorted(plan.uses) or len(steps) != len(ends):
        yield "not each crate is built once"
    for step in steps:
        for used in plan.uses[step.name]:
            if not ends[used] <= step.begins:
                yield "%s begins before %s ends" % (step.name, used)
        beside = [other for other in steps if other.begins <= step.begins < other.ends]
        if sum(other.jobs for other in beside) > limits.processors:
            yield "more processors are taken than %d as %s begins" % (limits.processors, step.name)
        if len(beside) > 1 and sum(plan.memory(other.name, other.jobs) for other in beside) > limits.memory + 1e-6:
            yield "more memory is taken than %.1f GB as %s begins" % (limits.memory, step.name)


def is_longest_first():
    """Of two crates that can begin the one with the longer chain does, though it is itself the shorter one."""
    costs = {"a": Cost(50, 1), "b": Cost(20, 1), "c": Cost(100, 1)}
    return list(Plan({"a": [], "b": [], "c": ["b"]}, costs).choose((), {}, Limits(1, 9))) == ["b"]


real = Plan(uses_of(top), costs_of(uses_of(top)))
for processors in (1, 2, 3, 4, 8, 64):
    for memory in (1, 3, 8, 20, 500):
        for fault in faults_of(real, Limits(processors, memory)):
            print("%d processors, %d GB: %s" % (processors, memory, fault))
if not is_longest_first():
    print("the longest chain is not the first")
