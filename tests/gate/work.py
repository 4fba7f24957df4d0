"""What the quick gate has to do: which crates it proves, whose edits it tries, which tests it runs, and what it leaves out."""
import os
import re

import changes
import edits
from build_crates import Refused
from build_plan import MOST_JOBS, Cost, costs_of
from crate_list import TOP, below
from quick_costs import QuickCosts
from steps import Command

# GB of a step that is no proof of a crate, by one job, and of each lane of one that tries edits.
MEMORY, MEMORY_OF_A_LANE = 1.6, 2.5
# What runs the tests of crates one after another: rt locks what lies below each.
IN_TURN = """
status=0
for name; do
    (cd "crates/$name" && rt test --jobs "$0") && said=passed || said=FAILED status=1
    printf 'tests of %s %s\\n' "$name" "$said"
done
exit $status
"""
# What kinds of steps there are: a proof over kept work or from nothing, a try of edits, tests of crates, and those of the program.
AGAIN, ANEW, EDITS, TESTS, PROGRAM = "proof", "proof from nothing", "edits", "tests", "tests/run"


class Proof(Command):
    """The proof of a crate over what is kept of it, which leaves its library or program with its stamp."""

    def __init__(self, shop, made, needs, cost):
        kind, most = (AGAIN, 1) if shop.has_kept(made) else (ANEW, MOST_JOBS)
        super().__init__(kind, made.name, needs, cost, [], made.folder, most)
        self.name = made.name
        self.shop, self.made, self.refused, self.held = shop, made, "", []

    def begin(self, jobs):
        # What rt does in the crate waits meanwhile, and this for it.
        self.held = self.shop.kit.lock([self.made])
        return self.shop.begin(self.made, jobs)

    def end(self, status):
        try:
            self.shop.end(self.made, status)
        except Refused as why:
            self.refused = f"{why}\n"
        for it in self.held:
            os.close(it)
        return not self.refused

    def words_said(self):
        return (self.shop.kit.text_of(self.shop.log(self.made)) or "") + self.refused


class Work:
    """The work on a checkout in which these crates changed: uses has what each crate uses, is_asked says whether the tests of the
    crates above are to be run, and memory is the most GB that is taken."""

    def __init__(self, shop, uses, changed, is_asked, memory):
        self.shop, self.crates, self.uses, self.changed = shop, shop.crates, uses, changed
        self.is_asked, self.lanes, self.costs = is_asked, max(1, min(MOST_JOBS, int(memory / MEMORY_OF_A_LANE))), QuickCosts()
        self.above = changes.above(changed, self.uses)
        self.with_tests = {name for name, it in self.crates.items() if it.has_tests()}
        self.programs = [name for name, it in self.crates.items() if it.is_program]
        self.proved = self.to_prove()

    def touched(self):
        """The crates that changed, and those above them."""
        return self.changed | self.above

    def never_built(self):
        """The static libraries above that were never built here: only a build of them would prove them."""
        return {name for name in self.above if self.crates[name].is_static and not self.shop.has_kept(self.crates[name])}

    def to_prove(self):
        """The crates that are to be proved as they stand: those of the program, those that changed, and the static libraries above."""
        ends = {*self.programs, *self.changed, *(it for it in self.above if self.crates[it].is_static)}
        ends -= self.with_tests | self.never_built()
        return set().union(*(below(it, self.uses) for it in ends))

    def to_test(self):
        """The crates whose tests are run: those that changed, and with the word for it those above."""
        return sorted((self.touched() if self.is_asked else self.changed) & self.with_tests)

    def left_out(self):
        """What is above and is not looked at, as lines."""
        tests = sorted((self.above & self.with_tests) - set(self.to_test()))
        rows = [f"the tests of {' '.join(tests)}: --tests runs them, which takes some minutes each"] if tests else []
        rows += [f"{name}, which was never built here" for name in sorted(self.never_built())]
        return rows

    def cost_of(self, name, from_nothing):
        """The cost of a crate's proof, from this cost of one from nothing."""
        if not self.shop.has_kept(self.crates[name]):
            return from_nothing
        return from_nothing._replace(seconds=self.costs.again(name, from_nothing.seconds))

    def proofs(self):
        """A step for each crate that is not proved as it stands."""
        anew = {it for it in self.proved if not self.shop.is_done(self.crates[it])}
        costs = {it: self.cost_of(it, cost) for it, cost in costs_of(anew).items()}
        return [Proof(self.shop, self.crates[it], anew & set(below(it, self.uses)) - {it}, costs[it]) for it in sorted(anew)]

    def edits(self, known):
        """A step for each crate that changed and has edits."""
        found = []
        for name in sorted(self.changed):
            files = edits.edits_of(self.crates[name].folder)
            if files:
                words = [f"{TOP}/tests/edits", "--lanes", "JOBS", name]
                found.append(Command(EDITS, name, {name} & known, Cost(self.costs.edits(name, len(files)), MEMORY), words, TOP, self.lanes))
        return found

    def tests(self, known):
        """A step for the tests of crates, and one for those of the program, but for the quick gate's own."""
        found, names = [], self.to_test()
        if names:
            needs = set().union(*(below(it, self.uses) for it in names))
            words = ["bash", "-c", IN_TURN, "JOBS", *names]
            found.append(Command(TESTS, "crates", needs & known, Cost(sum(map(self.costs.tests, names)), MEMORY), words, TOP))
        cases = sorted(it[: -len(".sh")] for it in os.listdir(f"{TOP}/tests/cases") if it.endswith(".sh") and it != "quick.sh")
        for name in self.programs:
            words = [f"{TOP}/tests/run", self.shop.made(self.crates[name]), *cases]
            found.append(Command(PROGRAM, name, {name} & known, Cost(self.costs.program(), MEMORY), words, TOP, 1))
        return found

    def steps(self):
        """All steps."""
        proofs = self.proofs()
        known = {it.name for it in proofs}
        return [*proofs, *self.edits(known), *self.tests(known)]


def counts_of(step, ended):
    """How much passed and how much failed in a step, by its last line where that counts."""
    if step.kind in (AGAIN, ANEW):
        return (1, 0) if ended.passed else (0, 1)
    if step.kind == TESTS:
        found = re.findall(r"(?m)^tests of \S+ (passed|FAILED)$", ended.said)
        return found.count("passed"), max(found.count("FAILED"), not ended.passed)
    last = re.search(r"(\d+) passed, (\d+) failed[^\n]*\n?\Z", ended.said)
    passed, failed = (int(last[1]), int(last[2])) if last else (0, 0)
    return passed, max(failed, not ended.passed)


def seconds_of(several, ended):
    """The seconds of the steps that passed, as docs/tools/quick_seconds.json has them."""
    names, found = {AGAIN: "again", EDITS: "edits", PROGRAM: "tests"}, {}
    for it in several:
        if it.kind in names and it.name in ended and ended[it.name].passed:
            of = PROGRAM if it.kind == PROGRAM else it.crate
            found.setdefault(of, {})[names[it.kind]] = round(ended[it.name].seconds)
    return found
