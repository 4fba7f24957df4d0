"""Problems of the kinds that planners, verifiers and timetabling tools hand to an encoder, by size.

Each is the same on every machine: what is drawn comes from a generator of its own, by a fixed seed. So the figures of
docs/PERFORMANCE.md can be had again anywhere, without a file from elsewhere.

usage: python3 bench/instances.py SIZE FOLDER     writes the problems of a size (small, medium or large) as OPB files
"""

import os
import sys


class Draws:
    """A linear congruential generator of 64 bits (Knuth's constants), of which the upper half of a state is drawn."""

    def __init__(self, seed):
        self.state = seed

    def below(self, count):
        self.state = (self.state * 6364136223846793005 + 1442695040888963407) % 2**64
        return (self.state >> 32) % count

    def between(self, least, greatest):
        return least + self.below(greatest - least + 1)

    def sample(self, items, count):
        """So many of the items, each once."""
        items = list(items)
        for i in range(count):
            j = i + self.below(len(items) - i)
            items[i], items[j] = items[j], items[i]
        return items[:count]

    def variables(self, greatest, count):
        """So many different numbers from 1 on, of few among many."""
        chosen = {}
        while len(chosen) < count:
            chosen[self.between(1, greatest)] = None
        return list(chosen)


class Problem:
    """A problem in OPB. A literal is the number of its variable, negative where it is negated."""

    def __init__(self):
        self.rows, self.variables, self.objective = [], 0, []

    def sum(self, terms):
        self.variables = max([self.variables] + [abs(lit) for _, lit in terms])
        return " ".join("%+d %sx%d" % (coefficient, "~" if lit < 0 else "", abs(lit)) for coefficient, lit in terms)

    def add(self, terms, relation, right):
        self.rows.append("%s %s %d ;" % (self.sum(terms), relation, right))

    def minimise(self, terms):
        self.objective = ["min: %s ;" % self.sum(terms)]

    def text(self):
        head = "* #variable= %d #constraint= %d" % (self.variables, len(self.rows))
        return "\n".join([head] + self.objective + self.rows) + "\n"


def pigeons(holes):
    """One pigeon more than holes: each in a hole, at most one in each. There is no solution."""
    problem, at = Problem(), lambda pigeon, hole: pigeon * holes + hole + 1
    for pigeon in range(holes + 1):
        problem.add([(1, at(pigeon, hole)) for hole in range(holes)], ">=", 1)
    for hole in range(holes):
        problem.add([(1, at(pigeon, hole)) for pigeon in range(holes + 1)], "<=", 1)
    return problem


def knapsacks(items, sacks, weight, seed):
    """Several knapsacks over the same items, and a profit to reach: long sums with great coefficients."""
    draws, problem = Draws(seed), Problem()
    for _ in range(sacks):
        weights = [draws.between(1, weight) for _ in range(items)]
        problem.add([(weights[i], i + 1) for i in range(items)], "<=", sum(weights) // 2)
    profits = [draws.between(1, weight) for _ in range(items)]
    problem.add([(profits[i], i + 1) for i in range(items)], ">=", sum(profits) // 3)
    return problem


def timetable(lessons, slots, rooms, groups, seed):
    """Each lesson in one slot, so many rooms a slot, no two lessons of a group at once; wishes are the objective."""
    draws, problem, at = Draws(seed), Problem(), lambda lesson, slot: lesson * slots + slot + 1
    for lesson in range(lessons):
        problem.add([(1, at(lesson, slot)) for slot in range(slots)], "=", 1)
    for slot in range(slots):
        problem.add([(1, at(lesson, slot)) for lesson in range(lessons)], "<=", rooms)
    for _ in range(groups):
        members = draws.sample(range(lessons), min(lessons, slots // 2))
        for slot in range(slots):
            problem.add([(1, at(lesson, slot)) for lesson in members], "<=", 1)
    wishes = [(draws.between(1, 9), at(lesson, slot)) for lesson in range(lessons) for slot in draws.sample(range(slots), 3)]
    problem.minimise(wishes)
    return problem


def covering(columns, rows, width, seed):
    """Each row is covered several times by columns that count one to three times; columns cost."""
    draws, problem = Draws(seed), Problem()
    for _ in range(rows):
        members = draws.sample(range(columns), width)
        problem.add([(draws.between(1, 3), column + 1) for column in members], ">=", draws.between(2, 5))
    problem.minimise([(draws.between(1, 20), column + 1) for column in range(columns)])
    return problem


def planning(tasks, steps, resources, seed):
    """Each task starts once, at each step each resource suffices, and some tasks come before others."""
    draws, problem, start = Draws(seed), Problem(), lambda task, step: task * steps + step + 1
    length = [draws.between(1, 4) for _ in range(tasks)]
    need = [[draws.between(0, 7) for _ in range(tasks)] for _ in range(resources)]
    for task in range(tasks):
        problem.add([(1, start(task, step)) for step in range(steps - length[task] + 1)], "=", 1)
    for resource in range(resources):
        for step in range(steps):
            terms = [(need[resource][task], start(task, begin))
                     for task in range(tasks) if need[resource][task]
                     for begin in range(max(0, step - length[task] + 1), min(step, steps - length[task]) + 1)]
            if terms:
                problem.add(terms, "<=", 14)
    for _ in range(tasks):
        before, behind = sorted(draws.sample(range(tasks), 2))
        problem.add([(step, start(behind, step)) for step in range(1, steps - length[behind] + 1)]
                    + [(-step, start(before, step)) for step in range(1, steps - length[before] + 1)], ">=", 0)
    return problem


def binary(bits):
    """Two binary words of one value whose top bits differ: coefficients that are powers of two. There is no solution."""
    problem = Problem()
    problem.add([(1 << i, i + 1) for i in range(bits)] + [(-(1 << i), bits + i + 1) for i in range(bits)], "=", 0)
    problem.add([(1, bits), (1, 2 * bits)], "=", 1)
    return problem


def mixed(rows, seed):
    """Many short constraints of all kinds, as in a large file of a competition, which one drawn assignment satisfies."""
    draws, problem = Draws(seed), Problem()
    is_true = [draws.below(2) for _ in range(rows // 2 + 11)]
    for _ in range(rows):
        count, kind = draws.between(2, 12), draws.below(4)
        variables = draws.variables(rows // 2 + 10, count)
        coefficients = [1] * count if kind < 2 else [draws.between(1, 30) for _ in range(count)]
        terms = [(c, v if draws.below(2) else -v) for c, v in zip(coefficients, variables)]
        value = sum(c for c, lit in terms if is_true[abs(lit)] == (lit > 0))
        relation = (">=", "<=", "=")[draws.below(3)] if kind == 3 else ">="
        right = {"=": value, ">=": value - draws.below(value + 1) // 2, "<=": value + draws.below(4)}[relation]
        problem.add(terms, relation, right)
    return problem


def sacks(items, count, weight, seed):
    """Several knapsacks over the same items, of which the profit that is left behind is the objective."""
    draws, problem = Draws(seed), Problem()
    for _ in range(count):
        weights = [draws.between(1, weight) for _ in range(items)]
        problem.add([(weights[i], i + 1) for i in range(items)], "<=", sum(weights) // 2)
    problem.minimise([(draws.between(1, weight), -(i + 1)) for i in range(items)])
    return problem


def vertex_cover(vertices, edges, seed):
    """Each edge has an end among the vertices that are taken, which are to be few."""
    draws, problem, drawn = Draws(seed), Problem(), {}
    while len(drawn) < edges:
        drawn[tuple(sorted(draws.sample(range(1, vertices + 1), 2)))] = None
    for one, other in drawn:
        problem.add([(1, one), (1, other)], ">=", 1)
    problem.minimise([(1, vertex) for vertex in range(1, vertices + 1)])
    return problem


def schedule(jobs, seed):
    """One machine: each job starts once, no two run at once, and what they are late costs."""
    draws, problem = Draws(seed), Problem()
    length = [draws.between(1, 4) for _ in range(jobs)]
    slots, late = sum(length), []
    start = lambda job, slot: job * slots + slot + 1
    for job in range(jobs):
        problem.add([(1, start(job, slot)) for slot in range(slots - length[job] + 1)], "=", 1)
        cost, due = draws.between(1, 9), draws.between(length[job], slots)
        late += [(cost * (end - due), start(job, end - length[job])) for end in range(due + 1, slots + 1)]
    for slot in range(slots):
        problem.add([(1, start(job, begin)) for job in range(jobs)
                     for begin in range(max(0, slot - length[job] + 1), min(slot, slots - length[job]) + 1)], "<=", 1)
    problem.minimise(late)
    return problem


def at_most(count, bound):
    """At most so many of some variables."""
    problem = Problem()
    problem.add([(1, i + 1) for i in range(count)], "<=", bound)
    return problem


def weights(count, greatest, seed):
    """A sum of drawn weights up to half of what they are together."""
    draws, problem = Draws(seed), Problem()
    drawn = [draws.between(1, greatest) for _ in range(count)]
    problem.add([(weight, i + 1) for i, weight in enumerate(drawn)], "<=", sum(drawn) // 2)
    return problem


def clauses(rows, seed):
    """Clauses alone."""
    draws, problem = Draws(seed), Problem()
    for _ in range(rows):
        variables = draws.variables(rows // 3 + 10, draws.between(2, 6))
        problem.add([(1, v if draws.below(2) else -v) for v in variables], ">=", 1)
    return problem


SIZES = {
    "small": {
        "pigeons 8": lambda: pigeons(8),
        "knapsacks 12": lambda: knapsacks(12, 2, 30, 1),
        "timetable 12": lambda: timetable(12, 8, 3, 6, 1),
        "covering 60": lambda: covering(60, 60, 6, 1),
        "planning 8": lambda: planning(8, 10, 2, 1),
        "binary 16": lambda: binary(16),
        "mixed 500": lambda: mixed(500, 1),
        "clauses 5k": lambda: clauses(5000, 1),
    },
    "medium": {
        "pigeons 30": lambda: pigeons(30),
        "knapsacks 60": lambda: knapsacks(60, 5, 1000, 2),
        "timetable 80": lambda: timetable(80, 20, 6, 40, 2),
        "covering 800": lambda: covering(800, 1000, 12, 2),
        "planning 24": lambda: planning(24, 24, 3, 2),
        "binary 64": lambda: binary(64),
        "mixed 10k": lambda: mixed(10000, 2),
        "clauses 80k": lambda: clauses(80000, 2),
    },
    "large": {
        "pigeons 120": lambda: pigeons(120),
        "knapsacks 400": lambda: knapsacks(400, 10, 100000, 3),
        "timetable 400": lambda: timetable(400, 45, 15, 120, 3),
        "covering 5k": lambda: covering(5000, 8000, 25, 3),
        "planning 48": lambda: planning(48, 44, 4, 3),
        "binary 90": lambda: binary(90),
        "mixed 100k": lambda: mixed(100000, 3),
        "clauses 400k": lambda: clauses(400000, 3),
    },
}

# Problems of one kind that become larger, by kinds and sizes.
GROWING = {
    "clauses": {
        "6k": lambda: clauses(6250, 4),
        "25k": lambda: clauses(25000, 4),
        "100k": lambda: clauses(100000, 4),
        "400k": lambda: clauses(400000, 4),
    },
    "mixed": {
        "3k": lambda: mixed(3125, 4),
        "12k": lambda: mixed(12500, 4),
        "50k": lambda: mixed(50000, 4),
        "200k": lambda: mixed(200000, 4),
    },
    "timetables": {
        "50": lambda: timetable(50, 40, 5, 15, 4),
        "100": lambda: timetable(100, 40, 10, 30, 4),
        "200": lambda: timetable(200, 40, 10, 60, 4),
        "400": lambda: timetable(400, 40, 15, 120, 4),
    },
    "coverings": {
        "500": lambda: covering(310, 500, 20, 4),
        "2k": lambda: covering(1250, 2000, 20, 4),
        "8k": lambda: covering(5000, 8000, 20, 4),
        "32k": lambda: covering(20000, 32000, 20, 4),
    },
}


class Family:
    """One constraint of n literals that a family encodes, by the words of `encode` that ask for it, and the lengths that are measured."""

    def __init__(self, name, says, make, options, counts):
        self.name, self.says, self.make, self.options, self.counts = name, says, make, options, counts


FAMILIES = [
    Family("ladder", "at most 1 of n", lambda n: at_most(n, 1), ["--amo", "ladder"], (250, 500, 1000, 2000)),
    Family("product", "at most 1 of n", lambda n: at_most(n, 1), ["--amo", "product"], (250, 500, 1000, 2000)),
    Family("counter", "at most 5 of n", lambda n: at_most(n, 5), ["--card", "counter"], (250, 500, 1000, 2000)),
    Family("totalizer", "at most n/4 of n", lambda n: at_most(n, n // 4), ["--card", "totalizer"], (100, 200, 400, 800)),
    Family("diagram", "n weights up to 9", lambda n: weights(n, 9, 5), ["--general", "diagram"], (25, 50, 100, 200)),
    Family("tree", "n weights up to 9", lambda n: weights(n, 9, 5), ["--general", "tree"], (25, 50, 100, 200)),
    Family("adder", "n weights up to 1,000", lambda n: weights(n, 1000, 6), ["--general", "adder"], (50, 100, 200, 400)),
]

# Questions for a solver: a problem, and whether it has a solution whose objective is at most a bound. The greater bound is its optimum.
SOLVED = {
    "pigeons 8": (lambda: pigeons(8), [(None, "no")]),
    "knapsacks 60": (lambda: knapsacks(60, 5, 1000, 2), [(None, "yes")]),
    "planning 24": (lambda: planning(24, 24, 3, 2), [(None, "yes")]),
    "sacks 25": (lambda: sacks(25, 4, 99, 7), [(293, "yes"), (292, "no")]),
    "covering 40": (lambda: covering(40, 40, 6, 1), [(117, "yes"), (116, "no")]),
    "covering 50": (lambda: covering(50, 60, 6, 2), [(185, "yes"), (184, "no")]),
    "timetable 40": (lambda: timetable(40, 4, 10, 40, 4), [(16, "yes"), (15, "no")]),
    "schedule 13": (lambda: schedule(13, 5), [(1, "yes"), (0, "no")]),
    "vertex cover 50": (lambda: vertex_cover(50, 110, 7), [(27, "yes"), (26, "no")]),
    "vertex cover 60": (lambda: vertex_cover(60, 130, 8), [(33, "yes"), (32, "no")]),
}


def main(size, folder):
    os.makedirs(folder, exist_ok=True)
    for name, make in SIZES[size].items():
        with open(os.path.join(folder, name.replace(" ", "_") + ".opb"), "w") as file:
            file.write(make().text())


if __name__ == "__main__":
    main(*sys.argv[1:])
