"""encode, check, probe and refute, each beside its C program."""

import subprocess
import sys

import instances
import plots
import refutations
import report
import timing

HEAD = ["command", "of", "it reads", "pbcnf", "C", "ratio", "memory", "of C", "ratio"]
COUNTED = ["instructions", "of C", "ratio"]
SAYS = "\nMemory is the most that is resident, of commands that take ten milliseconds or more.\n"
COMMANDS = ("encode", "check", "probe", "refute")


class Row:
    """A command and its C program over the same files."""

    def __init__(self, bench, command, name, files, words, peer, less=None):
        """`files` are those whose bytes count. The time and the instructions of a command `less` are taken off those of this one."""
        self.command, self.name, self.reads = command, name, sum(map(timing.size, files))
        commands = {"own": words, "C": peer, "less": less}
        commands = {name: words for name, words in commands.items() if words}
        runs = timing.side_by_side(commands, bench.runs)
        self.own, self.c = self.difference({name: report.time_of(run) for name, run in runs.items()})
        memory = {name: timing.memory_of_long(run, commands[name]) for name, run in runs.items() if name != "less"}
        self.own_memory, self.c_memory = memory["own"], memory.get("C")
        self.own_count = self.c_count = None
        if bench.counts_instructions and self.own is not None and self.c is not None:
            self.own_count, self.c_count = self.difference({name: timing.instructions_of(words) for name, words in commands.items()})

    @staticmethod
    def difference(found):
        """What is found of the command, less that of the other, and what of the C program. Of short runs the rest may be none."""
        own, less = found["own"], found.get("less", 0)
        return (None if own is None or less is None else max(own - less, 0)), found.get("C")

    def cells(self, counts):
        times = [report.time(self.own), report.time(self.c), report.ratio(self.own, self.c)]
        memory = [report.memory(self.own_memory), report.memory(self.c_memory), report.ratio(self.own_memory, self.c_memory)]
        counted = [report.count(self.own_count), report.count(self.c_count), report.ratio(self.own_count, self.c_count)]
        return [self.command, self.name, report.count_of_bytes(self.reads), *times, *memory, *(counted if counts else [])]


def rows_of_problem(bench, name, problem):
    opb, cnf, proof, other = (bench.file(file) for file in ("a.opb", "a.cnf", "a.proof", "other.cnf"))
    with open(opb, "w") as file:
        file.write(problem.text())
    subprocess.run([bench.program, "encode", opb, cnf, proof], stdout=subprocess.DEVNULL, check=True)
    yield Row(bench, "encode", name, [opb], [bench.program, "encode", opb, other], bench.peer("encode", opb, other))
    yield Row(bench, "check", name, [cnf, proof], [bench.program, "check", opb, cnf, proof], bench.peer("check", opb, cnf, proof))
    yield Row(bench, "probe", name, [cnf], [bench.program, "probe", cnf], bench.peer("probe", cnf))


def row_of_refutation(bench, holes):
    """`refute` less its `check`, since its C program is about the refutation alone."""
    opb, cnf, proof, lrat = (bench.file(file) for file in ("a.opb", "a.cnf", "a.proof", "a.lrat"))
    refutations.main(holes, opb, lrat)
    subprocess.run([bench.program, "encode", opb, cnf, proof, "--amo", "pairwise"], stdout=subprocess.DEVNULL, check=True)
    return Row(bench, "refute", "pigeons %d by cases" % holes, [lrat], [bench.program, "refute", opb, cnf, proof, lrat],
               bench.peer("refute", cnf, lrat), less=[bench.program, "check", opb, cnf, proof])


def rows(bench):
    for size in bench.sizes:
        for name, make in instances.SIZES[size].items():
            yield from rows_of_problem(bench, name, make())
        yield row_of_refutation(bench, refutations.HOLES[size])


def plot_of_ratios(title, measured, found):
    """A plot, by commands, of the ratio of two numbers of a row over the bytes that it reads."""
    series = []
    for command in COMMANDS:
        numbers = [(row, *found(row)) for row in measured if row.command == command]
        points = [(row.reads, own / c, row.name) for row, own, c in numbers if own and c]
        if points:
            series.append((command, points))
    return plots.plot(title, ("bytes that it reads", "B"), ("ratio", ""), series, line=1.0)


def drawn(measured):
    """The plots by the names of their files; that of instructions is none where these were not counted."""
    return {"ratio.svg": plot_of_ratios("Time of pbcnf by that of C", measured, lambda row: (row.own, row.c)),
            "instructions.svg": plot_of_ratios("Instructions of pbcnf by those of C", measured, lambda row: (row.own_count, row.c_count))}


def section(bench):
    measured, faults = [], []
    for row in rows(bench):
        measured.append(row)
        sys.stderr.write(report.row(row.cells(bench.counts_instructions)))
        if row.own is None:
            faults.append("%s of %s did not end well" % (row.command, row.name))
    measured.sort(key=lambda row: COMMANDS.index(row.command))
    head = HEAD + COUNTED if bench.counts_instructions else HEAD
    text = report.table(head, (row.cells(bench.counts_instructions) for row in measured))
    return report.Section(text + SAYS, drawn(measured), faults)
