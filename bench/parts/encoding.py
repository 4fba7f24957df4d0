"""Each problem encoded, beside the C programs, MiniSat+ and a plain copy; derived, and checked."""

import filecmp
import os
import sys

import instances
import peers
import plots
import report
import timing

HEAD = ["instance", "OPB", "CNF", "encode", "its memory", "C", "ratio", "MiniSat+", "ratio", "copy",
        "with derivation", "derivation", "check", "its memory"]


class Measures:
    """What was measured of one problem. A run that took too long, or whose tool is missing, is None."""

    def __init__(self, name, problem, bench):
        self.name, self.faults = name, []
        self.copy = self.derive = self.check = self.proof = None
        opb, cnf = bench.file("a.opb"), bench.file("a.cnf")
        text = problem.text()
        with open(opb, "w") as file:
            file.write(text)
        self.opb = len(text)
        self.measure_encoders(bench, text)
        self.cnf = timing.size(cnf)
        self.memory = timing.memory_of_long(self.encode, [bench.program, "encode", opb, cnf])
        if self.encode.is_done():
            self.measure_copy(bench)
            self.measure_derivation(bench)
        for file in os.listdir(bench.folder):
            if os.path.isfile(bench.file(file)):
                os.remove(bench.file(file))

    def measure_encoders(self, bench, text):
        opb, cnf, other = bench.file("a.opb"), bench.file("a.cnf"), bench.file("c.cnf")
        commands = {"pbcnf": [bench.program, "encode", opb, cnf], "C": bench.peer("encode", opb, other),
                    "MiniSat+": peers.minisat_plus(text, bench.file("b.opb"), bench.file("b.cnf"))}
        runs = timing.side_by_side({name: words for name, words in commands.items() if words}, bench.runs)
        self.encode, self.c, self.minisat_plus = (runs.get(name) for name in commands)
        if not timing.size(bench.file("b.cnf")):
            self.minisat_plus = None
        if self.encode.is_done() and self.c and self.c.is_done() and not filecmp.cmp(cnf, other, shallow=False):
            self.faults.append("%s: the C program writes another CNF" % self.name)

    def measure_copy(self, bench):
        words = bench.peer("copy", bench.file("a.opb"), bench.file("a.cnf"), bench.file("copy"))
        if words:
            self.copy = timing.side_by_side({"copy": words}, bench.runs)["copy"]

    def measure_derivation(self, bench):
        files = [bench.file(name) for name in ("a.opb", "a.cnf", "a.proof")]
        self.derive = timing.side_by_side({"": [bench.program, "encode", *files]}, bench.runs)[""]
        self.proof = timing.size(files[-1])
        if self.derive.is_done():
            words = [bench.program, "check", *files]
            self.check = timing.side_by_side({"": words}, bench.runs)[""]
            self.check_memory = timing.memory_of_long(self.check, words)
            if self.check.status:
                self.faults.append("%s: the derivation is not accepted" % self.name)

    def row(self):
        check, memory = "-", "-"
        if self.check:
            check = "not accepted" if self.check.status else report.time(report.time_of(self.check))
            memory = report.memory(self.check_memory)
        own, c, minisat_plus, copy, derive = map(report.time_of, (self.encode, self.c, self.minisat_plus, self.copy, self.derive))
        return [self.name, report.count_of_bytes(self.opb), report.count_of_bytes(self.cnf), report.time(own), report.memory(self.memory),
                report.time(c), report.ratio(own, c), report.time(minisat_plus), report.ratio(own, minisat_plus), report.time(copy),
                report.time(derive), report.count_of_bytes(self.proof), check, memory]


def points(measured, across, upwards):
    """A point for each problem of which both were measured."""
    found = ((across(one), upwards(one), one.name) for one in measured)
    return [point for point in found if point[0] and point[1]]


def drawn(measured):
    """The plots by the names of their files, with slopes."""
    def series(across, *named):
        return plots.with_slopes([(name, points(measured, across, lambda one: report.time_of(run(one)))) for name, run in named])
    across, seconds = ("bytes of the CNF that pbcnf writes", "B"), ("processor time", "s")
    return {
        "time.svg": plots.plot("Time to encode", across, seconds, series(
            lambda one: one.cnf, ("encode", lambda one: one.encode), ("C", lambda one: one.c),
            ("MiniSat+", lambda one: one.minisat_plus), ("a plain copy", lambda one: one.copy))),
        "derivation.svg": plots.plot("Time to derive and to check", ("bytes of the derivation", "B"), seconds, series(
            lambda one: one.proof, ("with PROOF", lambda one: one.derive), ("check", lambda one: one.check))),
    }


def section(bench):
    measured = []
    for size in bench.sizes:
        for name, make in instances.SIZES[size].items():
            measured.append(Measures(name, make(), bench))
            sys.stderr.write(report.row(measured[-1].row()))
    text = report.table(HEAD, (one.row() for one in measured))
    return report.Section(text, drawn(measured), [fault for one in measured for fault in one.faults])
