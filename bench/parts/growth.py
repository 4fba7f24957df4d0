"""How the time of encode grows with problems of one kind."""

import sys

import instances
import plots
import report
import timing

HEAD = ["kind", "sizes", "bytes read and written", "pbcnf", "its exponent", "C", "its exponent"]


class Kind:
    """The times of a kind's problems over the bytes that are read and written."""

    def __init__(self, bench, name, sizes):
        self.name, self.sizes, self.own, self.c = name, list(sizes), [], []
        opb, cnf, other = bench.file("a.opb"), bench.file("a.cnf"), bench.file("other.cnf")
        for size, make in sizes.items():
            with open(opb, "w") as file:
                file.write(make().text())
            commands = {"own": [bench.program, "encode", opb, cnf], "C": bench.peer("encode", opb, other)}
            runs = timing.side_by_side({name: words for name, words in commands.items() if words}, bench.runs)
            for points, run in ((self.own, runs["own"]), (self.c, runs.get("C"))):
                if report.time_of(run):
                    points.append((timing.size(opb) + timing.size(cnf), run.seconds, "%s %s" % (name, size)))

    def cells(self):
        def times(points):
            return ", ".join(report.time(point[1]) for point in points) or "-"
        def exponent(points):
            return report.digits(plots.slope(points)) if len(points) > 1 else "-"
        return [self.name, ", ".join(self.sizes), ", ".join(report.count_of_bytes(point[0]) for point in self.own),
                times(self.own), exponent(self.own), times(self.c), exponent(self.c)]


def section(bench):
    kinds = []
    for name, sizes in instances.GROWING.items():
        kinds.append(Kind(bench, name, dict(bench.few(sizes.items()))))
        sys.stderr.write(report.row(kinds[-1].cells()))
    plot = plots.plot("Time to encode, by kinds", ("bytes read and written", "B"), ("processor time", "s"),
                      plots.with_slopes([(kind.name, kind.own) for kind in kinds]))
    faults = ["encode of %s did not end well" % kind.name for kind in kinds if len(kind.own) < len(kind.sizes)]
    return report.Section(report.table(HEAD, (kind.cells() for kind in kinds)), {"growth.svg": plot}, faults)
