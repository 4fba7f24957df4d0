"""How long each family's derivations are, over the length of the sum. Nothing here is a time."""

import re
import subprocess
import sys

import instances
import plots
import report
import timing

HEAD = ["family", "constraint", "n", "clauses", "CNF", "derivation", "of the CNF", "bytes a clause", "terms through additions a clause"]


class Length:
    """The lengths of the CNF and of the derivation of one constraint."""

    def __init__(self, bench, family, count):
        self.family, self.count = family, count
        opb, cnf, proof = (bench.file(file) for file in ("a.opb", "a.cnf", "a.proof"))
        with open(opb, "w") as file:
            file.write(family.make(count).text())
        said = run([bench.program, "encode", opb, cnf, proof, *family.options])
        if not said:
            raise SystemExit("bench: encode of %s of %d did not end well" % (family.name, count))
        self.clauses, self.cnf, self.proof = int(found(r"clauses (\d+)", said)), timing.size(cnf), timing.size(proof)
        self.is_of_family = found(r" %s (\d+)" % family.name, said) == "1"
        checked = run(bench.peer("check", opb, cnf, proof)) if bench.c else ""
        self.terms = found(r"terms (\d+)", checked)
        self.is_accepted = run([bench.program, "check", opb, cnf, proof]) == "accepted\n"

    def cells(self):
        return [self.family.name, self.family.says, "{:,}".format(self.count), "{:,}".format(self.clauses), report.count_of_bytes(self.cnf),
                report.count_of_bytes(self.proof), report.digits(self.proof / self.cnf), report.digits(self.bytes_a_clause()),
                report.digits(self.terms_a_clause()) if self.terms else "-"]

    def bytes_a_clause(self):
        return self.proof / self.clauses

    def terms_a_clause(self):
        return int(self.terms) / self.clauses if self.terms else None


def run(words):
    return subprocess.run(words, stdin=subprocess.DEVNULL, stdout=subprocess.PIPE, stderr=subprocess.DEVNULL, text=True).stdout


def found(pattern, text):
    match = re.search(pattern, text)
    return match.group(1) if match else None


def plot_over_length(title, upwards, measured, found):
    """A plot, by families, of a number of each constraint over the length of its sum, with exponents."""
    series = []
    for family in instances.FAMILIES:
        ones = [one for one in measured if one.family is family and found(one)]
        series.append((family.name, [(one.count, found(one), "%s %d" % (family.name, one.count)) for one in ones]))
    return plots.plot(title, ("n, the length of the sum", ""), (upwards, ""), plots.with_slopes(series))


def drawn(measured):
    """The plots by the names of their files."""
    of_bytes = plot_over_length("Bytes of the derivation for each clause", "bytes a clause", measured, Length.bytes_a_clause)
    of_terms = plot_over_length("Terms through additions for each clause", "terms a clause", measured, Length.terms_a_clause)
    return {"derivation-bytes.svg": of_bytes, "derivation-terms.svg": of_terms}


def section(bench):
    measured, faults = [], []
    for family in instances.FAMILIES:
        for count in bench.few(family.counts):
            one = Length(bench, family, count)
            measured.append(one)
            sys.stderr.write(report.row(one.cells()))
            if not one.is_of_family:
                faults.append("%s of %d is encoded by another family" % (family.name, count))
            if not one.is_accepted:
                faults.append("the derivation of %s of %d is not accepted" % (family.name, count))
    return report.Section(report.table(HEAD, (one.cells() for one in measured)), drawn(measured), faults)
