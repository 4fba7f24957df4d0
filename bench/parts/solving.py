"""How many conflicts a solver takes on each family's clauses. They are the same wherever the solver is: nothing here is a time."""

import re
import subprocess
import sys

import instances
import report

NEEDS = "cadical"
LIMIT = 50000
FORMS = {
    "default": [], "--general tree": ["--general", "tree"], "--general adder": ["--general", "adder"],
    "--card counter": ["--card", "counter"], "--amo ladder": ["--amo", "ladder"], "--amo pairwise": ["--amo", "pairwise"],
    "--equal joint": ["--equal", "joint"],
}
ANSWERS = {10: "yes", 20: "no"}


class Question:
    """True if a problem has a solution, with its objective at most a bound if there is one, by each form of its clauses."""

    def __init__(self, bench, name, bound, answer):
        self.name, self.bound, self.answer = name, bound, answer
        self.conflicts, self.faults, solved = {}, [], {}
        opb, cnf = bench.file("a.opb"), bench.file("a.cnf")
        for form, options in FORMS.items():
            bounds = [] if bound is None else ["--at-most=%d" % bound]
            subprocess.run([bench.program, "encode", opb, cnf, *options, *bounds], stdout=subprocess.DEVNULL, check=True)
            with open(cnf, "rb") as file:
                clauses = file.read()
            # Forms that have the same clauses are one.
            if clauses not in solved:
                solved[clauses] = self.solve(cnf)
                self.conflicts[form] = solved[clauses]
            elif solved[clauses] != self.conflicts["default"]:
                self.conflicts[form] = solved[clauses]

    def solve(self, cnf):
        """The number of conflicts, or what was wrong."""
        ran = subprocess.run(["cadical", "-n", "-c", str(LIMIT), cnf], stdin=subprocess.DEVNULL, stdout=subprocess.PIPE, text=True)
        if ran.returncode == 0:
            return "past"
        if ANSWERS.get(ran.returncode) != self.answer:
            self.faults.append("%s: the solver ends with %d, and the answer is %s" % (self.name, ran.returncode, self.answer))
        found = re.search(r"^c conflicts: +(\d+)", ran.stdout, re.MULTILINE)
        return int(found.group(1)) if found else 0

    def cells(self):
        shown = ["{:,}".format(value) if isinstance(value, int) else value for value in (self.conflicts.get(form, "") for form in FORMS)]
        return [self.name, "-" if self.bound is None else "%d" % self.bound, self.answer, *shown]


def questions(bench):
    for name, (make, bounds) in bench.few(instances.SOLVED.items()):
        with open(bench.file("a.opb"), "w") as file:
            file.write(make().text())
        for bound, answer in bounds:
            yield Question(bench, name, bound, answer)


def section(bench):
    asked = []
    for question in questions(bench):
        asked.append(question)
        sys.stderr.write(report.row(question.cells()))
    head = ["problem", "objective at most", "solution", *("`%s`" % form if form.startswith("-") else form for form in FORMS)]
    text = report.table(head, (question.cells() for question in asked))
    return report.Section(text, {}, [fault for question in asked for fault in question.faults])
