"""pbcnf-veripb over what the program and a solver make: each proof that it prints is accepted by the checker beside this file, and
says what trying all assignments says. PBCNF names the program, TOP the repository's top; CaDiCaL is on the path."""

from __future__ import annotations

import functools
import os
import subprocess
import sys
import tempfile
import unittest
from pathlib import Path
from typing import List, Optional, Tuple

PACKAGE = str(Path(__file__).resolve().parents[1])
sys.path.insert(0, PACKAGE)
os.environ["PYTHONPATH"] = PACKAGE

from pbcnf.tools.hints import lrat_lines  # noqa: E402
from veripb_cases import Problem, has_solution, pigeons, problems, text_of, total  # noqa: E402
from veripb_checker import Verdict, Wrong, check  # noqa: E402
from veripb_constraints import normal  # noqa: E402

TOP = Path(os.environ.get("TOP", Path(__file__).resolve().parents[3]))
PBCNF = os.environ.get("PBCNF", str(TOP / "pbcnf"))
VERIPB = [sys.executable, "-m", "pbcnf.tools", "veripb"]
# The linear ones.
EXAMPLES = ["choice", "colouring", "guards", "knapsack", "lockers", "machines", "pigeons", "rota", "slots", "team", "timetable", "weights"]
OPTIONS = ["", "--amo pairwise", "--amo ladder --card counter --general diagram", "--amo product --card totalizer --general tree",
           "--general adder --equal joint", "--budget 1"]

OPB = "+1 a1 +1 a2 >= 1 ;\n+1 ~a1 +1 a2 >= 1 ;\n+1 a1 +1 ~a2 >= 1 ;\n+1 ~a1 +1 ~a2 >= 1 ;\n"
CNF = "p cnf 2 4\n1 2 0\n-1 2 0\n1 -2 0\n-1 -2 0\n"
DERIVATION = "pseudo-Boolean derivation profile 1\nf 4\nout 1\nout 2\nout 3\nout 4\nend\n"
LRAT = "5 2 0 1 2 0\n5 d 1 2 0\n6 0 5 3 4 0\n"


@functools.lru_cache(maxsize=None)
def cadical_options() -> Tuple[str, ...]:
    """With which CaDiCaL writes LRAT, where it can."""
    helps = subprocess.run(["cadical", "--help"], stdout=subprocess.PIPE, encoding="ascii", errors="replace").stdout
    return ("--lrat",) if "--lrat" in helps else ()


class Folder(unittest.TestCase):
    """Each test has a folder of its own."""

    def setUp(self) -> None:
        holder = tempfile.TemporaryDirectory()
        self.addCleanup(holder.cleanup)
        self.folder = Path(holder.name)

    def write(self, name: str, text: str) -> str:
        path = self.folder / name
        path.write_text(text, encoding="ascii")
        return str(path)

    def path(self, name: str) -> str:
        return str(self.folder / name)

    def encode(self, opb: str, options: str = "") -> None:
        words = [PBCNF, "encode", opb, self.path("cnf"), self.path("proof"), *options.split()]
        subprocess.run(words, check=True, stdout=subprocess.DEVNULL)

    def refutation(self) -> str:
        """What CaDiCaL says against the clauses, with hints where it gives none itself."""
        lrat = cadical_options()
        words = ["cadical", "-q", "--no-binary", *lrat, self.path("cnf"), self.path("reasons")]
        self.assertEqual(subprocess.run(words, stdout=subprocess.DEVNULL).returncode, 20)
        if lrat:
            return self.path("reasons")
        return self.write("lrat", "".join(lrat_lines(self.path("cnf"), self.path("reasons"))))

    def printed(self, opb: str, *words: str) -> str:
        return subprocess.run([*VERIPB, opb, self.path("cnf"), self.path("proof"), *words], check=True,
                              stdout=subprocess.PIPE, encoding="ascii").stdout

    def judge(self, opb: str, *words: str) -> Verdict:
        return check(Path(opb).read_text(encoding="ascii"), self.printed(opb, *words))


class Proofs(Folder):
    def test_examples(self) -> None:
        for name in EXAMPLES:
            for options in OPTIONS[2:5]:
                with self.subTest(name, options=options):
                    opb = str(TOP / "examples" / (name + ".opb"))
                    self.encode(opb, options)
                    self.assertEqual(self.judge(opb).conclusion, "NONE")

    def test_small_problems(self) -> None:
        for name, problem in problems().items():
            opb = self.write("opb", text_of(problem))
            solved = has_solution(problem)
            for options in OPTIONS:
                with self.subTest(name, options=options):
                    self.encode(opb, options)
                    self.assertEqual(self.conclusion(opb, solved), "NONE" if solved else "UNSAT")

    def conclusion(self, opb: str, solved: bool) -> str:
        """Hints are checked in the order of the lines; without them all that is live is propagated."""
        lrat = [] if solved else [self.refutation()]
        with_hints = self.judge(opb, "--hints", *lrat)
        self.assertEqual(self.judge(opb, *lrat).conclusion, with_hints.conclusion)
        return with_hints.conclusion

    def test_a_table_of_bounds(self) -> None:
        opb = str(TOP / "examples" / "guards.opb")
        self.encode(opb, "--table")
        self.assertEqual(self.judge(opb).conclusion, "NONE")

    def test_stated_clauses(self) -> None:
        """With --clauses those of the CNF stand among what is derived, in their order, by the names of the problem."""
        opb = str(TOP / "examples" / "timetable.opb")
        self.encode(opb)
        names = {line.split()[0]: line.split()[1] for line in self.names(opb)}
        clauses = [line.split()[:-1] for line in Path(self.path("cnf")).read_text(encoding="ascii").splitlines()[1:]]
        spelled = [[(1, ("~" if word[0] == "-" else "") + names.get(word.lstrip("-"), "x" + word.lstrip("-"))) for word in clause]
                   for clause in clauses]
        live = iter(self.judge(opb, "--clauses", "--hints").live.values())
        for clause in spelled:
            self.assertIn(normal(clause, 1), live)

    def names(self, opb: str) -> List[str]:
        return subprocess.run([PBCNF, "map", opb], check=True, stdout=subprocess.PIPE, encoding="ascii").stdout.splitlines()

    def test_beside_another_problem(self) -> None:
        """A proof that there is no solution is refused beside a problem of as many constraints that has one."""
        self.encode(self.write("opb", text_of(pigeons(4, 3))))
        proof = self.printed(self.path("opb"), self.refutation())
        self.assertEqual(check(text_of(pigeons(4, 3)), proof).conclusion, "UNSAT")
        for place, statement in enumerate(pigeons(4, 3)):
            eased: Problem = pigeons(4, 3)
            eased[place] = total([name for _, name in statement.terms], statement.relation, 0 if statement.relation == ">=" else 2)
            with self.subTest(place), self.assertRaises(Wrong):
                self.assertTrue(has_solution(eased))
                check(text_of(eased), proof)


class Lines(Folder):
    """Which line becomes which, in texts made by hand."""

    def prints(self, due: List[str], *words: str, opb: str = OPB, cnf: str = CNF, proof: str = DERIVATION) -> None:
        self.write("cnf", cnf)
        self.write("proof", proof)
        self.assertEqual(self.printed(self.write("opb", opb), *words).splitlines(), due)

    def test_refutation(self) -> None:
        """Loaded constraints stay, which here are clauses of the CNF themselves."""
        end = ["output NONE", "conclusion UNSAT : 6", "end pseudo-Boolean proof"]
        lrat = self.write("lrat", LRAT)
        self.prints(["pseudo-Boolean proof version 2.0", "f 4", "rup +1 a2 >= 1 ;", "rup >= 1 ;", *end], lrat)
        self.prints(["pseudo-Boolean proof version 2.0", "f 4", "rup +1 a2 >= 1 ; ~ 1 2", "rup >= 1 ; ~ 5 3 4", *end], lrat, "--hints")
        self.prints(["pseudo-Boolean proof version 2.0", "f 4", "rup +1 a1 +1 a2 >= 1 ;", "rup +1 ~a1 +1 a2 >= 1 ;",
                     "rup +1 a1 +1 ~a2 >= 1 ;", "rup +1 ~a1 +1 ~a2 >= 1 ;", "rup +1 a2 >= 1 ;", "del id 5 6", "rup >= 1 ;", "output NONE",
                     "conclusion UNSAT : 10", "end pseudo-Boolean proof"], lrat, "--clauses")

    def test_a_constraint_for_two_clauses(self) -> None:
        """It is gone with the second; what stands after the empty clause is read and not printed."""
        opb, cnf = "+1 a1 +1 a2 >= 2 ;\n+1 ~a1 >= 1 ;\n", "p cnf 2 3\n1 0\n2 0\n-1 0\n"
        proof = "pseudo-Boolean derivation profile 1\nf 2\npol 1\nout 3\nout 3\nout 2\nend\n"
        lrat = self.write("lrat", "4 d 1 0\n4 1 2 0 2 0\n4 d 2 0\n5 0 4 3 0\n5 d 4 0\n6 1 0 5 0\n")
        due = ["pseudo-Boolean proof version 2.0", "f 2", "pol 1", "rup +1 a1 +1 a2 >= 1 ;", "del id 3", "rup >= 1 ;", "output NONE",
               "conclusion UNSAT : 5", "end pseudo-Boolean proof"]
        self.prints(due, lrat, opb=opb, cnf=cnf, proof=proof)

    def test_every_step(self) -> None:
        proof = ("pseudo-Boolean derivation profile 1\n* a comment\n\nf 4\npol 01 2 + ~x1 w 3 * 2 d x2 + s\nrup +1 x1 +0 ~x2 >= -3 ;\n"
                 "red +2 ~x3 1 x1 >= 2 ; x3 -> 0\nred +1 x1 >= 0 ;\ndel 5 6\nout 1\nout 2\nout 3\nout 4\nend\n")
        self.prints(["pseudo-Boolean proof version 2.0", "f 4", "pol 1 2 + a1 w 3 * 2 d a2 + s", "rup +1 a1 +0 ~a2 >= -3 ;",
                     "red +2 ~x3 +1 a1 >= 2 ; x3 -> 0", "rup +1 a1 >= 0 ;", "del id 5 6", "output NONE", "conclusion NONE",
                     "end pseudo-Boolean proof"], cnf=CNF.replace("cnf 2", "cnf 3"), proof=proof)

    def test_names_by_number_come_first(self) -> None:
        opb = "min: +1 rain ;\n+1 rain +1 x3 >= 1 ;\n"
        cnf, proof = "p cnf 5 1\n4 3 0\n", "pseudo-Boolean derivation profile 1\nf 1\nred +1 ~x5 +1 x4 >= 1 ; x5 -> 0\nout 1\nend\n"
        self.prints(["pseudo-Boolean proof version 2.0", "f 1", "red +1 ~x5 +1 rain >= 1 ; x5 -> 0", "output NONE", "conclusion NONE",
                     "end pseudo-Boolean proof"], opb=opb, cnf=cnf, proof=proof)


class Refusals(Folder):
    """Nothing is printed then, and one line says why."""

    def ends(self, status: int, told: str, opb: str = OPB, cnf: str = CNF, proof: str = DERIVATION, lrat: Optional[str] = LRAT,
             options: Tuple[str, ...] = ()) -> None:
        files = [self.write("opb", opb), self.write("cnf", cnf), self.write("proof", proof)]
        files += [] if lrat is None else [self.write("lrat", lrat)]
        run = subprocess.run([*VERIPB, *options, *files], stdout=subprocess.PIPE, stderr=subprocess.PIPE, encoding="ascii")
        self.assertEqual((run.returncode, run.stdout, run.stderr), (status, "", f"pbcnf-veripb: {told}\n"))

    def test_no_counterpart(self) -> None:
        without = "has no counterpart in VeriPB's format"
        self.ends(65, f"OPB 1:7: a product of literals {without}", opb="+1 a1 a2 >= 1 ;\n")
        for name in ("a", "_a", "a-b"):
            self.ends(65, f"OPB 1:4: the name {name} {without}", opb=f"+1 ~{name} >= 0 ;\n")
        self.ends(65, f"OPB 1:4: the name x02, which is x2 here and another variable there, {without}", opb="+1 x02 >= 0 ;\n")
        bounded = DERIVATION.replace("f 4", "f 5")
        self.ends(65, f"PROOF: a bound on the objective {without}, since OPB does not have it", opb="min: +1 a1 ;\n" + OPB, proof=bounded)
        self.ends(1, "PROOF: expected loaded count 4, as OPB has it, and not 5", proof=bounded)

    def test_derivations(self) -> None:
        self.ends(7, "PROOF line 7: clauses left", proof=DERIVATION.replace("out 4\n", "\n"))
        self.ends(7, "PROOF line 7: no clause", proof=DERIVATION.replace("out 4\n", "out 4\nout 4\n"))
        self.ends(7, "PROOF line 3: unknown id 5", proof=DERIVATION.replace("out 1", "out 5"))
        self.ends(7, "PROOF line 7: deletes output 1", proof=DERIVATION.replace("end", "del 1\nend"))
        self.ends(7, "PROOF line 3: unknown variable x3", proof=DERIVATION.replace("out 1", "pol x3\nout 1"))
        self.ends(1, "PROOF 1:27: expected head", proof=DERIVATION.replace("profile 1", "sketch 1"))
        self.ends(1, "PROOF 7:1: expected step word", proof=DERIVATION.replace("end\n", ""))
        self.ends(1, "PROOF 3:1: expected step word", proof=DERIVATION.replace("out 1", "put 1"))

    def test_refutations(self) -> None:
        self.ends(10, "LRAT line 3: no empty clause", lrat=LRAT[:LRAT.index("6 0")])
        self.ends(10, "LRAT line 3: unknown hint 7", lrat=LRAT.replace("5 3 4 0", "5 3 7 0"))
        self.ends(10, "LRAT line 1: old id 4", lrat=LRAT.replace("5 2 0", "4 2 0"))
        self.ends(1, "LRAT 1:7: expected lrat hint", lrat=LRAT.replace("1 2 0", "-1 2 0", 1))
        self.ends(1, "LRAT 1:3: expected lrat literal", lrat=LRAT.replace("5 2 0", "5 3 0"))

    def test_other_texts(self) -> None:
        self.ends(1, "OPB 1:16: expected an integer", opb=OPB.replace(">= 1 ;", ">= ;", 1))
        self.ends(1, "OPB 1:1: expected min:, a statement or the end", opb="maximise\n" + OPB)
        self.ends(1, "OPB 5:1: expected a statement or the end", opb=OPB + "; " + OPB)
        self.ends(1, "OPB 1:14: expected an integer", opb="+1 a1\t +1 a2=" + "9" * 5000 + ";\n")
        self.ends(1, "CNF 3:4: expected clause word", cnf=CNF.replace("-1 2 0", "-1 3 0"))
        self.ends(1, "CNF 6:1: expected clause word", cnf=CNF.replace("cnf 2 4", "cnf 2 5"))

    def test_files(self) -> None:
        words = [*VERIPB, self.path("none"), "cnf", "proof"]
        run = subprocess.run(words, stdout=subprocess.PIPE, stderr=subprocess.PIPE, encoding="ascii")
        self.assertEqual((run.returncode, run.stdout), (4, ""))
        self.assertEqual(run.stderr, f"pbcnf-veripb: {self.path('none')}: No such file or directory\n")
        files = [self.write("opb", OPB), self.write("cnf", CNF), self.write("proof", DERIVATION)]
        with open("/dev/full", "w", encoding="ascii") as full:
            run = subprocess.run([*VERIPB, *files], stdout=full, stderr=subprocess.PIPE, encoding="ascii")
        self.assertEqual((run.returncode, run.stderr), (5, "pbcnf-veripb: standard output: No space left on device\n"))

    def test_no_room_for_the_temporary_file(self) -> None:
        """As many lines as do not fit into what a process may write here, which is a block."""
        proof = DERIVATION.replace("out 1", "rup +1 x1 +1 x2 >= 1 ; 1\n" * 5000 + "out 1")
        files = [self.write("opb", OPB), self.write("cnf", CNF), self.write("proof", proof)]
        run = subprocess.run(["sh", "-c", 'ulimit -f 1; exec "$@"', "sh", *VERIPB, *files], stdout=subprocess.PIPE,
                             stderr=subprocess.PIPE, encoding="ascii")
        told = "pbcnf-veripb: the temporary file could not be made or written: File too large\n"
        self.assertEqual((run.returncode, run.stdout, run.stderr), (73, "", told))

    def test_usage(self) -> None:
        run = subprocess.run([*VERIPB, "opb"], stdout=subprocess.PIPE, stderr=subprocess.PIPE, encoding="ascii")
        self.assertEqual((run.returncode, run.stdout), (2, ""))


if __name__ == "__main__":
    unittest.main()
