"""pbcnf-solve and pbcnf-minimize as processes, over the program that PBCNF names and a solver of the tests: what they print, their
statuses, and what is left, also at signals and limits.

The values of the problems are those that a search through all assignments finds, in this file.
"""

import gzip
import itertools
import os
import shutil
import signal
import stat
import subprocess
import sys
import tempfile
import time
import unittest
import unittest.mock

HERE = os.path.dirname(os.path.realpath(__file__))
sys.path.insert(0, os.path.dirname(HERE))

from pbcnf.tools import answers  # noqa: E402
from pbcnf.tools.statuses import Stop  # noqa: E402

TOP = os.path.dirname(os.path.dirname(os.path.dirname(HERE)))
GUARDS = os.path.join(TOP, "examples", "guards.opb")
PIGEONS = os.path.join(TOP, "examples", "pigeons.opb")
STARS = "min: +3 a +2 ~b +4 c -1 d ;\n+1 a +1 b +1 c >= 2 ;\n+2 a +1 b +1 d >= 2 ;\n+1 ~a +1 ~d >= 1 ;\n"
# Its optimum is known by no sum of statements.
CYCLE = "min: +3 a +2 b +4 c +3 d +2 e ;\n+1 a +1 b >= 1 ;\n+1 b +1 c >= 1 ;\n+1 c +1 d >= 1 ;\n+1 d +1 e >= 1 ;\n+1 e +1 a >= 1 ;\n"
# An optimizer that finds the best solution of STARS. Then just that is asked, which this solver never answers.
BEST = ("echo v 1 2 -3 -4 0; echo o 5; echo s OPTIMUM FOUND",)
SLOW = "case \" $* \" in *' -c '* | *'cnf.1 '*) ;; *' --help '*) ;; *) exec sleep 900 ;; esac"
# Two of three are taken, and at most one.
NONE = "min: +1 x1 ;\n+1 x1 +1 x2 +1 x3 >= 2 ;\n+1 x1 +1 x2 +1 x3 <= 1 ;\n"


def cheapest(text):
    """The least value of the objective over all assignments that satisfy the statements; None where there are none."""
    statements = [part.split() for part in text.replace("min:", "min: ").split(";") if part.strip()]
    objective = statements.pop(0)[1:]
    names = sorted({word.lstrip("~") for words in [objective] + statements for word in words if word.lstrip("~")[0].isalpha()})

    def total(words, values):
        return sum(int(words[i]) * (values[words[i + 1].lstrip("~")] != words[i + 1].startswith("~")) for i in range(0, len(words), 2))

    def holds(words, values):
        left, right = total(words[:-2], values), int(words[-1])
        return left >= right if words[-2] == ">=" else left <= right

    all_values = (dict(zip(names, taken)) for taken in itertools.product((0, 1), repeat=len(names)))
    return min((total(objective, values) for values in all_values if all(holds(words, values) for words in statements)), default=None)


class Commands(unittest.TestCase):
    def setUp(self):
        if not os.environ.get("PBCNF"):
            self.skipTest("PBCNF names no program")
        temporary = tempfile.TemporaryDirectory()
        self.addCleanup(temporary.cleanup)
        self.folder = temporary.name
        for name in ("bin", "tmp"):
            os.mkdir(os.path.join(self.folder, name))
        self.calls = os.path.join(self.folder, "calls")
        self.make_stub("cadical")
        self.make_script("clasp", "exit 65")
        self.make_script("cryptominisat5", "exit 65")
        self.environment = dict(os.environ, TMPDIR=self.path("tmp"), STUB_CALLS=self.calls, PATH=self.path("bin") + os.pathsep + os.environ["PATH"],
                                PYTHONPATH=os.path.join(TOP, "library", "python"), PYTHONDONTWRITEBYTECODE="1")
        self.environment.pop("SOLVER", None)

    def tearDown(self):
        self.assertEqual(os.listdir(self.path("tmp")), [], "what is left among the temporary files")

    def path(self, name):
        return os.path.join(self.folder, name)

    def put(self, name, content):
        with open(self.path(name), "wb") as file:
            file.write(content if isinstance(content, bytes) else content.encode())
        return self.path(name)

    def make_stub(self, name, *lines):
        """The solver of the tests, after these lines of a shell."""
        self.make_script(name, *lines, 'exec "%s" -I -S -B "%s" "$@"' % (sys.executable, os.path.join(HERE, "stub_solver.py")))

    def make_script(self, name, *lines):
        """A program that does what these lines of a shell say."""
        script = self.put(os.path.join("bin", name), "\n".join(("#!/bin/sh",) + lines) + "\n")
        os.chmod(script, os.stat(script).st_mode | stat.S_IXUSR)

    def start(self, *words, does=None, since=1):
        environment = dict(self.environment)
        if does:
            environment.update(STUB_DOES=does, STUB_FROM=str(since))
        return subprocess.Popen([sys.executable, "-m", "pbcnf.tools", *words], env=environment, stdin=subprocess.PIPE, stdout=subprocess.PIPE,
                                stderr=subprocess.PIPE, universal_newlines=True)

    def run_tool(self, *words, text="", **chosen):
        """The status and the lines of both streams."""
        child = self.start(*words, **chosen)
        said, told = child.communicate(text, timeout=600)
        return child.returncode, said.splitlines(), told

    def interrupt(self, number, does, since, *words, calls=None):
        """The same of a command that gets a signal once the solver is called for the time at which it does so, or so many times."""
        child = self.start(*words, does=does, since=since)
        child.stdin.close()
        self.wait_for_call(calls or since)
        child.send_signal(number)
        # The solver would go on for a quarter of an hour.
        child.wait(timeout=300)
        said, told = child.stdout.read(), child.stderr.read()
        child.stdout.close()
        child.stderr.close()
        return child.returncode, said.splitlines(), told

    def wait_for_call(self, count):
        ends = time.monotonic() + 300
        while time.monotonic() < ends:
            if os.path.exists(self.calls):
                with open(self.calls) as file:
                    if len(file.readlines()) >= count:
                        return
            time.sleep(0.01)
        self.fail("the solver was not called for the time %d" % count)

    def values_of(self, said):
        return [int(line[2:]) for line in said if line.startswith("o ")]


class Minimizing(Commands):
    def test_optimum(self):
        self.assertEqual(cheapest(STARS), 3)
        status, said, told = self.run_tool("minimize", self.put("stars.opb", STARS))
        self.assertEqual((status, said[-2]), (0, "s OPTIMUM FOUND"))
        values = self.values_of(said)
        self.assertEqual((values, values[-1]), (sorted(set(values), reverse=True), 3))
        taken = dict((word.lstrip("-"), not word.startswith("-")) for word in said[-1].split()[1:])
        self.assertEqual(3 * taken["a"] + 2 * (not taken["b"]) + 4 * taken["c"] - taken["d"], 3)
        self.assertIn("3 <= objective <= 3", told.splitlines()[-1])

    def test_refutation_is_that_of_the_run(self):
        status, said, _ = self.run_tool("minimize", "-q", self.put("stars.opb", STARS))
        with open(self.calls) as file:
            calls = file.readlines()
        # The last run has the bound below the optimum: there is none after it, and a lesser limit before.
        self.assertEqual(status, 0)
        self.assertTrue(all("-c" in call.split() for call in calls[1:]), calls)

    def test_files_for_the_program(self):
        os.mkdir(self.path("kept"))
        opb = self.put("stars.opb", STARS)
        status, _, told = self.run_tool("minimize", "-q", opb, "--keep", self.path("kept"))
        self.assertEqual((status, told), (0, ""))
        files = [self.path("kept/refuted." + kind) for kind in ("cnf", "proof", "lrat")]
        for bound, wanted in (("--at-most=2", 0), ("--at-most=3", 7)):
            ended = subprocess.run([os.environ["PBCNF"], "refute", opb, *files, bound], stdout=subprocess.DEVNULL, stderr=subprocess.DEVNULL, check=False)
            self.assertEqual(ended.returncode, wanted)
        self.assertEqual(self.run_tool("minimize", "-q", opb, "--keep", self.path("missing"))[0], 5)

    def test_no_solution(self):
        self.assertIsNone(cheapest(NONE))
        self.assertEqual(self.run_tool("minimize", "-q", self.put("none.opb", NONE)), (20, ["s UNSATISFIABLE"], ""))

    def test_no_objective(self):
        status, said, told = self.run_tool("minimize", "-q", "-", text="+1 x1 +1 x2 >= 2 ;\n")
        self.assertEqual((status, said), (65, ["s SATISFIABLE", "v x1 x2"]))
        self.assertEqual(told, "pbcnf-minimize: there is no objective\n")

    def test_least_value_of_the_sum(self):
        text = "min: +1 x1 +1 x2 -5 x3 ;\n+1 x1 +1 x3 >= 1 ;\n"
        status, said, _ = self.run_tool("minimize", "-q", "-", text=text)
        self.assertEqual((status, said[-3:]), (0, ["o %d" % cheapest(text), "s OPTIMUM FOUND", "v -x1 -x2 x3"]))

    def test_large_weights(self):
        large = 2 ** 90
        text = "min: +%d x1 +%d x2 ;\n+1 x1 +1 x2 >= 1 ;\n" % (large + 1, large)
        status, said, _ = self.run_tool("minimize", "-q", "-", text=text)
        self.assertEqual((status, said[-3:]), (0, ["o %d" % large, "s OPTIMUM FOUND", "v -x1 x2"]))

    def test_options_of_encode(self):
        for option in ("--general=tree", "--general=adder", "--card=totalizer", "--amo=product", "--equal=joint", "--budget=1"):
            status, said, _ = self.run_tool("minimize", "-q", self.put("stars.opb", STARS), option)
            self.assertEqual((status, self.values_of(said)[-1]), (0, 3), option)

    def test_encodings(self):
        sizes = {}
        for words in ("--encoding=auto", "--encoding=plain", "--general=diagram", "--general=tree"):
            status, said, told = self.run_tool("minimize", self.put("stars.opb", STARS), "--jobs=1", words)
            self.assertEqual((status, self.values_of(said)[-1], said[-2]), (0, 3, "s OPTIMUM FOUND"), words)
            sizes[words] = [line.partition("; ")[2] for line in told.splitlines()]
        self.assertEqual(sizes["--general=diagram"], sizes["--encoding=plain"])
        self.assertNotEqual(sizes["--general=tree"], sizes["--general=diagram"])
        self.assertIn(sizes["--encoding=auto"], (sizes["--general=tree"], sizes["--general=diagram"]))

    def test_signals(self):
        for number in (signal.SIGHUP, signal.SIGINT, signal.SIGTERM):
            for does in ("hang", "stubborn") if number == signal.SIGTERM else ("hang",):
                if os.path.exists(self.calls):
                    os.unlink(self.calls)
                status, said, told = self.interrupt(number, does, 2, "minimize", self.put("stars.opb", STARS))
                self.assertEqual((status, said[-2]), (75, "s SATISFIABLE"))
                self.assertEqual(len(self.values_of(said)), 1)
                self.assertIn("the signal %s" % number.name, told)

    def test_signal_before_a_solution(self):
        status, said, _ = self.interrupt(signal.SIGINT, "hang", 1, "minimize", "-q", self.put("stars.opb", STARS))
        self.assertEqual((status, said), (75, ["s UNKNOWN"]))

    def test_limit_of_time(self):
        # A machine that does much else may take a while to find the first solution.
        for seconds in ("3", "30", "300"):
            status, said, told = self.run_tool("minimize", "-q", self.put("stars.opb", STARS), "--seconds", seconds, does="hang", since=2)
            self.assertEqual((status, told), (75, "pbcnf-minimize: the time is over\n"))
            os.unlink(self.calls)
            if said != ["s UNKNOWN"]:
                break
        self.assertEqual(said[-2], "s SATISFIABLE")
        self.assertEqual(self.run_tool("minimize", "-q", self.put("stars.opb", STARS), "--seconds=0.5", does="hang")[:2], (75, ["s UNKNOWN"]))

    def test_lies_are_not_believed(self):
        # What the solver says has a refutation that is none.
        status, said, _ = self.run_tool("minimize", "-q", self.put("stars.opb", STARS), does="lie", since=2)
        self.assertEqual((status, said[-2]), (10, "s SATISFIABLE"))
        os.unlink(self.calls)
        status, said, _ = self.run_tool("minimize", "-q", self.put("stars.opb", STARS), does="lie")
        self.assertEqual((status, said), (10, []))

    def test_solver_that_fails(self):
        for since, wanted in ((1, []), (2, ["s SATISFIABLE"])):
            if os.path.exists(self.calls):
                os.unlink(self.calls)
            status, said, told = self.run_tool("minimize", "-q", self.put("stars.opb", STARS), does="crash", since=since)
            self.assertEqual((status, [line for line in said if line[0] == "s"]), (9, wanted))
            self.assertIn("cadical ended with status 3", told)

    def test_undecided_steps_go_on(self):
        # The one of both that looks from above halves twice before it asks for more.
        status, said, _ = self.interrupt(signal.SIGINT, "give-up", 2, "minimize", self.put("cycle.opb", CYCLE), calls=12)
        self.assertEqual((status, said[-2]), (75, "s SATISFIABLE"))
        with open(self.calls) as file:
            limits = [call.split()[call.split().index("-c") + 1] for call in file if "-c" in call.split()]
        self.assertGreater(int(limits[-1]), int(limits[0]), "the limit of conflicts has not grown")

    def test_solver_without_reasons(self):
        self.make_stub("other")
        # One more run, of CaDiCaL, has it refuted.
        status, said, told = self.run_tool("minimize", "-q", self.put("stars.opb", STARS), "--solver", "other -q")
        self.assertEqual((status, self.values_of(said)[-1], said[-2], told), (0, 3, "s OPTIMUM FOUND", ""))
        self.assertEqual(self.run_tool("minimize", "-q", self.put("none.opb", NONE), "--solver", "other -q"), (20, ["s UNSATISFIABLE"], ""))
        # Where there is none, the search over the constraints has it refuted.
        os.unlink(self.path("bin/cadical"))
        self.environment["PATH"] = self.path("bin")
        status, said, told = self.run_tool("minimize", self.path("stars.opb"), "--solver", "other -q")
        self.assertEqual((status, self.values_of(said)[-1], said[-2]), (0, 3, "s OPTIMUM FOUND"))
        self.assertIn("pbcnf-minimize: other gives no reasons", told)
        # And where it takes no part, as of a text so long, and of the question whether there is a solution at all, nothing is.
        long = self.put("long.opb", STARS + "*" * 2000000)
        status, said, _ = self.run_tool("minimize", long, "--solver", "other -q")
        self.assertEqual((status, self.values_of(said)[-1], said[-2]), (75, 3, "s SATISFIABLE"))
        status, said, _ = self.run_tool("minimize", self.path("none.opb"), "--solver", "other -q")
        self.assertEqual((status, said), (75, ["s UNKNOWN"]))

    def test_what_solvers_say_beside(self):
        self.make_stub("clasp", "echo terminate called >&2")
        self.make_script("minisat", "echo WARNING >&2", "printf 'SAT\\n1 2 -3 -4 0\\n' >\"$2\"")
        for name in ("clasp", "minisat"):
            status, said, told = self.run_tool("solve", self.put("stars.opb", STARS), "--solver", name)
            self.assertEqual((status, said[-2:-1], told), (0, ["s SATISFIABLE"], ""), name)

    def test_optimizer(self):
        """One that finds the best solution, one that says too early that it is the best, ones that lie, fail and never end."""
        opb = self.put("stars.opb", STARS)
        best, other = "-1 -2 3 4 0", "1 -2 3 -4 0"
        for lines in (("echo v %s; echo o 5; echo v %s; echo o 2; echo s OPTIMUM FOUND" % (other, best),), ("echo v %s; echo o 5; echo s OPTIMUM FOUND" % other,),
                      ("echo v 1 2 3 4 0; echo o 0; exec sleep 900",), ("echo s OPTIMUM FOUND",), ("echo v 1", "exit 3"), ("exec sleep 900",),
                      ("exec >&-; exec sleep 900",)):
            self.make_script("clasp", *lines)
            status, said, _ = self.run_tool("minimize", "-q", opb, "--jobs=2")
            self.assertEqual((status, self.values_of(said)[-1], said[-2]), (0, 3, "s OPTIMUM FOUND"), lines)

    def test_optimizer_that_is_there(self):
        os.unlink(self.path("bin/clasp"))
        if not shutil.which("clasp"):
            self.skipTest("there is no clasp")
        for name, least in (("guards", 20), ("weights", 7)):
            status, said, _ = self.run_tool("minimize", "-q", os.path.join(TOP, "examples", name + ".opb"), "--jobs=2", "--seconds=600", "--unproved")
            self.assertEqual((self.values_of(said)[-1], said[-2]), (least, "s SATISFIABLE"))

    def test_unproved(self):
        status, said, told = self.run_tool("minimize", "-q", self.put("stars.opb", STARS), "--unproved")
        self.assertEqual((status, self.values_of(said)[-1], said[-2]), (75, 3, "s SATISFIABLE"))
        self.assertEqual(told, "pbcnf-minimize: cadical finds nothing better, and gives no reasons that would refute it\n")
        with open(self.calls) as calls:
            self.assertNotIn("--lrat", calls.read())
        self.assertEqual(self.run_tool("minimize", "-q", self.put("none.opb", NONE), "--unproved")[:2], (75, ["s UNKNOWN"]))

    def test_reasons_in_drat(self):
        self.environment["STUB_FORMAT"] = "drat"
        status, said, told = self.run_tool("minimize", "-q", self.put("stars.opb", STARS))
        self.assertEqual((status, self.values_of(said)[-1], said[-2], told), (0, 3, "s OPTIMUM FOUND", ""))
        self.assertEqual(self.run_tool("minimize", "-q", self.put("none.opb", NONE)), (20, ["s UNSATISFIABLE"], ""))
        self.assertEqual(self.run_tool("solve", self.path("none.opb")), (20, ["s UNSATISFIABLE"], ""))

    def test_rival(self):
        """Another solver whose reasons have hints, beside one that never ends, ends first or fails; one that fails itself, and one that lies."""
        self.environment["STUB_FORMAT"] = "drat"
        # The search over constraints does not take so long a text.
        opb = self.put("stars.opb", STARS + "*" * 2000000)
        self.make_script("clasp", *BEST)
        frat = "export STUB_FORMAT=frat"
        helps = "case $1 in --help) echo '[frat-trim-file]'; exit ;; esac"
        for rival, prover in (((frat,), (SLOW,)), ((frat, helps, "sleep 0.5"), ()), ((helps, "exit 3"), ()), ((helps, "echo s UNSATISFIABLE"), ()),
                              ((helps, "exec sleep 900"), ()), ((frat,), ())):
            self.make_stub("cadical", *prover)
            self.make_stub("cryptominisat5", *rival)
            status, said, told = self.run_tool("minimize", "-q", opb, "--jobs=2")
            self.assertEqual((status, self.values_of(said)[-1], said[-2], told), (0, 3, "s OPTIMUM FOUND", ""), rival)

    def test_search_over_constraints(self):
        """It has the end refuted where the solver never ends, as it is kept, and looks for better solutions where clasp does not take the weights."""
        self.make_stub("cadical", SLOW)
        self.make_script("clasp", *BEST)
        os.mkdir(self.path("kept"))
        opb = self.put("stars.opb", STARS)
        status, said, told = self.run_tool("minimize", "-q", opb, "--jobs=2", "--keep", self.path("kept"))
        self.assertEqual((status, self.values_of(said)[-1], said[-2], told), (0, 3, "s OPTIMUM FOUND", ""))
        with open(self.path("kept/refuted.cnf")) as cnf:
            self.assertEqual(cnf.read(), "p cnf 4 1\n0\n")
        files = [self.path("kept/" + name) for name in ("best.model", "refuted.cnf", "refuted.proof", "refuted.lrat")]
        run = subprocess.run([os.environ["PBCNF"], "optimum", opb, *files], stdout=subprocess.PIPE, universal_newlines=True, check=True)
        self.assertEqual(run.stdout.splitlines(), ["o 3", *said[-2:]])
        # An optimizer has said too early that nothing is better.
        self.make_script("clasp", "echo v 1 -2 3 -4 0; echo o 5; echo s OPTIMUM FOUND")
        status, said, told = self.run_tool("minimize", "-q", opb, "--jobs=2")
        self.assertEqual((status, self.values_of(said)[-1], said[-2]), (0, 3, "s OPTIMUM FOUND"))
        self.make_script("clasp", *BEST)
        # Where the program refuses what it derived, the solver has to.
        self.make_stub("cadical", SLOW.replace("exec sleep 900", "sleep 2"))
        self.make_script("refusing", "[ $1 != optimum ] || ! grep -q ' 1$' \"$4\" || exit 7", 'exec "%s" "$@"' % os.environ["PBCNF"])
        with unittest.mock.patch.dict(self.environment, PBCNF=self.path("bin/refusing")):
            status, said, told = self.run_tool("minimize", "-q", opb, "--jobs=2")
            self.assertEqual((status, self.values_of(said)[-1], said[-2], told), (0, 3, "s OPTIMUM FOUND", ""))
        self.make_stub("cadical", SLOW)
        heavy = self.put("heavy.opb", STARS.replace("+4 c", "+4000000000000 c"))
        status, said, told = self.run_tool("minimize", "-q", heavy, "--jobs=2")
        self.assertEqual((status, self.values_of(said)[-1], said[-2], told), (0, 3, "s OPTIMUM FOUND", ""))

    def test_rival_as_prover(self):
        os.unlink(self.path("bin/cadical"))
        self.make_stub("other")
        self.make_stub("cryptominisat5", "export STUB_FORMAT=frat")
        for name in ("sh", "env"):
            os.symlink(shutil.which(name), self.path("bin/" + name))
        self.environment["PATH"] = self.path("bin")
        status, said, told = self.run_tool("minimize", "-q", self.put("stars.opb", STARS), "--solver", "other -q")
        self.assertEqual((status, self.values_of(said)[-1], said[-2], told), (0, 3, "s OPTIMUM FOUND", ""))

    def test_jobs(self):
        for jobs in ("1", "4"):
            status, said, _ = self.run_tool("minimize", "-q", self.put("stars.opb", STARS), "--jobs", jobs)
            self.assertEqual((status, self.values_of(said)[-1], said[-2]), (0, 3, "s OPTIMUM FOUND"), jobs)
        self.assertEqual(self.run_tool("minimize", self.path("stars.opb"), "--jobs=0")[:2], (2, []))

    def test_closed_output(self):
        child = self.start("minimize", "-q", self.put("stars.opb", STARS))
        child.stdout.close()
        self.assertEqual(child.wait(timeout=300), 5)
        child.stdin.close()
        child.stderr.close()
        with open("/dev/full", "w") as full:
            ended = subprocess.run([sys.executable, "-m", "pbcnf.tools", "minimize", "-q", self.path("stars.opb")], env=self.environment, stdout=full,
                                   stderr=subprocess.DEVNULL, stdin=subprocess.DEVNULL, check=False)
        self.assertEqual(ended.returncode, 5)

    def test_cut_text(self):
        text = "* #variable= 3 #constraint= 4\n" + NONE.replace("x2 +1 x3 >= 2", "x2 >= 1")
        status, _, told = self.run_tool("minimize", "-q", "-", text=text)
        self.assertEqual(status, 0)
        self.assertIn("the first line says 4 constraints, and the text has 2", told)


class Asking(Commands):
    """The answers for programs."""

    def test_answers(self):
        with unittest.mock.patch.dict(os.environ, self.environment, clear=True):
            self.assertEqual(answers.best(STARS), ({"a": False, "b": True, "c": True, "d": True}, 3, True))
            self.assertEqual(answers.best(STARS, "--unproved")[1:], (3, False))
            self.assertEqual(answers.best(">= 0 ; +1 a >= 1 ;"), ({"a": True}, None, False))
            self.assertEqual(answers.solution("+1 a +1 ~b >= 2 ;"), ({"a": True, "b": False}, None, False))
            self.assertIsNone(answers.best(NONE))
            self.assertIsNone(answers.solution(NONE))
            for text, words, status in (("a >= 1 ;", (), 1), (NONE, ("--general=none",), 2), (STARS, ("--solver=no-such-solver",), 69)):
                with self.assertRaises(Stop) as raised:
                    answers.best(text, *words)
                self.assertEqual(raised.exception.status, status)
            # That there is none, by a solver's word, is no answer.
            with self.assertRaises(Stop):
                answers.best(NONE, "--unproved")


class Solving(Commands):
    def test_solution(self):
        status, said, told = self.run_tool("solve", GUARDS, "--at-most=20")
        self.assertEqual((status, said[:2], told), (0, ["o 20", "s SATISFIABLE"], ""))
        self.assertEqual(self.run_tool("solve", GUARDS, "--at-most=19"), (20, ["s UNSATISFIABLE"], ""))
        self.assertEqual(self.run_tool("solve", PIGEONS), (20, ["s UNSATISFIABLE"], ""))

    def test_packed_and_standard_input(self):
        text = "+1 ~x1 +1 x2 >= 2 ;\n"
        path = self.put("a.opb.gz", gzip.compress(text.encode()))
        for word in (path, "-"):
            self.assertEqual(self.run_tool("solve", word, text=text), (0, ["s SATISFIABLE", "v -x1 x2"], ""))

    def test_words(self):
        kept = self.put("kept", "this is kept")
        for words in ((), (GUARDS, kept), (GUARDS, "--general=none"), (GUARDS, "--seconds=0"), (GUARDS, "--at-most=-5"), (GUARDS, "--gen=tree")):
            self.assertEqual(self.run_tool("solve", *words)[:2], (2, []), words)
        self.assertEqual(self.run_tool("minimize", GUARDS, "--at-most=20")[:2], (2, []))
        for words, why in (((GUARDS, kept), kept + ": nothing but options may follow the OPB file"),
                           (("--generel", "tree", GUARDS), "there is no option --generel; --general is one"),
                           ((GUARDS, "--frobnicate"), "there is no option --frobnicate; --help lists them"),
                           ((GUARDS, "--budget=0"), "argument --budget: 0 is not from 1 to 10,000,000"),
                           ((GUARDS, "--at-most=%d" % 2**100), "argument --at-most: %d is not below 2^100" % 2**100)):
            self.assertTrue(self.run_tool("solve", *words)[2].endswith("pbcnf-solve: error: %s\n" % why), words)
        self.assertTrue(self.run_tool("minimize", GUARDS, "--at-most=20")[2].endswith("--at-most: pbcnf-minimize chooses the bounds itself\n"))
        with open(kept) as file:
            self.assertEqual(file.read(), "this is kept")
        for command in ("solve", "minimize"):
            status, said, _ = self.run_tool(command, "--help")
            self.assertEqual((status, said[0].split()[:2]), (0, ["usage:", "pbcnf-" + command]))
            with open(os.path.join(TOP, "VERSION")) as file:
                self.assertEqual(self.run_tool(command, "--version"), (0, ["pbcnf " + file.read().strip()], ""))
        self.assertEqual(self.run_tool("nothing")[:2], (2, []))

    def test_refused_texts(self):
        lines = "pbcnf: OPB 2:1: expected ;\npbcnf-%s: -: the end of the text is there: no ; at the end of the text, which may be cut off; pbcnf-tidy adds ;\n"
        for command in ("solve", "minimize", "core"):
            self.assertEqual(self.run_tool(command, "-", text="+1 x1 >= 1\n"), (1, [], lines % command))
        status, said, told = self.run_tool("solve", self.path("missing.opb"))
        self.assertEqual((status, said, told), (4, [], "pbcnf-solve: %s: No such file or directory\n" % self.path("missing.opb")))

    def test_tidy(self):
        for command, wanted in (("solve", (0, ["s SATISFIABLE", "v x1 x2"])), ("minimize", (65, ["s SATISFIABLE", "v x1 x2"]))):
            status, said, told = self.run_tool(command, "-", "--tidy", text="x1 + x2 > 1;\n")
            self.assertEqual((status, said), wanted)
            self.assertIn("pbcnf-%s: OPB 1:1: x1 became +1 x1: a term without its coefficient\n" % command, told)
        status, said, told = self.run_tool("minimize", "-q", "--tidy", "-", text="max: 2 x1 + x2; x1 + x2 <= 1;\n")
        self.assertEqual((status, said[-3:]), (0, ["o -2", "s OPTIMUM FOUND", "v x1 -x2"]))
        self.assertEqual(self.run_tool("core", "--tidy", "-", text="x1 >= 1; x2 >= 1; x1 + x2 <= 1;\n")[1][-1], "refuted")
        self.assertEqual(self.run_tool("solve", "--tidy", "-", text="x1-x2 >= 1;\n")[:2], (1, []))

    def test_many_solutions(self):
        text = "min: +1 x1 -1 x2 ;\n+1 x1 +1 x2 >= 1 ;\n+1 x2 +1 x3 >= 2 ; * no line ends here"
        status, said, told = self.run_tool("solve", "-", "--all", text=text)
        self.assertEqual((status, said[-1], told), (0, "c 2, and no other, which is refuted", ""))
        self.assertEqual(sorted(line for line in said if line[0] == "v"), ["v -x1 x2 x3", "v x1 x2 x3"])
        self.assertEqual(sorted(self.values_of(said)), [-1, 0])
        self.assertEqual(len([line for line in self.run_tool("solve", "-", "--count=1", text=text)[1] if line[0] == "v"]), 1)
        status, said, _ = self.run_tool("solve", "-", "--count=9", "--unproved", "--at-most-minus=1", text=text)
        self.assertEqual((status, said), (0, ["o -1", "s SATISFIABLE", "v -x1 x2 x3", "c 1, and no other, by the word of cadical"]))
        # All four of two free variables, by names; the one solution of no variables; and none.
        self.assertEqual(len([line for line in self.run_tool("solve", "-", "--all", text=">= 0 ; +1 rain +1 sun >= 0 ;")[1] if line[0] == "v"]), 4)
        self.assertEqual(self.run_tool("solve", "-", "--all", text=">= 0 ;")[:2], (0, ["s SATISFIABLE", "v", "c 1, and no other, which is refuted"]))
        self.assertEqual(self.run_tool("solve", "-", "--all", text=NONE), (20, ["s UNSATISFIABLE"], ""))
        for words in (("--count=0",), ("--count=2", "--all")):
            self.assertEqual(self.run_tool("solve", "-", *words, text=text)[:2], (2, []))

    def test_lies_are_not_believed(self):
        # That there is none is refuted, unless that is not asked for.
        self.assertEqual(self.run_tool("solve", GUARDS, does="lie")[:2], (10, []))
        os.unlink(self.calls)
        self.assertEqual(self.run_tool("solve", GUARDS, "--unproved", does="lie")[:2], (20, ["s UNSATISFIABLE"]))

    def test_missing_programs(self):
        self.assertEqual(self.run_tool("solve", GUARDS, "--solver=no-such-solver")[:2], (69, []))
        self.environment["SOLVER"] = "no-such-solver"
        self.assertEqual(self.run_tool("solve", GUARDS)[:2], (69, []))
        self.assertEqual(self.run_tool("solve", GUARDS, "--at-most=20", "--solver=cadical")[0], 0)
        del self.environment["SOLVER"]
        self.environment["PBCNF"] = self.path("no-such-program")
        self.assertEqual(self.run_tool("solve", GUARDS)[:2], (69, []))

    def test_no_folder(self):
        # Python takes another folder for temporary files where that of TMPDIR is none, so that no folder at all is to be had.
        words = "import tempfile, sys; tempfile.mkdtemp = lambda **names: open('/missing/folder'); from pbcnf.tools import solve; sys.exit(solve.main(sys.argv[1:]))"
        ended = subprocess.run([sys.executable, "-c", words, GUARDS], env=self.environment, stdin=subprocess.DEVNULL, stdout=subprocess.PIPE,
                               stderr=subprocess.DEVNULL, check=False)
        self.assertEqual((ended.returncode, ended.stdout), (73, b""))

    def test_solver_without_an_answer(self):
        for does in ("crash", "give-up"):
            if os.path.exists(self.calls):
                os.unlink(self.calls)
            status, said, told = self.run_tool("solve", GUARDS, does=does)
            self.assertEqual((status, said), (9, []))
            self.assertIn("cadical ended with status %d" % (3 if does == "crash" else 0), told)

    def test_signals_and_time(self):
        self.assertEqual(self.run_tool("solve", GUARDS, "--seconds=0.5", does="hang")[:2], (75, ["s UNKNOWN"]))
        for number, wanted in ((signal.SIGHUP, 129), (signal.SIGINT, 130), (signal.SIGTERM, 143)):
            if os.path.exists(self.calls):
                os.unlink(self.calls)
            self.assertEqual(self.interrupt(number, "stubborn", 1, "solve", GUARDS), (wanted, [], ""))


if __name__ == "__main__":
    unittest.main()
