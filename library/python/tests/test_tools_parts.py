"""The parts of pbcnf.tools that need no program: how others are run, files, the order of bounds, what a text makes one doubt."""

import bz2
import gzip
import io
import itertools
import lzma
import os
import random
import signal
import subprocess
import sys
import tempfile
import threading
import time
import unittest
import unittest.mock

PACKAGE = os.path.join(os.path.dirname(os.path.realpath(__file__)), os.pardir)
sys.path.insert(0, PACKAGE)

from pbcnf.tools import encodings, optimizers, progress, search, seekers, sources, values, workspace  # noqa: E402
from pbcnf.tools.program import Solution, Summary, bound_option  # noqa: E402
from pbcnf.tools.solvers import Effort, Verdict  # noqa: E402
from pbcnf.tools.statuses import Stop  # noqa: E402
from pbcnf.tools.watch import Interrupted, Watch  # noqa: E402


class Folder(unittest.TestCase):
    """A test with a folder of its own."""

    def setUp(self):
        self.temporary = tempfile.TemporaryDirectory()
        self.addCleanup(self.temporary.cleanup)
        self.folder = self.temporary.name

    def put(self, name, content):
        path = os.path.join(self.folder, name)
        with open(path, "wb") as file:
            file.write(content)
        return path


class Running(Folder):
    def test_status_of_the_other_program(self):
        with Watch() as watch:
            self.assertEqual(watch.run(["sh", "-c", "exit 20"]), 20)
            self.assertEqual(watch.run(["sh", "-c", "kill -9 $$"]), -9)

    def test_limit_of_one_run(self):
        with Watch() as watch:
            began = time.monotonic()
            self.assertIsNone(watch.run(["sleep", "900"], seconds=0.1))
            self.assertLess(time.monotonic() - began, 300)
            self.assertEqual(watch.run(["true"]), 0)

    def test_ends_in_a_while(self):
        with Watch() as watch:
            quick, slow = watch.start(["true"]), watch.start(["sleep", "900"])
            self.assertTrue(watch.ends_within(quick, 300))
            self.assertFalse(watch.ends_within(slow, 0.05))
            self.assertIs(watch.wait([slow, quick]), quick)
            self.assertEqual(quick.status, 0)

    def test_limit_of_all_runs(self):
        with Watch(0.1) as watch:
            with self.assertRaises(Interrupted) as raised:
                watch.run(["sleep", "900"])
            self.assertIsNone(raised.exception.signal)
            with self.assertRaises(Interrupted):
                watch.run(["true"])

    def test_signals_end_the_program_and_what_it_started(self):
        for number in (signal.SIGHUP, signal.SIGINT, signal.SIGTERM):
            left = os.path.join(self.folder, number.name)
            threading.Thread(target=self.kill_behind, args=(left, number)).start()
            with Watch() as watch, self.assertRaises(Interrupted) as raised:
                # The inner one stays at SIGTERM.
                watch.run(["sh", "-c", "sh -c 'trap \"\" TERM; echo $$ >%s; sleep 900; sleep 900' & wait" % left])
            self.assertEqual(raised.exception.signal, number)
            with open(left) as file:
                pid = int(file.read())
            self.assertTrue(gone(pid), "what the program started still runs")

    def kill_behind(self, file, number):
        """Sends this process a signal once the file is written."""
        while not os.path.exists(file) or not os.path.getsize(file):
            time.sleep(0.01)
        os.kill(os.getpid(), number)

    def test_several_at_once(self):
        with Watch() as watch:
            slow, fast = watch.start(["sleep", "900"]), watch.start(["sh", "-c", "sleep 0.1; exit 3"])
            patient = watch.start(["sleep", "900"], seconds=600)
            self.assertIs(watch.wait([slow, fast, patient]), fast)
            limited = watch.start(["sleep", "900"], seconds=0.5)
            self.assertIs(watch.wait([slow, limited, patient]), limited)
            self.assertEqual((fast.status, limited.status, slow.status), (3, None, None))
            watch.end(limited)
            watch.end_all()
            self.assertTrue(gone(slow.child.pid))
            left = watch.start(["sleep", "900"])
        self.assertTrue(gone(left.child.pid), "what was left at the end still runs")

    def test_handlers_are_as_before(self):
        before = [signal.getsignal(number) for number in (signal.SIGINT, signal.SIGTERM, signal.SIGCHLD)]
        with Watch():
            pass
        self.assertEqual(before, [signal.getsignal(number) for number in (signal.SIGINT, signal.SIGTERM, signal.SIGCHLD)])


def gone(pid):
    """True if a process ends within a minute; a zombie that nobody waits for has ended."""
    for _ in range(3000):
        try:
            with open("/proc/%d/stat" % pid) as file:
                if file.read().rpartition(") ")[2][0] == "Z":
                    return True
        except FileNotFoundError:
            return True
        time.sleep(0.02)
    return False


class Files(Folder):
    def test_workspace_is_gone_whatever_comes(self):
        with self.assertRaises(KeyError):
            with workspace.Workspace() as made:
                made.write("cnf", b"p cnf 0 0\n")
                os.mkdir(made.path("sub"))
                raise KeyError
        self.assertFalse(os.path.exists(made.folder))

    def test_no_room_is_one_cause(self):
        with workspace.Workspace() as made:
            for free, wanted in ((0, 5), (16383, 5), (10 ** 9, 9)):
                with unittest.mock.patch("shutil.disk_usage", return_value=unittest.mock.Mock(free=free)):
                    blamed = made.blame(Stop(9, "no model"))
                self.assertEqual(blamed.status, wanted)
                self.assertEqual("TMPDIR" in blamed.words, wanted == 5)

    def test_put_whole(self):
        source = self.put("source", b"new")
        workspace.put_whole(source, self.put("target", b"old"))
        with open(os.path.join(self.folder, "target"), "rb") as file:
            self.assertEqual(file.read(), b"new")
        with self.assertRaises(Stop) as raised:
            workspace.put_whole(source, os.path.join(self.folder, "missing", "target"))
        self.assertEqual(raised.exception.status, 5)
        self.assertEqual(sorted(os.listdir(self.folder)), ["source", "target"])

    def test_packed_texts(self):
        text = b"+1 x1 >= 1 ;\n"
        for name, pack in (("a.opb", bytes), ("a.opb.gz", gzip.compress), ("a.opb.bz2", bz2.compress), ("a.opb.xz", lzma.compress)):
            self.assertEqual(sources.read(self.put(name, pack(text))), text)

    def test_texts_that_cannot_be_read(self):
        packed = gzip.compress(b"+1 x1 >= 1 ;\n" * 1000)
        paths = [self.put("cut.gz", packed[:-20]), self.put("no.gz", b"+1 x1 >= 1 ;\n"), self.put("no.xz", b"+1 x1 >= 1 ;\n")]
        paths += [self.put("no.bz2", b"+1 x1 >= 1 ;\n"), self.folder, os.path.join(self.folder, "missing")]
        for path in paths:
            with self.assertRaises(Stop) as raised:
                sources.read(path)
            self.assertEqual(raised.exception.status, 4)
            self.assertIn(path, raised.exception.words)

    def test_doubts(self):
        def doubts(text):
            return list(sources.doubts(text))

        head = b"* #variable= 2 #constraint= 2\n"
        body = b"min: +1 x1 ;\n+1 x1 >= 1 ; * one; two;\n"
        self.assertEqual(doubts(head + body), ["the first line says 2 constraints, and the text has 1: was it cut off?"])
        self.assertEqual(doubts(head + body + b"+1 x2 >= 1 ;"), [])
        self.assertEqual(doubts(body), [])
        for text in (b"", b"* nothing ;\n", b"min: +1 x1 ;\n"):
            self.assertEqual(doubts(text), ["the text has no statement"])


class Bounds(unittest.TestCase):
    def test_options(self):
        self.assertEqual([bound_option(value) for value in (19, 0, -4)], ["--at-most=19", "--at-most=0", "--at-most-minus=4"])

    def test_places_stay_within(self):
        draw = random.Random(1)
        for count in (1, 2, 3, 5):
            made = seekers.seekers(count)
            self.assertEqual(len(made), count)
            for seeker in made:
                for _ in range(200):
                    lower, upper = draw.randint(0, 50), draw.randint(51, 100)
                    self.assertTrue(lower <= seeker.choose(lower, upper) < upper)
                    draw.choice([seeker.found, seeker.refused, seeker.undecided])()

    def test_undecided_leads_to_more_effort(self):
        for seeker in seekers.seekers(3):
            for _ in range(20):
                seeker.choose(0, 1000)
                seeker.undecided()
            self.assertGreater(seeker.effort.conflicts, 10 ** 6)

    def test_nearest_behind_a_refusal(self):
        """What is refused far below the best solution has what is just below it asked for, once, and not where there are many places."""
        seeker = seekers.FromAbove()
        self.assertEqual(seeker.choose(0, 800), 400)
        seeker.refused()
        self.assertEqual(seeker.choose(401, 800), 799)
        seeker.undecided()
        self.assertEqual((seeker.choose(401, 800), seeker.effort), (601, seekers.FromAbove().effort))
        seeker.refused()
        self.assertEqual(seeker.choose(602, 800), 799)
        seeker.found()
        self.assertEqual(seeker.choose(602, 799), 701)
        for lower, upper, wanted in ((0, 1000, 500), (0, 999, 998), (0, 3, 2), (0, 4, 3), (0, 1, 0)):
            seeker = seekers.FromAbove()
            seeker.refused()
            self.assertEqual(seeker.choose(lower, upper), wanted)
        # Where the half is the nearest, it gets more effort if it is not decided.
        seeker.undecided()
        self.assertGreater(seeker.effort.conflicts, seekers.FromAbove().effort.conflicts)

    def test_best_solution_that_comes_early(self):
        # Of 800 values the first solution found is the best: a half, and what is just below it, in the place of ten halves.
        oracle = Drawn(random.Random(4))
        oracle.least, oracle.weights, oracle.values, oracle.patient = 0, [1] * 800, [700], True
        looking = search.Search(oracle, oracle.possible, lambda found: None)
        looking.run()
        self.assertEqual((looking.found.lower, oracle.calls), (700, 3))

    def test_values(self):
        draw = random.Random(2)
        for count in (0, 1, 3, 5, 12):
            for size in (3, 10 ** 25):
                weights = [draw.randint(1, size) * 7 for _ in range(count)]
                least = draw.randint(-size, size)
                sums = sorted({least + sum(taken) for length in range(count + 1) for taken in itertools.combinations(weights, length)})
                made = values.Values(least, weights)
                places = [made.place(value) for value in sums]
                self.assertEqual([made.at(place) for place in places], sums)
                self.assertEqual((places[0], places), (0, sorted(set(places))))
                # What is between two of them is the greater one's place.
                self.assertEqual([made.place(value) for value in sums if made.at(made.place(value + 1) - 1) != value], [])
                if count < 10 and size > 3:
                    self.assertEqual(places, list(range(len(sums))))

    def test_few_calls_where_values_are_few(self):
        # Nine weights of 10^24: ten values, so at most four halves and the one below the incumbent.
        oracle = Drawn(random.Random(3))
        oracle.least, oracle.weights, oracle.calls = 0, [10 ** 24] * 9, 0
        oracle.values = [count * 10 ** 24 for count in (5, 7, 9)]
        oracle.patient = True
        looking = search.Search(oracle, oracle.possible, lambda found: None)
        looking.run()
        self.assertEqual((looking.found.incumbent.value, looking.found.lower), (5 * 10 ** 24, 5 * 10 ** 24))
        self.assertLessEqual(oracle.calls, 6)

    def test_search_ends_with_the_least(self):
        for seed in range(300):
            told = []
            oracle = Drawn(random.Random(seed), (None, "good", "bad", "sure")[seed // 4 % 4])
            oracle.sums = seed % 3 == 0
            looking = search.Search(oracle, oracle.possible, lambda found: told.append((found.incumbent.value, found.lower)), 1 + seed % 4)
            looking.run()
            self.assertEqual(looking.found.incumbent.value, min(oracle.values))
            self.assertEqual(looking.found.lower, min(oracle.values))
            self.assertEqual([value for value, _ in told], sorted((value for value, _ in told), reverse=True))
            self.assertEqual([low for _, low in told[1:]], sorted(low for _, low in told[1:]))
            # What was refused last is what the refutation has to be of.
            if min(oracle.values) != oracle.possible().at(0):
                self.assertEqual(max(oracle.refused), min(oracle.values) - 1)
            self.assertEqual(oracle.open, [], "a question was left open")

    def test_search_of_nothing(self):
        oracle = Drawn(random.Random(1))
        oracle.values = []
        looking = search.Search(oracle, lambda: self.fail("there is no sum"), lambda found: self.fail("nothing is found"))
        looking.run()
        self.assertIsNone(looking.found.incumbent)


class Encodes:
    """Stands for the program: a diagram and a tree have so many variables, bytes and adders."""

    def __init__(self, diagram, tree, text=b"", weighted=1):
        self.forms = diagram, tree
        self.text = text
        self.weighted = weighted
        self.limits = []

    def encode(self, options, cnf):
        return self.write(0, cnf, self.forms[0][1])

    def encode_within(self, size, options, cnf):
        self.limits.append(size)
        return self.write(1, cnf, size)

    def write(self, form, cnf, limit):
        variables, size, adders = self.forms[form]
        with open(cnf, "wb") as file:
            file.write((b"d", b"t")[form] * min(size, limit))
        return Summary(variables, 9, self.weighted, adders) if size <= limit else None


class Chosen(Folder):
    def chosen(self, program, options=(), times=1):
        """The options of the last CNF, and its first letter."""
        cnf = os.path.join(self.folder, "cnf")
        made = encodings.Encodings(program, options, True)
        for _ in range(times):
            taken = made.encode(["--at-most=3"], cnf)[1]
        self.assertEqual(os.listdir(self.folder), ["cnf"])
        with open(cnf, "rb") as file:
            return taken, file.read(1)

    def test_trees(self):
        budget = "--budget=300000"
        diagram = 90, 10, 0
        for tree in ((89, 10, 0), (89, 320, 0)):
            self.assertEqual(self.chosen(Encodes(diagram, tree)), ([budget, "--at-most=3", "--general=tree"], b"t"))
        for tree in ((90, 10, 0), (89, 321, 0), (89, 10, 1)):
            self.assertEqual(self.chosen(Encodes(diagram, tree)), ([budget, "--at-most=3"], b"d"))
        self.assertEqual(self.chosen(Encodes((90, 10, 1), (500, 300, 0)))[1], b"t")
        self.assertEqual(self.chosen(Encodes(diagram, (9, 9, 0), weighted=0))[1], b"d")
        # What is named holds, and trees that are too large are not tried for ever.
        self.assertEqual(self.chosen(Encodes(diagram, (9, 9, 0)), ["--general=adder", "--budget=9"]), (["--general=adder", "--budget=9", "--at-most=3"], b"d"))
        program = Encodes(diagram, (9, 10000, 0))
        self.chosen(program, times=9)
        self.assertEqual(program.limits, [320, 320])
        program = Encodes((9, 10 ** 6, 0), (9, 9, 0))
        self.chosen(program, times=9)
        self.assertEqual(program.limits, [30000000] * 9)
        made = encodings.Encodings(Encodes(diagram, (9, 9, 0), b"+1 x1 = 1 ;"), ["--amo=ladder"])
        self.assertEqual(made.encode([], os.path.join(self.folder, "cnf"))[1], ["--amo=ladder"])

    def test_equalities(self):
        for text, wanted in ((b"+1 x1 +1 x2 = 1 ;", True), (b"1 a 1 ~b=1;* +2 x3 = 7 ;\n+7 c >= 1 ; +1 a +1 c = +1;", True), (b"", False),
                             (b"+1 x1 >= 1 ; +1 x2 <= 1 ;", False), (b"+1 x1 +1 x2 = 1 ; +1 x1 +1 x3 = 2 ;", False), (b"+1 x1 +2 x2 = 1 ;", False),
                             (b"min: +3 x1 ; +1 x1\n +1 x2 =\n 1 ;", True), (b"+1 x1 -1 x2 = 1 ;", False), (b"+1 x2 x3 +1 y7 = 1 ;", True)):
            self.assertEqual(encodings.has_choices_alone(text), wanted, text)
            self.assertEqual("--equal=joint" in self.chosen(Encodes((9, 9, 0), (9, 9, 0), text))[0], wanted)
        self.assertNotIn("--equal=joint", self.chosen(Encodes((9, 9, 0), (9, 9, 0), b"+1 x1 = 1 ;"), ["--equal=split"])[0])


class Drawn:
    """Answers for some values that solutions have, in any order, and gives up the more often the less effort it is given."""

    def __init__(self, draw, optimizer=None):
        self.draw = draw
        self.optimizer = optimizer
        self.calls = 0
        self.patient = False
        self.sums = False
        self.open = []
        self.refused = []
        self.least = draw.choice([-1, 1]) * draw.randint(0, 10 ** draw.randint(0, 30))
        self.weights = [draw.randint(1, 10 ** draw.randint(1, 30)) for _ in range(draw.randint(0, 20))]
        self.values = [self.least + sum(weight for weight in self.weights if draw.random() < 0.5) for _ in range(draw.randint(1, 20))]

    def possible(self):
        return values.Values(self.least, self.weights)

    def pose_to_all(self, bound):
        return self.pose(bound)

    def sums_up(self, bound):
        """Seldom, and only where it is so."""
        is_plain = self.sums and self.draw.random() < 0.3 and min(self.values) > bound
        if is_plain:
            self.refused.append(bound)
        return is_plain

    def pose(self, bound, effort=None):
        self.calls += 1
        if bound in [other[0] for other in self.open if other != "descent"]:
            raise AssertionError("asked twice at once")
        self.open.append((bound, effort))
        return self.open[-1]

    def descend(self, bound):
        """An optimizer that finds all but the best ones too, fails at some time, or says too early that nothing is better."""
        if self.optimizer is None:
            return None
        self.open.append("descent")
        return self.open[-1]

    def drop(self, question):
        self.open.remove(question)

    def wait(self, questions):
        if sorted(map(id, questions)) != sorted(map(id, self.open)):
            raise AssertionError("not all that was asked is waited for")
        question = self.draw.choice(questions)
        if question == "descent":
            ends = self.draw.random() < 0.3 or self.optimizer == "sure"
            value = self.draw.choice(self.values)
            return question, Solution(value, "v") if not ends else Verdict.UNKNOWN if self.optimizer == "bad" else Verdict.NO_MODEL
        self.drop(question)
        return question, self.answer(*question)

    def answer(self, bound, effort):
        if effort is not None and not self.patient and self.draw.random() > effort.conflicts / 1e5:
            return Verdict.UNKNOWN
        within = [value for value in self.values if bound is None or value <= bound]
        if not within:
            self.refused.append(bound)
        return Solution(self.draw.choice(within), "v") if within else Verdict.NO_MODEL


class Descents(Folder):
    def descent(self, *pieces):
        """The models of an optimizer that says these pieces, one after the other, and whether it says that it has ended."""
        said = list(pieces)
        running = unittest.mock.Mock(take=lambda: said.pop(0))
        made = optimizers.Descent(running)
        return [made.model() for _ in pieces], made.has_ended

    def test_models(self):
        model = b"s SATISFIABLE\nv 1 -2\nv 3 0\n"
        self.assertEqual(self.descent(b"c clasp\nc Answer: 1\nv 1 -2\nv 3 0\no 34\n"), ([model], False))
        # It may be heard in the middle of a line, of a model, and of two; the last one is taken.
        self.assertEqual(self.descent(b"v 1 -", b"2\nv 3", b" 0\n", b"o 34\nv 7 0\n", b"o 2", b"\n"),
                         ([None, None, None, model, None, b"s SATISFIABLE\nv 7 0\n"], False))
        self.assertEqual(self.descent(b"v 7 0\no 9\nv 1 -2\nv 3 0\no 8\ns OPTIMUM FOUND\n"), ([model], True))
        self.assertEqual(self.descent(b"s UNKNOWN\n", b"", b"s OPTIMUM FOUND"), ([None, None, None], False))

    def test_older_format(self):
        text = b"c offset -4\nh 1 2 0\n3 -1 0\n40 2 0\nh -2 0\n"
        self.assertTrue(optimizers._write_older(self.put("new", text), os.path.join(self.folder, "old"), 5))
        with open(os.path.join(self.folder, "old"), "rb") as file:
            self.assertEqual(file.read(), b"p wcnf 5 4 44\n44 1 2 0\n3 -1 0\n40 2 0\n44 -2 0\n")
        for weight, wanted in ((2 ** 31 - 2, True), (2 ** 31 - 1, False)):
            self.assertEqual(optimizers._write_older(self.put("new", b"c offset 0\n%d 1 0\n" % weight), os.path.join(self.folder, "old"), 5), wanted)

    def test_heard_while_another_runs(self):
        with Watch() as watch:
            # It goes on when the first word is heard, and ends when the second one is.
            words = "echo one; until [ -e one ]; do sleep 0.01; done; echo two; until [ -e two ]; do sleep 0.01; done"
            speaks = watch.start(["sh", "-c", 'cd "$0" && ' + words, self.folder], is_heard=True)
            other = watch.start(["sleep", "900"])
            for word in ("one", "two"):
                self.assertIs(watch.wait([other, speaks]), speaks)
                self.assertEqual((speaks.take(), speaks.status), (word.encode() + b"\n", None))
                self.put(word, b"")
            self.assertIs(watch.wait([other, speaks]), speaks)
            self.assertEqual((speaks.take(), speaks.status), (b"", 0))


class Start(unittest.TestCase):
    def test_what_is_not_imported(self):
        """Each of these takes milliseconds, and most calls need none of them."""
        slow = {"dataclasses", "inspect", "difflib", "platform", "site", *("pbcnf.tools." + name for name in ("core", "hints", "learning", "tidy", "frat"))}
        for name in ("solve", "minimize"):
            words = [sys.executable, "-S", "-c", "import sys, pbcnf.tools.%s; print(*sys.modules)" % name]
            run = subprocess.run(words, env=dict(os.environ, PYTHONPATH=PACKAGE), stdout=subprocess.PIPE, check=True)
            self.assertEqual(slow & set(run.stdout.decode().split()), set())


class Lines(Folder):
    """The line on standard error."""

    def written(self, terminal, quiet=False, term="xterm"):
        """What is written of a search that finds one solution and then raises the lower bound, with a tick after each."""
        error = io.StringIO()
        error.isatty = lambda: terminal
        with unittest.mock.patch("sys.stderr", error), unittest.mock.patch.dict(os.environ, TERM=term):
            made = progress.Progress("tool", quiet)
            made.asks(None, Summary(9, 12))
            made.tick(0.5)
            made.knows(search.Found(Solution(7, "v"), -4), 1.26)
            made.asks(1, Summary(90, 120))
            made.tick(2.0)
            made.knows(search.Found(Solution(7, "v"), 2), 2.5)
            made.refutes(False)
            made.clear()
        return error.getvalue()

    def test_lines_where_a_bound_has_changed(self):
        wanted = "tool: 1.3 s: -4 <= objective <= 7; any: 9 variables, 12 clauses\n" \
            "tool: 2.5 s: 2 <= objective <= 7; at most 1: 90 variables, 120 clauses\n"
        self.assertEqual(self.written(False), wanted)
        self.assertEqual(self.written(True, term="dumb"), wanted)

    def test_drawn_in_place(self):
        drawn = self.written(True).split("\r\033[K")
        self.assertEqual(drawn[0], "")
        self.assertEqual(drawn[1], "tool: 0.5 s: no solution yet; any: 9 variables, 12 clauses")
        self.assertEqual(drawn[3], "tool: 2.0 s: -4 <= objective <= 7; at most 1: 90 variables, 120 clauses")
        self.assertEqual((len(drawn), drawn[-1]), (6, ""))
        self.assertNotIn("\n", "".join(drawn))
        self.assertTrue(all(len(line) < 80 for line in drawn))

    def test_quiet(self):
        self.assertEqual(self.written(True, quiet=True), "")

    def test_long_refutation(self):
        for quiet in (False, True):
            error = io.StringIO()
            with unittest.mock.patch("sys.stderr", error):
                progress.Progress("tool", quiet).refutes(True)
            self.assertEqual(error.getvalue().startswith("tool: having it refuted that any is better, which takes minutes; with CaDiCaL"), not quiet)


class Efforts(unittest.TestCase):
    def test_times(self):
        self.assertEqual(Effort(2000, 1.0).times(5), Effort(10000, 5.0))


if __name__ == "__main__":
    unittest.main()
