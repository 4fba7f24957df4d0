#!/usr/bin/env python3
"""Tests that a long call of the Python module can be stopped by a signal, as by Ctrl-C, what becomes of the call then, and which
calls are made in a thread of their own for that.

It looks for the library as a user's program would. usage: interrupts.py [-v]
"""

import contextlib
import random
import signal
import subprocess
import sys
import threading
import time
import unittest

import pbcnf
from pbcnf import _waiting

# A program whose call takes seconds, wherever it runs.
CHILD = """
import random, pbcnf
drawn = random.Random(7)
sums = [([(drawn.getrandbits(60) | 1, v) for v in range(1, 41)], "<=", 40 << 58) for _ in range(200)]
text = "".join(" ".join("+%d x%d" % term for term in terms) + " <= %d ;" % right for terms, _, right in sums)
print("begun", flush=True)
"""
CALLS = {
    "encode": "pbcnf.encode(text)",
    "derive": "pbcnf.derive(text)",
    "constraint": "pbcnf.constraint(*sums[0], first=41, budget=10_000_000)",
    "constraints": "pbcnf.constraints(sums, first=41)",
}
# What a program does that takes the interrupt: it goes on, with calls of its own, while the first one still runs.
CAUGHT = """
try:
    pbcnf.encode(text)
except KeyboardInterrupt:
    print(pbcnf.constraint([(1, 1), (1, 2)], ">=", 1, first=3).clauses, len(pbcnf.encode("+1 x1 +1 x2 >= 1 ;\\n" * 5000)))
"""
# The room of a call that was stopped is not given to anybody else before the call has put all into it.
KEPT = """
import _thread, gc, signal, time, pbcnf
opb = "".join("+1 x%d +1 x%d +1 x%d >= 1 ;\\n" % (v, v + 1, v + 2) for v in range(1, 400000)).encode()
class Enough(Exception):
    pass
def stop(*_):
    if _thread._count():
        signal.setitimer(signal.ITIMER_REAL, 0)
        raise Enough
signal.signal(signal.SIGALRM, stop)
signal.setitimer(signal.ITIMER_REAL, 0.01, 0.01)
try:
    pbcnf.encode(opb)
    print("it was not stopped")
except Enough:
    print(_thread._count())
size = 4 * (2 * len(opb) + 1024)
del opb
gc.collect()
other = bytearray(size)
end = time.time() + 60
while _thread._count() and time.time() < end:
    time.sleep(0.01)
print(_thread._count(), other.count(0) == size)
"""


def chain(count):
    """A problem of the clauses `k k+1`."""
    return "".join("+1 x%d +1 x%d >= 1 ;\n" % (k, k + 1) for k in range(1, count + 1))


def stopped(code):
    """How a program ends that is interrupted half a second after it has begun, what it prints, and after how many seconds."""
    with subprocess.Popen([sys.executable, "-c", CHILD + code], stdout=subprocess.PIPE, stderr=subprocess.PIPE, text=True) as child:
        child.stdout.readline()
        time.sleep(0.5)
        child.send_signal(signal.SIGINT)
        began = time.monotonic()
        said, told = child.communicate()
        return child.returncode, said, told, time.monotonic() - began


@contextlib.contextmanager
def threads(refused=False):
    """Counts the threads that are started for calls; or refuses each, as a system that has no room for one."""
    started, start = [], _waiting._thread.start_new_thread

    def counted(run, given):
        started.append(run)
        if refused:
            raise RuntimeError("can't start new thread")
        return start(run, given)

    _waiting._thread.start_new_thread = counted
    try:
        yield started
    finally:
        _waiting._thread.start_new_thread = start


class Interrupts(unittest.TestCase):
    def test_a_long_call_ends_at_once(self):
        for name, call in CALLS.items():
            with self.subTest(name):
                # On a machine that does much else a child may wait for its turn.
                for _ in range(3):
                    status, said, told, seconds = stopped(call)
                    self.assertEqual((status, said), (-signal.SIGINT, ""))
                    self.assertEqual(told.splitlines()[-1], "KeyboardInterrupt")
                    if seconds < 1:
                        break
                self.assertLess(seconds, 1)

    def test_a_program_may_go_on(self):
        status, said, told, _ = stopped(CAUGHT)
        self.assertEqual((status, said, told), (0, "[[1, 2]] 5000\n", ""))

    def test_a_call_that_was_stopped_keeps_its_memory(self):
        self.assertEqual(subprocess.run([sys.executable, "-c", KEPT], stdout=subprocess.PIPE, check=True, text=True).stdout, "1\n0 True\n")

    def test_a_handler_that_raises_nothing_stops_nothing(self):
        opb, rung = chain(50000), []
        before = signal.signal(signal.SIGALRM, lambda *_: rung.append(pbcnf.encode("+1 x1 >= 1 ;").clauses))
        signal.setitimer(signal.ITIMER_REAL, 0.001, 0.001)
        try:
            encoding = pbcnf.encode(opb)
        finally:
            signal.setitimer(signal.ITIMER_REAL, 0)
            signal.signal(signal.SIGALRM, before)
        self.assertTrue(rung and all(clauses == [[1]] for clauses in rung))
        self.assertTrue(list(encoding) == [[k, k + 1] for k in range(1, 50001)])


class Threads(unittest.TestCase):
    def started(self, call, *given, **chosen):
        """Whether a call has started a thread, or as many as there were rooms to try."""
        with threads() as seen:
            call(*given, **chosen)
        return len(seen) > 0

    def test_small_calls_have_none(self):
        weights = [(random.Random(1).randint(1, 100), var) for var in range(1, 17)]
        self.assertFalse(self.started(pbcnf.constraint, weights, "<=", 100, first=17))
        self.assertFalse(self.started(pbcnf.constraint, [(1, var) for var in range(1, 300)], "<=", 1, first=300))
        self.assertFalse(self.started(pbcnf.constraints, [(weights, "<=", 90)] * 100, first=17))
        self.assertFalse(self.started(pbcnf.encode, chain(500)))
        self.assertFalse(self.started(pbcnf.encode, "%s >= 1 ;" % " ".join("+1 x%d" % var for var in range(1, 100))))
        self.assertFalse(self.started(pbcnf.check, chain(9), pbcnf.dimacs(chain(9)), pbcnf.derive(chain(9))))

    def test_large_calls_have_one(self):
        weights = [(random.Random(var).randint(1000, 9999), var) for var in range(1, 25)]
        text = "%s <= 90000 ;" % " ".join("+%d x%d" % term for term in weights)
        self.assertTrue(self.started(pbcnf.constraint, weights, "<=", 9000, first=25))
        self.assertTrue(self.started(pbcnf.constraint, [(1 << 64, var) for var in range(1, 25)], ">=", 1, first=25))
        self.assertTrue(self.started(pbcnf.constraints, [([(1, 1)], ">=", 1), (weights, "<=", 9000)], first=25))
        self.assertTrue(self.started(pbcnf.constraints, [([(1, 1), (1, 2)], ">=", 1)] * 6000, first=3))
        self.assertTrue(self.started(pbcnf.dimacs, chain(9) + text))
        opb = chain(5000)
        for call, texts in ((pbcnf.encode, ()), (pbcnf.names, ()), (pbcnf.softs, ()), (pbcnf.wcnf, ()), (pbcnf.decode, (range(1, 5002),)),
                            (pbcnf.check, (pbcnf.dimacs(opb), pbcnf.derive(opb)))):
            self.assertTrue(self.started(call, opb, *texts), call)

    def test_other_threads_have_none(self):
        with threads() as seen:
            thread = threading.Thread(target=pbcnf.encode, args=(chain(5000),))
            thread.start()
            thread.join()
        self.assertEqual(len(seen), 0)

    def test_where_there_is_no_thread_the_call_is_made(self):
        with threads(refused=True) as seen:
            encoding = pbcnf.encode(chain(5000))
        self.assertEqual((len(encoding), len(seen)), (5000, 1))

    def test_what_is_refused_is_raised(self):
        with threads() as seen:
            with self.assertRaises(pbcnf.Refused) as caught:
                pbcnf.encode(chain(5000) + "+1 x1 >= ;")
            with self.assertRaises(pbcnf.Usage):
                pbcnf.constraint([(1 << 70, var) for var in range(1, 25)], ">=", 1, first=24)
        self.assertEqual((caught.exception.line, caught.exception.column, len(seen)), (5001, 10, 2))

    def test_what_the_call_itself_raises_is_raised(self):
        def call():
            raise ValueError("no")

        self.assertRaises(ValueError, _waiting.status_of, call, (), None, True)


if __name__ == "__main__":
    unittest.main()
