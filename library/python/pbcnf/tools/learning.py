"""Looks for better and better solutions over the constraints of a problem themselves, and writes the derivation that there is no other.

Where the weights of a sum are large and different its clauses are very many, and a SAT solver has to walk through them, while few
variables decide. Here the sum stays a constraint. From each false one a clause is learned (Marques-Silva and Sakallah 1999), which
follows by unit propagation from what has led there: that is one `rup` line of a derivation that `check` takes, with its ids. At the end
stands the empty clause, which is all that the CNF of this derivation has. It is slower than a SAT solver by far, a thousand clauses a
second, and for small problems that is enough.

usage: python3 -m pbcnf.tools.learning OPB BOUND [CNF PROOF]

Prints the lines of an optimizer: `v` and `o` for each solution of at most the bound, and `s OPTIMUM FOUND` when no other is better. With
CNF and PROOF those of a solver: the first solution after `s SATISFIABLE`, or `s UNSATISFIABLE`, once these refute that there is any.
"""

from __future__ import annotations

import heapq
import os
import sys
from typing import IO, Dict, Iterator, List, Set, Tuple

from pbcnf.tools.loading import Loaded, Terms, at_most, load
from pbcnf.tools.slacks import Propagation

# So many conflicts are the unit of restarts; so many clauses are kept at first, and by how much more each time.
_UNIT = 100
_KEPT = 4000
_MORE = 1.1
# How much more a conflict counts than the one before it, for variables and for clauses, and where all are made smaller.
_VARIABLE_GROWTH = 1 / 0.95
_CLAUSE_GROWTH = 1 / 0.999
_GREAT = 1e100


class Derivation:
    """Writes the lines of a derivation."""

    def __init__(self, file: IO[str], loaded: int) -> None:
        self._file = file
        self._last = loaded
        file.write("pseudo-Boolean derivation profile 1\nf %d\n" % loaded)

    def add(self, clause: List[int], reasons: List[int]) -> int:
        """Adds a clause that follows from these, and gives its id."""
        self._last += 1
        terms = "".join("+1 %sx%d " % ("~" if literal < 0 else "", abs(literal)) for literal in clause)
        self._file.write("rup %s>= 1 ; %s\n" % (terms, " ".join(map(str, reasons))))
        return self._last

    def delete(self, clauses: List[int]) -> None:
        """Deletes some clauses."""
        if clauses:
            self._file.write("del %s\n" % " ".join(map(str, clauses)))

    def end(self, empty: int) -> None:
        """Puts out the empty clause."""
        self._file.write("out %d\nend\n" % empty)
        self._file.flush()


class Order:
    """Which variable comes next: that which was met most in the last conflicts."""

    def __init__(self, variables: int) -> None:
        self._scores = [0.0] * (variables + 1)
        self._growth = 1.0
        self._heap = [(0.0, variable) for variable in range(1, variables + 1)]

    def put(self, variable: int) -> None:
        """Puts a variable in, as its score is now."""
        heapq.heappush(self._heap, (-self._scores[variable], variable))

    def meet(self, variable: int) -> None:
        """The variable is met."""
        self._scores[variable] += self._growth

    def grow(self) -> None:
        """The next conflict counts for more."""
        self._growth *= _VARIABLE_GROWTH
        if self._growth > _GREAT:
            self._growth /= _GREAT
            self._scores = [score / _GREAT for score in self._scores]
            self._heap = sorted((score / _GREAT, variable) for score, variable in self._heap)

    def take(self, true: bytearray, false: bytearray) -> int:
        """The next variable without a value, or 0."""
        while self._heap:
            _, variable = heapq.heappop(self._heap)
            if not true[variable] and not false[variable]:
                return variable
        return 0


class Learner:
    """A search that learns. `solutions` gives the values of the objective."""

    def __init__(self, loaded: Loaded, bound: int, file: IO[str]) -> None:
        self._objective: Terms = loaded.objective or []
        self._bound = bound
        constraints = [*loaded.constraints, at_most(self._objective, bound)]
        self._last = len(constraints)
        self._propagation = Propagation(loaded.variables, constraints)
        self._derivation = Derivation(file, len(constraints))
        self._order = Order(loaded.variables)
        # The value that a variable had last, at first the cheaper one.
        self._phase = [-variable for variable in range(loaded.variables + 1)]
        for weight, literal in self._objective:
            self._phase[abs(literal)] = -literal if weight > 0 else literal
        self._seen = bytearray(loaded.variables + 1)
        # The clause that says by itself that a literal is true, for all literals of the level 0.
        self._units: Dict[int, int] = {}
        self._scores: Dict[int, float] = {}
        self._growth = 1.0
        self._kept = float(_KEPT)

    def solutions(self) -> Iterator[Tuple[int, List[int]]]:
        """The value and the literals of each solution, every one better than that before, until it is derived that there is no other."""
        propagation = self._propagation
        wrong = propagation.begin() or propagation.propagate()
        self._note_units(0)
        restarts = _luby()
        left = _UNIT * next(restarts)
        while not (wrong and not propagation.levels):
            if wrong:
                wrong = self._learn(wrong)
                left -= 1
                continue
            if left <= 0 and propagation.levels:
                left = _UNIT * next(restarts)
                self._take_back(0)
                self._forget()
            variable = self._order.take(propagation.true, propagation.false)
            if variable:
                propagation.levels.append(len(propagation.trail))
                propagation.assign(self._phase[variable], 0)
                wrong = propagation.propagate()
            else:
                value = sum(weight for weight, literal in self._objective if propagation.true[literal])
                yield value, sorted(propagation.trail, key=abs)
                wrong = self._ask_better(value)
        self._derivation.end(self._derivation.add([], self._reasons_at_0(wrong, 0)))

    def _ask_better(self, value: int) -> int:
        """Goes on with the bound below a value. Gives a constraint that is false then, or 0."""
        propagation = self._propagation
        if propagation.levels:
            self._take_back(0)
        propagation.tighten(self._last, self._bound - value + 1)
        self._bound = value - 1
        before = len(propagation.trail)
        wrong = propagation.visit(self._last) or propagation.propagate()
        self._note_units(before)
        return wrong

    def _take_back(self, level: int) -> None:
        for literal in self._propagation.take_back(level):
            self._phase[abs(literal)] = literal
            self._order.put(abs(literal))

    def _reasons_at_0(self, id: int, literal: int) -> List[int]:
        """The constraint or clause that makes a literal true, or is false, for 0, in level 0, and the units that are needed."""
        others = self._propagation.support(id, literal, self._seen)
        return [*sorted({self._units[-other] for other in others}), id]

    def _note_units(self, begin: int) -> None:
        """Derives the literals of level 0 from this place of the trail on."""
        for literal in self._propagation.trail[begin:] if not self._propagation.levels else ():
            if literal not in self._units:
                self._units[literal] = self._derivation.add([literal], self._reasons_at_0(self._propagation.reason[abs(literal)], literal))

    def _learn(self, wrong: int) -> int:
        """Learns a clause, and goes on from it. Gives a constraint or clause that is false then, or 0."""
        propagation = self._propagation
        clause, reasons = self._analyze(wrong)
        id = self._derivation.add(clause, reasons)
        level = propagation.level
        # The literal that becomes true, and one that was the last to become false.
        clause[1:] = sorted(clause[1:], key=lambda literal: -level[abs(literal)])
        self._take_back(level[abs(clause[1])] if len(clause) > 1 else 0)
        begin = len(propagation.trail)
        if len(clause) > 1:
            propagation.add(id, clause)
            self._scores[id] = self._growth
        else:
            self._units[clause[0]] = id
        propagation.assign(clause[0], id)
        found = propagation.propagate()
        self._note_units(begin)
        self._order.grow()
        self._growth *= _CLAUSE_GROWTH
        return found

    def _analyze(self, wrong: int) -> Tuple[List[int], List[int]]:
        """The clause of the first literal on which all of the last level rests, and the constraints and clauses that it follows from."""
        propagation, seen = self._propagation, self._seen
        last = len(propagation.levels)
        clause: List[int] = []
        reasons: List[int] = []
        units: Set[int] = set()
        touched: List[int] = []
        literal, open_count, place = 0, 0, len(propagation.trail)
        while literal == 0 or open_count > 0:
            reasons.append(wrong)
            if wrong in self._scores:
                self._scores[wrong] += self._growth
            for other in propagation.support(wrong, literal, seen):
                variable = abs(other)
                if propagation.level[variable] == 0:
                    units.add(self._units[-other])
                elif not seen[variable]:
                    seen[variable] = 1
                    touched.append(variable)
                    self._order.meet(variable)
                    if propagation.level[variable] == last:
                        open_count += 1
                    else:
                        clause.append(other)
            place = next(at for at in range(place - 1, -1, -1) if seen[abs(propagation.trail[at])])
            literal = propagation.trail[place]
            wrong = propagation.reason[abs(literal)]
            open_count -= 1
        kept = [-literal, *self._minimized(clause, reasons, units)]
        for variable in touched:
            seen[variable] = 0
        return kept, list(dict.fromkeys([*reasons, *sorted(units)]))

    def _minimized(self, clause: List[int], reasons: List[int], units: Set[int]) -> List[int]:
        """The literals without those that are false because of others in the clause, whose reasons are added."""
        propagation = self._propagation
        kept: List[int] = []
        for other in clause:
            reason = propagation.reason[abs(other)]
            support = propagation.support(reason, -other, self._seen) if reason else []
            if reason and all(self._seen[abs(literal)] or propagation.level[abs(literal)] == 0 for literal in support):
                reasons.append(reason)
                units.update(self._units[-literal] for literal in support if propagation.level[abs(literal)] == 0)
            else:
                kept.append(other)
        return kept

    def _forget(self) -> None:
        """Forgets half of the learned clauses, those that were met least, where they are too many."""
        if len(self._scores) < self._kept:
            return
        self._kept *= _MORE
        used = {self._propagation.reason[abs(literal)] for literal in self._propagation.trail}
        clauses = self._propagation.clauses
        ranked = sorted(self._scores, key=lambda id: self._scores[id])
        gone = [id for id in ranked[:len(ranked) // 2] if id not in used and len(clauses[id]) > 2]
        for id in gone:
            del clauses[id], self._scores[id]
        self._derivation.delete(gone)
        self._scores = {id: score / self._growth for id, score in self._scores.items()}
        self._growth = 1.0


def _luby() -> Iterator[int]:
    """1, 1, 2, 1, 1, 2, 4, .. (Luby, Sinclair and Zuckerman 1993)."""
    up, value = 1, 1
    while True:
        yield value
        if up & -up == value:
            up, value = up + 1, 1
        else:
            value *= 2


def main(words: List[str]) -> int:
    """Runs the search."""
    with open(words[0], "rb") as text:
        loaded = load(text.read())
    is_solver = len(words) > 2
    with open(words[3] if is_solver else os.devnull, "w", encoding="ascii") as proof:
        for value, literals in Learner(loaded, int(words[1]), proof).solutions():
            values = "v %s 0" % " ".join(map(str, literals))
            if is_solver:
                print("s SATISFIABLE\n" + values)
                return 0
            print("%s\no %d" % (values, value), flush=True)
    if is_solver:
        with open(words[2], "w", encoding="ascii") as cnf:
            cnf.write("p cnf %d 1\n0\n" % loaded.variables)
    print("s UNSATISFIABLE" if is_solver else "s OPTIMUM FOUND")
    return 0


if __name__ == "__main__":
    sys.exit(main(sys.argv[1:]))
