"""Small problems for the tests of pbcnf-veripb, and whether each has a solution, which is found by trying all assignments."""

from __future__ import annotations

import itertools
import random
from typing import Dict, List, NamedTuple, Tuple

Terms = List[Tuple[int, str]]


class Statement(NamedTuple):
    terms: Terms
    relation: str
    right: int

    def text(self) -> str:
        return " ".join(f"{a:+d} {literal}" for a, literal in self.terms) + f" {self.relation} {self.right} ;"

    def holds(self, values: Dict[str, bool]) -> bool:
        total = sum(a for a, literal in self.terms if values[literal.lstrip("~")] != literal.startswith("~"))
        return {">=": total >= self.right, "<=": total <= self.right, "=": total == self.right}[self.relation]


Problem = List[Statement]


def text_of(problem: Problem) -> str:
    return "".join(statement.text() + "\n" for statement in problem)


def has_solution(problem: Problem) -> bool:
    names = sorted({literal.lstrip("~") for statement in problem for _, literal in statement.terms})
    values = ({name: bool(bit) for name, bit in zip(names, bits)} for bits in itertools.product((0, 1), repeat=len(names)))
    return any(all(statement.holds(assignment) for statement in problem) for assignment in values)


def total(names: List[str], relation: str, right: int) -> Statement:
    return Statement([(1, name) for name in names], relation, right)


def numbered(first: int, last: int) -> List[str]:
    return [f"x{number}" for number in range(first, last + 1)]


def pigeons(many: int, holes: int) -> Problem:
    """Each pigeon is in a hole, and no hole has two."""
    place = [[f"at{pigeon}[{hole}]" for hole in range(holes)] for pigeon in range(many)]
    return [total(row, ">=", 1) for row in place] + [total([row[hole] for row in place], "<=", 1) for hole in range(holes)]


def weighted(weights: List[int], relation: str, right: int, first: int = 1) -> Statement:
    return Statement([(weight, f"x{first + place}") for place, weight in enumerate(weights)], relation, right)


def drawn(seed: int) -> Problem:
    """Some statements of each kind over nine variables."""
    draw = random.Random(seed)
    problem: Problem = []
    for kind in range(4):
        names = draw.sample(numbered(1, 9), draw.randint(4, 8))
        literals = [draw.choice(["", "~"]) + name for name in names]
        weights = [1 if kind < 2 else draw.randint(1, 9) for _ in names]
        right = {0: 1, 1: len(names) // 2}.get(kind, draw.randint(sum(weights) // 3, 2 * sum(weights) // 3))
        problem.append(Statement(list(zip(weights, literals)), "<= = >= <=".split()[kind], right))
    return problem


def problems() -> Dict[str, Problem]:
    """By their names; each family of clauses has some that it encodes."""
    seven, nine = numbered(1, 7), numbered(1, 9)
    named: Dict[str, Problem] = {
        "pigeons-4-3": pigeons(4, 3),
        "pigeons-3-3": pigeons(3, 3),
        "pigeons-3-2": pigeons(3, 2),
        "seven-at-most-one": [total(seven, "<=", 1), total(seven[:3], ">=", 1), total(seven[3:], ">=", 1)],
        "seven-one": [total(seven, "=", 1), total(["~" + name for name in seven[:6]], ">=", 6)],
        "card-apart": [total(nine, ">=", 5), total(nine, "<=", 4)],
        "card-halves": [total(nine, "=", 5), total(nine[:4], "<=", 2), total(nine[4:], "<=", 2)],
        "card-thirds": [total(nine, "=", 4), total(nine[:3], "=", 1), total(nine[3:6], "=", 1), total(nine[6:], "=", 1)],
        "card-fits": [total(nine, "=", 4), total(nine[:5], "<=", 3), total(nine[4:], ">=", 2)],
        "parcels-no": [weighted([3, 5, 6, 9, 12], "=", 19)],
        "parcels-yes": [weighted([3, 5, 6, 9, 12], "=", 20)],
        "parcels-even": [weighted([2, 4, 4, 6, 8, 10, 12], "=", 21)],
        "knapsack-no": [weighted([12, 9, 8, 7, 5, 4, 3], "<=", 20), weighted([14, 11, 7, 9, 4, 5, 4], ">=", 28)],
        "knapsack-yes": [weighted([12, 9, 8, 7, 5, 4, 3], "<=", 26), weighted([14, 11, 7, 9, 4, 5, 4], ">=", 28)],
        "beyond-reach": [weighted([3, 4], ">=", 8), total(numbered(1, 3), ">=", 1)],
        "units-alone": [weighted([5, 3, 2], ">=", 9), total(["~x1", "~x2", "~x3"], ">=", 1)],
    }
    for seed in range(8):
        named[f"drawn-{seed}"] = drawn(seed)
    return named
