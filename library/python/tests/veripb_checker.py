"""Checks a proof in VeriPB's format, version 2.0, beside an OPB file: the part of the format that pbcnf-veripb prints.

It is written from the published rules (Gocht and Nordstrom 2021 on redundance-based strengthening; Bogaerts, Gocht, McCreesh and
Nordstrom 2022; the documentation of VeriPB for the SAT Competition 2023), and not from the code or the definitions of pbcnf. VeriPB
itself it is not. It takes `<=` in OPB, and it takes no deletion of constraints of the formula.

usage: python3 veripb_checker.py OPB PROOF      it says `accepted`, or the line and why; exit status 0 or 1
"""

from __future__ import annotations

import re
import sys
from typing import Dict, List, NamedTuple, Tuple

from veripb_constraints import (
    Constraint, added, divided, implies, literal_axiom, multiplied, normal, opposite, saturated, substituted, weakened,
)
from veripb_propagation import Database, propagate_in_order

_NAME = re.compile(r"[A-Za-z][A-Za-z0-9_\[\]{}^]+")
_LITERAL = re.compile(r"~?[A-Za-z][A-Za-z0-9_\[\]{}^]+")
_INTEGER = re.compile(r"[+-]?[0-9]+")
HEAD = "pseudo-Boolean proof version 2.0"
END = "end pseudo-Boolean proof"


class Wrong(Exception):
    """The proof is not accepted, for what `str` says."""


class Verdict(NamedTuple):
    conclusion: str
    """`NONE` or `UNSAT`."""
    live: Dict[int, Constraint]
    """The constraints that are live at the end, by their ids."""


def integer(word: str) -> int:
    if not _INTEGER.fullmatch(word):
        raise Wrong(f"{word!r} is no integer")
    return int(word)


def literal(word: str) -> str:
    if not _LITERAL.fullmatch(word):
        raise Wrong(f"{word!r} is no literal")
    return word


# ---- the problem


def read_opb(text: str) -> List[Constraint]:
    """The constraints in their order, an equality as two, the lower bound first."""
    bare = " ".join(line.split("*")[0] for line in text.splitlines())
    constraints: List[Constraint] = []
    for statement in bare.split(";"):
        words = re.sub(r"(>=|<=|(?<![<>])=)", r" \1 ", statement).split()
        if not words or words[0].startswith("min:"):
            continue
        terms = [(integer(a), literal(b)) for a, b in zip(words[:-2:2], words[1:-2:2])]
        if len(words) % 2 or words[-2] not in (">=", "<=", "="):
            raise Wrong(f"{statement!r} is no linear constraint")
        right = integer(words[-1])
        if words[-2] != "<=":
            constraints.append(normal(terms, right))
        if words[-2] != ">=":
            constraints.append(normal([(-a, l) for a, l in terms], -right))
    return constraints


# ---- the proof


class Checker:
    """Goes through the lines of a proof."""

    def __init__(self, formula: List[Constraint]) -> None:
        self.formula = formula
        self.database = Database()
        self.last = 0
        self.conclusion = ""
        self.stage = 0
        """0 before `f`, 1 among the rules, then 2 after `output`, 3 after `conclusion`, 4 after the end."""

    def line(self, words: List[str]) -> None:
        rules = {"f": self.load, "pol": self.pol, "rup": self.rup, "red": self.red, "del": self.delete, "output": self.output,
                 "conclusion": self.conclude, "end": self.end}
        if words[0] not in rules:
            raise Wrong(f"{words[0]!r} is no rule")
        stage = {"f": 0, "conclusion": 2, "end": 3}.get(words[0], 1)
        if self.stage != stage:
            raise Wrong(f"{words[0]!r} does not stand here")
        rules[words[0]](words[1:])

    def add(self, constraint: Constraint) -> None:
        self.last += 1
        self.database.add(self.last, constraint)

    def constraint(self, id: int) -> Constraint:
        if id not in self.database.live:
            raise Wrong(f"there is no constraint {id}")
        return self.database.live[id]

    def load(self, words: List[str]) -> None:
        if [integer(word) for word in words] not in ([], [len(self.formula)]):
            raise Wrong(f"the formula has {len(self.formula)} constraints")
        for constraint in self.formula:
            self.add(constraint)
        self.stage = 1

    # The rules of cutting planes, in postfix notation.
    def pol(self, words: List[str]) -> None:
        stack: List[Constraint] = []
        place = 0
        while place < len(words):
            word, behind = words[place], words[place + 1] if place + 1 < len(words) else ""
            if behind in ("*", "d", "w"):
                self.change(stack, behind, word)
                place += 2
                continue
            if word in ("+", "s"):
                self.combine(stack, word)
            elif word.isdigit():
                stack.append(self.constraint(int(word)))
            else:
                stack.append(literal_axiom(literal(word)))
            place += 1
        if len(stack) != 1:
            raise Wrong(f"{len(stack)} constraints are on the stack at the end")
        self.add(stack[0])

    def change(self, stack: List[Constraint], operation: str, operand: str) -> None:
        if not stack:
            raise Wrong(f"{operation!r} finds no constraint")
        if operation == "w":
            if not _NAME.fullmatch(operand):
                raise Wrong(f"{operand!r} is no variable")
            stack.append(weakened(stack.pop(), operand))
            return
        number = integer(operand)
        if number <= 0:
            raise Wrong(f"{operand} is no factor")
        stack.append((multiplied if operation == "*" else divided)(stack.pop(), number))

    @staticmethod
    def combine(stack: List[Constraint], operation: str) -> None:
        if len(stack) < (2 if operation == "+" else 1):
            raise Wrong(f"{operation!r} finds no constraint")
        stack.append(added(stack.pop(), stack.pop()) if operation == "+" else saturated(stack.pop()))

    # Hints, where there are any, are propagated in their order, once each; `~` is the negation of what is claimed.
    def rup(self, words: List[str]) -> None:
        claim, hints = self.claim(words)
        if hints:
            order = [opposite(claim) if hint == "~" else self.constraint(integer(hint)) for hint in hints]
            shown = propagate_in_order(order)
        else:
            shown = self.database.conflicts([opposite(claim)])
        if not shown:
            raise Wrong("unit propagation finds no conflict")
        self.add(claim)

    def claim(self, words: List[str]) -> Tuple[Constraint, List[str]]:
        """A constraint that is written in OPB, and the words after its semicolon."""
        if ">=" not in words:
            raise Wrong("there is no >=")
        relation = words.index(">=")
        if relation % 2 or words[relation + 2:relation + 3] != [";"]:
            raise Wrong("a constraint ends in another way")
        terms = [(integer(words[i]), literal(words[i + 1])) for i in range(0, relation, 2)]
        return normal(terms, integer(words[relation + 1])), words[relation + 3:]

    # Redundance-based strengthening: under the witness all constraints that it touches, and the claim, are to follow from those
    # that are live and the negation of the claim.
    def red(self, words: List[str]) -> None:
        claim, behind = self.claim(words)
        witness = self.witness(behind)
        without = opposite(claim)
        goals = [substituted(self.database.live[id], witness) for id in self.database.touching(witness)]
        for goal in [*goals, substituted(claim, witness)]:
            if not implies(without, goal) and not self.database.conflicts([without, opposite(goal)]):
                raise Wrong("an obligation of the witness is not met")
        self.add(claim)

    @staticmethod
    def witness(words: List[str]) -> Dict[str, str]:
        if not words or len(words) % 3:
            raise Wrong("there is no witness")
        witness: Dict[str, str] = {}
        for start in range(0, len(words), 3):
            variable, arrow, image = words[start:start + 3]
            if not _NAME.fullmatch(variable) or arrow != "->" or variable in witness:
                raise Wrong(f"{variable!r} is not replaced here")
            witness[variable] = image if image in ("0", "1") else literal(image)
        return witness

    def delete(self, words: List[str]) -> None:
        if words[:1] != ["id"] or len(words) < 2:
            raise Wrong("what is deleted is not named by ids")
        for id in [integer(word) for word in words[1:]]:
            self.constraint(id)
            if id <= len(self.formula):
                raise Wrong(f"{id} is a constraint of the formula")
            self.database.remove(id)

    def output(self, words: List[str]) -> None:
        if words != ["NONE"]:
            raise Wrong("the output is not NONE")
        self.stage = 2

    def conclude(self, words: List[str]) -> None:
        if words[:2] == ["UNSAT", ":"] and len(words) == 3:
            if not self.constraint(integer(words[2])).is_contradiction():
                raise Wrong(f"{words[2]} is no contradiction")
        elif words != ["NONE"]:
            raise Wrong("the conclusion is neither NONE nor UNSAT : ID")
        self.conclusion = words[0]
        self.stage = 3

    def end(self, words: List[str]) -> None:
        if words != END.split()[1:]:
            raise Wrong("the end is another")
        self.stage = 4


def check(opb: str, proof: str) -> Verdict:
    """The verdict on a proof; raises `Wrong` with the first line that is not right."""
    checker = Checker(read_opb(opb))
    lines = proof.split("\n")
    if lines[0] != HEAD:
        raise Wrong("line 1: the head is another")
    for number, line in enumerate(lines[1:], 2):
        try:
            if line.split():
                checker.line(line.split())
        except Wrong as wrong:
            raise Wrong(f"line {number}: {wrong}") from None
    if checker.stage != 4:
        raise Wrong("the proof has no end")
    return Verdict(checker.conclusion, checker.database.live)


def main(words: List[str]) -> int:
    texts = []
    for name in words:
        with open(name, encoding="ascii") as file:
            texts.append(file.read())
    try:
        print("accepted", check(*texts).conclusion)
    except Wrong as wrong:
        print(wrong)
        return 1
    return 0


if __name__ == "__main__":
    sys.exit(main(sys.argv[1:]))
