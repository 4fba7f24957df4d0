"""Turns a derivation of a CNF, and a refutation of that CNF, into one proof for VeriPB, step by step.

A constraint that a derivation puts out may be stronger than its clause. It stands for the clause in the refutation all the same:
since it implies the clause by its coefficients alone, unit propagation over it reaches all that the clause would give.
"""

from __future__ import annotations

from collections import Counter
from typing import Dict, Iterable, List, Set

from .veripb_clauses import Added, Cnf, Deleted, read_lrat
from .veripb_derivation import Del, Operation, Out, Pol, Red, Rup, Step
from .veripb_printing import Proof, Terms
from .veripb_texts import Line, Refusal, last_line

REJECTED = 7
NOT_A_REFUTATION = 10


def _is_empty(operations: List[Operation]) -> bool:
    """True if an axiom is weakened away at once. That leaves `>= 0`, since no degree of a derivation is below zero; VeriPB's would be."""
    words = [operation.word for operation in operations]
    return words == ["axiom", "w"] and abs(operations[0].number) == operations[1].number


class Derivation:
    """The live constraints of a derivation, by the ids that they have there and in the proof."""

    def __init__(self, proof: Proof, loaded: int, cnf: Cnf, states_clauses: bool) -> None:
        self._proof = proof
        self._cnf = cnf
        self._states_clauses = states_clauses
        self._next = loaded + 1
        self._printed: Dict[int, int] = {id: id for id in range(1, loaded + 1)}
        self._out: Set[int] = set()
        self.clauses: List[int] = []
        """The ids in the proof that stand for the clauses of the CNF, in their order."""

    def translate(self, line: Line, step: Step) -> None:
        if isinstance(step, Pol):
            self._pol(line, step)
        elif isinstance(step, Rup):
            self._judge_variables(line, step.terms)
            self._derived(self._proof.rup(step.terms, step.right, self._ids(line, step.ids)))
        elif isinstance(step, Red):
            self._red(line, step)
        elif isinstance(step, Del):
            self._delete(line, step.ids)
        else:
            self._put_out(line, step)

    def end(self, line: int) -> None:
        """At this line the derivation ends, which is to leave no clause of the CNF."""
        if len(self.clauses) < len(self._cnf.clauses):
            raise Refusal(REJECTED, f"PROOF line {line}: clauses left")

    def _derived(self, printed: int) -> None:
        self._printed[self._next] = printed
        self._next += 1

    def _pol(self, line: Line, step: Pol) -> None:
        words = [self._word(line, operation) for operation in step.operations]
        self._derived(self._proof.rup([], 0, []) if _is_empty(step.operations) else self._proof.pol(words))

    def _word(self, line: Line, operation: Operation) -> str:
        """An operation of `pol`; those with an operand before them are one here."""
        kind, number = operation.word, operation.number
        if kind == "push":
            return str(self._id(line, number))
        if kind in ("axiom", "w"):
            self._judge_variables(line, [(1, number)])
            return self._proof.literal(number) + (" w" if kind == "w" else "")
        return f"{number} {kind}" if number else kind

    def _red(self, line: Line, step: Red) -> None:
        """Where nothing is set, redundance is unit propagation over all."""
        self._judge_variables(line, step.terms + [(1, variable) for variable, _ in step.witness])
        if step.witness:
            self._derived(self._proof.red(step.terms, step.right, step.witness))
        else:
            self._derived(self._proof.rup(step.terms, step.right, []))

    def _delete(self, line: Line, ids: List[int]) -> None:
        printed: List[int] = []
        for id in ids:
            printed.append(self._id(line, id))
            if id in self._out:
                raise line.denied(REJECTED, f"deletes output {id}")
            del self._printed[id]
        self._proof.delete(printed)

    def _put_out(self, line: Line, step: Out) -> None:
        """Where clauses are to be stated the next one gets a line and an id of its own."""
        printed = self._id(line, step.id)
        if len(self.clauses) == len(self._cnf.clauses):
            raise line.denied(REJECTED, "no clause")
        self._out.add(step.id)
        if self._states_clauses:
            printed = self._proof.clause(self._cnf.clauses[len(self.clauses)], [printed])
        self.clauses.append(printed)

    def _ids(self, line: Line, ids: Iterable[int]) -> List[int]:
        return [self._id(line, id) for id in ids]

    def _id(self, line: Line, id: int) -> int:
        if id not in self._printed:
            raise line.denied(REJECTED, f"unknown id {id}")
        return self._printed[id]

    def _judge_variables(self, line: Line, terms: Terms) -> None:
        for _, signed in terms:
            if abs(signed) > self._cnf.variables:
                raise line.denied(REJECTED, f"unknown variable x{abs(signed)}")


def refute(proof: Proof, cnf: Cnf, clauses: List[int], text: str) -> int:
    """Prints what an LRAT text adds and deletes, up to the empty clause. Gives the id of that; all of the text is read."""
    contradiction = clauses[cnf.clauses.index([])] if [] in cnf.clauses else 0
    refutation = _Refutation(proof, clauses)
    for line, step in read_lrat(text, cnf.variables):
        if isinstance(step, Deleted):
            refutation.delete(step, not contradiction)
            continue
        printed = refutation.add(line, step, not contradiction)
        if not step.clause and not contradiction:
            contradiction = printed
    if not contradiction:
        raise Refusal(NOT_A_REFUTATION, f"LRAT line {last_line(text)}: no empty clause")
    return contradiction


class _Refutation:
    """The live clauses of a refutation, by the ids that they have there and in the proof, where one may stand for several."""

    def __init__(self, proof: Proof, clauses: List[int]) -> None:
        self._proof = proof
        self._printed = dict(enumerate(clauses, 1))
        self._uses = Counter(clauses)
        self._last = len(clauses)

    def add(self, line: Line, step: Added, prints: bool) -> int:
        """The id of an added clause; 0 where it is read only, after the empty clause."""
        if step.id <= self._last:
            raise line.denied(NOT_A_REFUTATION, f"old id {step.id}")
        unknown = [id for id in step.hints if id not in self._printed]
        if unknown:
            raise line.denied(NOT_A_REFUTATION, f"unknown hint {unknown[0]}")
        printed = self._proof.clause(step.clause, [self._printed[id] for id in step.hints]) if prints else 0
        self._last = step.id
        self._printed[step.id] = printed
        self._uses[printed] += 1
        return printed

    def delete(self, step: Deleted, prints: bool) -> None:
        """Ids of no live clause are passed over; what stands for a second clause that is live stays."""
        gone: List[int] = []
        for id in step.ids:
            printed = self._printed.pop(id, None)
            if printed is None:
                continue
            self._uses[printed] -= 1
            if not self._uses[printed]:
                gone.append(printed)
        if prints:
            self._proof.delete(gone)
