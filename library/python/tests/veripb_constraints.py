"""Pseudo-Boolean constraints, and the rules of cutting planes over them (Cook, Coullard and Turan 1987; Hooker 1992; Buss and
Nordstrom 2021), for the checker beside this file. Nothing here is taken from the code or the definitions of pbcnf.

A constraint is held in its normal form: the coefficients of its true literals, all above 0 and at most one literal of each
variable, add up to a degree at least, which may have either sign. A literal is a name with `~` before it where it is negated.
"""

from __future__ import annotations

from typing import Dict, Iterable, NamedTuple, Tuple


def negated(literal: str) -> str:
    return literal[1:] if literal.startswith("~") else "~" + literal


def variable_of(literal: str) -> str:
    return literal.lstrip("~")


class Constraint(NamedTuple):
    coefficients: Dict[str, int]
    degree: int

    def slack(self) -> int:
        """How much more than asked the literals could reach, all being true."""
        return sum(self.coefficients.values()) - self.degree

    def is_contradiction(self) -> bool:
        return self.slack() < 0

    def is_trivial(self) -> bool:
        return self.degree <= 0


def normal(terms: Iterable[Tuple[int, str]], degree: int) -> Constraint:
    """The normal form of a sum that is to be at least the degree, by x = 1 - ~x."""
    coefficients: Dict[str, int] = {}
    for coefficient, literal in terms:
        if coefficient < 0:
            degree -= coefficient
            coefficient, literal = -coefficient, negated(literal)
        met = min(coefficient, coefficients.get(negated(literal), 0))
        if met:
            # met * l + met * ~l is met, whatever l is.
            degree -= met
            coefficients[negated(literal)] -= met
            if not coefficients[negated(literal)]:
                del coefficients[negated(literal)]
        if coefficient > met:
            coefficients[literal] = coefficients.get(literal, 0) + coefficient - met
    return Constraint(coefficients, degree)


def terms_of(constraint: Constraint) -> Iterable[Tuple[int, str]]:
    return ((coefficient, literal) for literal, coefficient in constraint.coefficients.items())


def literal_axiom(literal: str) -> Constraint:
    """A literal is at least 0."""
    return Constraint({literal: 1}, 0)


def added(one: Constraint, other: Constraint) -> Constraint:
    return normal([*terms_of(one), *terms_of(other)], one.degree + other.degree)


def multiplied(constraint: Constraint, factor: int) -> Constraint:
    return Constraint({literal: factor * a for literal, a in constraint.coefficients.items()}, factor * constraint.degree)


def divided(constraint: Constraint, divisor: int) -> Constraint:
    """All numbers are rounded up."""
    return Constraint({literal: -(-a // divisor) for literal, a in constraint.coefficients.items()}, -(-constraint.degree // divisor))


def saturated(constraint: Constraint) -> Constraint:
    """No coefficient is above the degree."""
    most = max(constraint.degree, 0)
    return Constraint({literal: min(a, most) for literal, a in constraint.coefficients.items() if most}, constraint.degree)


def weakened(constraint: Constraint, variable: str) -> Constraint:
    """A literal axiom is added so often that the variable is gone."""
    for literal in (variable, "~" + variable):
        if literal in constraint.coefficients:
            return added(constraint, multiplied(literal_axiom(negated(literal)), constraint.coefficients[literal]))
    return constraint


def opposite(constraint: Constraint) -> Constraint:
    """What holds exactly where the constraint does not."""
    return normal(((-a, literal) for a, literal in terms_of(constraint)), 1 - constraint.degree)


def implies(one: Constraint, other: Constraint) -> bool:
    """True if the second comes of the first by literal axioms alone."""
    above = sum(max(a - other.coefficients.get(literal, 0), 0) for a, literal in terms_of(one))
    return other.is_trivial() or one.degree - above >= other.degree


def substituted(constraint: Constraint, witness: Dict[str, str]) -> Constraint:
    """The constraint with `0`, `1` or a literal in place of each variable of the witness."""
    terms, degree = [], constraint.degree
    for coefficient, literal in terms_of(constraint):
        image = witness.get(variable_of(literal), variable_of(literal))
        if literal.startswith("~"):
            image = {"0": "1", "1": "0"}.get(image) or negated(image)
        if image == "1":
            degree -= coefficient
        elif image != "0":
            terms.append((coefficient, image))
    return normal(terms, degree)
