"""Sums of literals, and constraints on them, as Python's operators write them."""

from __future__ import annotations

from operator import index
from typing import TYPE_CHECKING, Iterable, NoReturn, Tuple, Union

if TYPE_CHECKING:
    from pbcnf.model import Model


class Sum:
    """A whole number that hangs on variables: literals with coefficients, and a constant. `+`, `-` and `*` by whole numbers make
    sums, `<=`, `>=`, `==`, `<` and `>` constraints.

    >>> x, y = Model().bools("x", 2)
    >>> 3 * x - ~y + 2, x + y <= 1
    (+3 x[0] -1 ~x[1] +2, +1 x[0] +1 x[1] <= 1)
    """

    def __init__(self, terms: Tuple[Tuple[int, Literal], ...], constant: int = 0) -> None:
        self.terms, self.constant = terms, constant

    def __add__(self, other: Union[Sum, int]) -> Sum:
        added = _sum_of(other)
        return Sum(self.terms + added.terms, self.constant + added.constant)

    __radd__ = __add__

    def __mul__(self, factor: int) -> Sum:
        by = index(factor)
        return Sum(tuple((by * coefficient, literal) for coefficient, literal in self.terms), by * self.constant)

    __rmul__ = __mul__

    def __neg__(self) -> Sum:
        return self * -1

    def __sub__(self, other: Union[Sum, int]) -> Sum:
        return self + -_sum_of(other)

    def __rsub__(self, other: Union[Sum, int]) -> Sum:
        return -self + other

    def __le__(self, other: Union[Sum, int]) -> Constraint:
        return Constraint(self - other, "<=")

    def __ge__(self, other: Union[Sum, int]) -> Constraint:
        return Constraint(self - other, ">=")

    def __lt__(self, other: Union[Sum, int]) -> Constraint:
        return Constraint(self - other + 1, "<=")

    def __gt__(self, other: Union[Sum, int]) -> Constraint:
        return Constraint(self - other - 1, ">=")

    def __eq__(self, other: object) -> Constraint:  # type: ignore[override]
        return Constraint(self - _sum_of(other), "=")

    def __ne__(self, other: object) -> NoReturn:
        raise TypeError("that sums differ is no constraint of a linear problem")

    __hash__ = object.__hash__

    def __bool__(self) -> NoReturn:
        raise TypeError("a sum has its value in a solution")

    def __repr__(self) -> str:
        terms = ["%+d %r" % (coefficient, literal) for coefficient, literal in self.terms]
        return " ".join(terms + (["%+d" % self.constant] if self.constant or not terms else []))


class Literal(Sum):
    """A variable of a model, or its negation, `~` before it. As a number it is 1 if it is true, and 0 if it is false.

    >>> rain = Model().bool("rain")
    >>> ~rain, ~~rain
    (~rain, rain)
    """

    def __init__(self, model: Model, number: int) -> None:
        super().__init__(((1, self),))
        self.model, self.number = model, number

    def __invert__(self) -> Literal:
        return Literal(self.model, -self.number)

    def __repr__(self) -> str:
        return ("~" if self.number < 0 else "") + self.model.names[abs(self.number) - 1]


class Constraint:
    """That a sum is at least, at most or just 0, if all conditions are true.

    >>> x, y = Model().bools("x", 2)
    >>> (2 * x >= 1 + y).only_if(~y)
    +2 x[0] -1 x[1] >= 1 if ~x[1]
    """

    def __init__(self, left: Sum, relation: str, conditions: Tuple[Literal, ...] = ()) -> None:
        self.left, self.relation, self.conditions = left, relation, conditions

    def only_if(self, *conditions: Literal) -> Constraint:
        """The constraint if all of these literals are true, and nothing if one is false."""
        return Constraint(self.left, self.relation, self.conditions + conditions)

    def __bool__(self) -> NoReturn:
        raise TypeError("a constraint is not true or false: add it to a model")

    def __repr__(self) -> str:
        only = " if " + ", ".join(map(repr, self.conditions)) if self.conditions else ""
        return "%r %s %d%s" % (Sum(self.left.terms), self.relation, -self.left.constant, only)


def _sum_of(value: object) -> Sum:
    return value if isinstance(value, Sum) else Sum((), index(value))  # type: ignore[arg-type]


def total(values: Iterable[Union[Sum, int]]) -> Sum:
    """The sum of many, which takes less time than Python's `sum`.

    >>> total(Model().bools("x", 3)) == 2
    +1 x[0] +1 x[1] +1 x[2] = 2
    """
    sums = [_sum_of(value) for value in values]
    return Sum(tuple(term for value in sums for term in value.terms), sum(value.constant for value in sums))
