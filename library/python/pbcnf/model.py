"""Problems over variables with names: constraints by Python's operators, clauses for any solver, and solutions that were tested.

>>> from pbcnf.model import Model, total
>>> m = Model()
>>> x, rain = m.bools("x", 3), m.bool("rain")
>>> m += 2 * x[0] + 3 * ~x[1] + rain <= 4
>>> m += (total(x) == 2).only_if(rain)
>>> m.minimize(3 * ~rain + 2 * x[0] + x[1])
>>> print(m.opb(), end="")
min: +3 ~rain +2 x[0] +1 x[1] ;
+2 x[0] +3 ~x[1] +1 rain <= 4 ;
+1 x[0] +1 x[1] +1 x[2] +2 ~rain >= 2 ;
-1 x[0] -1 x[1] -1 x[2] +1 ~rain >= -2 ;
"""

from __future__ import annotations

import builtins
import re
from typing import TYPE_CHECKING, Any, Callable, List, Optional, Sequence, Set, Union

import pbcnf
from pbcnf._searching import command_search, object_search
from pbcnf.conditions import Statement, Terms, conditioned
from pbcnf.expressions import Constraint, Literal, Sum, total

if TYPE_CHECKING:
    from typing_extensions import Unpack

    from pbcnf import Chosen, Encoding

__all__ = ["Answer", "Constraint", "Literal", "Model", "Sum", "total"]

# A free name of OPB, which is none of a variable by its number.
_NAME = re.compile(r"(?!x[0-9]+\Z)[A-Za-z_][A-Za-z0-9_[\]{}^-]{0,254}")


class Answer:
    """A solution of a model, whose every statement was tested. `answer[sum]` is the value of a sum, 1 or 0 of a literal.

    objective: the value of the objective, if there is one.

    >>> m = Model()
    >>> x, y = m.bools("x", 2)
    >>> answer = Answer([True, False], 3 * x + y)
    >>> answer.objective, answer[x], answer[~y], answer[x + ~y]
    (3, 1, 1, 2)
    """

    def __init__(self, values: Sequence[bool], objective: Optional[Sum]) -> None:
        self._values = values
        self.objective = None if objective is None else self[objective]

    def __getitem__(self, value: Sum) -> int:
        true = (coefficient for coefficient, literal in value.terms if self._values[abs(literal.number) - 1] == (literal.number > 0))
        return sum(true, value.constant)


class Model:
    """Variables with names, constraints and an objective. `m += constraint` adds one.

    names: the names of the variables, in the order in which they were made: the first is variable 1 of the clauses.
    """

    def __init__(self) -> None:
        self.names: List[str] = []
        self._known: Set[str] = set()
        self._statements: List[Statement] = []
        self._objective: Optional[Sum] = None
        self._sign = 1

    def bool(self, name: str) -> Literal:
        """A new variable. Its name begins with a letter or `_`, and has letters, digits and `_[]{}^-`; `x` and digits are none.

        >>> Model().bool("rain")
        rain
        """
        if not _NAME.fullmatch(name):
            raise ValueError("%r is no name of a variable" % name)
        if name in self._known:
            raise ValueError("there is a variable %s" % name)
        self._known.add(name)
        self.names.append(name)
        return Literal(self, len(self.names))

    def bools(self, name: str, count: int) -> List[Literal]:
        """New variables `name[0]`, `name[1]` and so on.

        >>> Model().bools("day", 2)
        [day[0], day[1]]
        """
        return [self.bool("%s[%d]" % (name, place)) for place in range(count)]

    def __iadd__(self, constraint: Union[Constraint, builtins.bool]) -> Model:
        # Where no variable is left of a sum, Python has compared two numbers.
        asked = constraint if isinstance(constraint, Constraint) else Constraint(Sum((), 0 if constraint else -1), ">=")
        conditions = [self._number(condition) for condition in asked.conditions]
        self._statements += conditioned(self._terms(asked.left), asked.relation, -asked.left.constant, conditions)
        return self

    def minimize(self, objective: Sum) -> None:
        """The solution that is looked for has the least value of this sum."""
        self._terms(objective)
        self._objective, self._sign = objective, 1

    def maximize(self, objective: Sum) -> None:
        """The solution that is looked for has the greatest value of this sum.

        >>> m = Model()
        >>> m.maximize(2 * m.bool("rain"))
        >>> print(m.opb(), end="")
        min: -2 rain ;
        """
        self._terms(objective)
        self._objective, self._sign = objective, -1

    def opb(self) -> str:
        """The problem as an OPB text, in which the variables have their names."""
        return self._text(lambda number: self.names[number - 1])

    def encode(self, *, at_most: Optional[int] = None, **chosen: Unpack[Chosen]) -> Encoding:
        """The clauses of the problem, whose variables are those of the model, in the order in which they were made, and then fresh
        ones. `at_most` is a bound on what is to be least.

        >>> m = Model()
        >>> m += total(m.bools("x", 3)) <= 1
        >>> m.encode().clauses
        [[-1, -2], [-1, -3], [-2, -3]]
        """
        return pbcnf.encode(self._numbered(), at_most=at_most, **chosen)

    def solve(self, solver: Any = "cadical", **chosen: Unpack[Chosen]) -> Optional[Answer]:
        """A solution, tested against each statement, or None if the solver says that there is none. If there is an objective it is the
        one of the last value below which the solver finds none; that there is no better one is the solver's word.

        `solver` is a command that reads DIMACS from a file and prints `s` and `v` lines, as a name or a list of words, or an
        object with `add_clause` and `solve`, as PySAT's solvers and pycryptosat's are.

        >>> import sys
        >>> m = Model()
        >>> rain, sun = m.bool("rain"), m.bool("sun")
        >>> m += rain + sun == 1
        >>> answer = m.solve([sys.executable, "-c", "print('s SATISFIABLE'); print('v 1 -2 0')"])
        >>> answer[rain], answer[sun]
        (1, 0)
        """
        text, best = self._numbered(), None
        search = command_search if isinstance(solver, (str, list, tuple)) else object_search
        for best in search(solver, text, self._cost(), chosen):
            pass
        return None if best is None else Answer(list(best.values.values()), self._objective)

    def _cost(self) -> Terms:
        """The terms of what is to be least."""
        return self._terms(self._objective * self._sign) if self._objective is not None else []

    def _numbered(self) -> str:
        return "* #variable= %d\n%s" % (len(self.names), self._text(lambda number: "x%d" % number))

    def _text(self, name: Callable[[int], str]) -> str:
        def terms(listed: Terms) -> str:
            return "".join("%+d %s%s " % (coefficient, "~" if literal < 0 else "", name(abs(literal))) for coefficient, literal in listed)

        objective = "min: %s;\n" % terms(self._cost()) if self._objective is not None else ""
        return objective + "".join("%s%s %d ;\n" % (terms(listed), relation, right) for listed, relation, right in self._statements)

    def _terms(self, value: Sum) -> Terms:
        return [(coefficient, self._number(literal)) for coefficient, literal in value.terms]

    def _number(self, literal: Literal) -> int:
        if literal.model is not self:
            raise ValueError("%r is a variable of another model" % literal)
        return literal.number
