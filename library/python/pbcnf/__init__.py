"""Encodes pseudo-Boolean problems as clauses in this process, by the C library of pbcnf, whose calls are proved.

>>> import pbcnf
>>> for clause in pbcnf.encode("+2 x1 +1 x2 +1 x3 >= 3 ;"):
...     print(clause)
[1]
[2, 3]

A problem is an OPB text: a `str`, or its bytes. Options are keywords, as those of the program; `Chosen` has them. What is refused is
raised as an `Error`, with its place and the word that was expected there. A whole number may be of any type that has `__index__`,
as numpy's have. A `Table` bounds a sum by assumptions. `pbcnf.model` writes problems by names and operators, `pbcnf.pysat` has
PySAT's encoders by their names.

The library is libpbcnf.so.0. It is looked for in the environment's PBCNF_LIBRARY, then in the folder of this file, where an
installed package has it, then where ./install put it, then where ./build put it or release/ has it, the newer of both, then where
the system looks for libraries. Calls may be made by several threads at once. Ctrl-C in the main thread ends a large call at once for
the program, and it then runs to its end in the background.
"""

from __future__ import annotations

from typing import TYPE_CHECKING, Dict, Iterable, List, Literal, Optional, Tuple, TypedDict, Union

from pbcnf import _calling
from pbcnf._arguments import model_of, posed, posed_all, posed_one, posed_text, posed_texts, text_of
from pbcnf.errors import (Error, LimitPassed, NoLibrary, NoModel, NotASolution, NotRefuted, OutOfMemory, Refused, Rejected, Usage)
from pbcnf.results import Clauses, Encoding, Solution
from pbcnf.tables import Table

if TYPE_CHECKING:
    import mmap

    from typing_extensions import Unpack

__all__ = [
    "Chosen", "Clauses", "Encoding", "Error", "LimitPassed", "NoLibrary", "NoModel", "NotASolution", "NotRefuted", "OutOfMemory",
    "Refused", "Rejected", "Relation", "Solution", "Table", "Usage", "bounds", "check", "constraint", "constraints", "decode", "derive",
    "derive_constraint", "derive_constraints", "dimacs", "encode", "names", "refute", "softs", "wcnf",
]

__version__ = "0.4.1"

Text = Union[str, bytes, bytearray, memoryview, "mmap.mmap"]
Terms = Iterable[Tuple[int, int]]
Relation = Literal[">=", "<=", "="]
# A constraint: its terms, its relation, its right side, and the literal under which alone it is asked, if there is one.
Asked = Union[Tuple[Terms, Relation, int], Tuple[Terms, Relation, int, int]]


class Chosen(TypedDict, total=False):
    """The options of an encoding, each a keyword of the calls. The words are those of the program's options of the same names.

    amo: the clauses of at most one literal, `pairwise`, `ladder`, `product`, or `auto`, by their number.
    card: the clauses of at most so many literals, `counter`, `totalizer`, or `auto`, by the bound.
    general: the clauses of weighted sums, `diagram`, which is taken if none is given, `tree` or `adder`.
    equal: whether equalities are encoded half by half, `split`, which is taken if none is given, or as one, `joint`.
    budget: the most fresh variables of a constraint, past which it goes to adders: 1 to 10,000,000, else 50,000.
    """

    amo: Literal["auto", "pairwise", "ladder", "product"]
    card: Literal["auto", "counter", "totalizer"]
    general: Literal["diagram", "tree", "adder"]
    equal: Literal["split", "joint"]
    budget: int


# --- Whole problems


def encode(opb: Text, *, at_most: Optional[int] = None, table: bool = False, **chosen: Unpack[Chosen]) -> Encoding:
    """The clauses of a problem: their models, cut to its variables, are exactly its solutions.

    `at_most` is a bound on the objective: solutions of a greater value are none then. With `table` a table of bounds on the
    objective stands after all constraints; `bounds` gives its rows.

    >>> encoding = pbcnf.encode("+1 x1 +1 x2 +1 x3 <= 1 ;", amo="ladder")
    >>> encoding
    <Encoding: 3 of 5 variables, 5 clauses>
    >>> encoding.clauses[0]
    [-5, 4]
    """
    asked = posed(opb, at_most, chosen, table)
    return _calling.put_clauses("pbcnf_clauses", asked, 2 * asked.amount + 1024)


def dimacs(opb: Text, *, at_most: Optional[int] = None, table: bool = False, **chosen: Unpack[Chosen]) -> str:
    """The same clauses as a CNF text, the one that the program writes.

    >>> print(pbcnf.dimacs("+2 x1 +1 x2 +1 x3 >= 3 ;"), end="")
    p cnf 3 2
    1 0
    2 3 0
    """
    asked = posed(opb, at_most, chosen, table)
    return _calling.put_text("pbcnf_encode", asked, 4 * asked.amount + 4096)


def derive(opb: Text, *, at_most: Optional[int] = None, table: bool = False, **chosen: Unpack[Chosen]) -> str:
    """The derivation of the same clauses, which `check` accepts.

    >>> print(pbcnf.derive("+1 x1 +1 x2 >= 1 ;"), end="")
    pseudo-Boolean derivation profile 1
    f 1
    rup +1 x1 +1 x2 >= 1 ; 1
    out 2
    end
    """
    asked = posed(opb, at_most, chosen, table)
    return _calling.put_text("pbcnf_derive", asked, 16 * asked.amount + 4096)


def bounds(opb: Text, *, at_most: Optional[int] = None, **chosen: Unpack[Chosen]) -> List[Tuple[int, int]]:
    """The rows of the table of bounds of `encode(.., table=True)`: values that the objective may be below, ascending, each with the
    literal that is false just there. Assume its negation, and the models are just the solutions below the value.

    >>> pbcnf.bounds("min: +3 x1 -2 x2 ;")
    [(0, 3), (1, 4), (3, 5)]
    """
    return _calling.put_rows("pbcnf_bounds", posed(opb, at_most, chosen, True), 64)


def wcnf(opb: Text, *, at_most: Optional[int] = None, **chosen: Unpack[Chosen]) -> str:
    """The weighted CNF of a problem and its objective, the text that the program's `wcnf` writes.

    >>> print(pbcnf.wcnf("min: +3 x1 -2 x2 ;\\n+1 x1 +1 x2 >= 1 ;"), end="")
    c offset -2
    h 1 2 0
    3 -1 0
    2 2 0
    """
    asked = posed(opb, at_most, chosen)
    return _calling.put_text("pbcnf_wcnf", asked, 5 * asked.amount + 4096)


def softs(opb: Text, *, at_most: Optional[int] = None) -> Tuple[int, List[Tuple[int, int]]]:
    """What the objective costs, for a MaxSAT solver beside the clauses of `encode`: an offset, and weights with their literals. In each
    model the objective is the offset and the weights of the literals that are false.

    >>> pbcnf.softs("min: +3 x1 -2 x2 ;")
    (-2, [(3, -1), (2, 2)])
    """
    return _calling.put_softs("pbcnf_softs", posed_texts(opb, at_most), 64)


def check(opb: Text, cnf: Text, proof: Text, *, at_most: Optional[int] = None) -> None:
    """Comes back if a derivation shows that each solution of a problem is the front of a model of a CNF, else raises why not.

    >>> opb = "+1 x1 +1 x2 >= 1 ;"
    >>> pbcnf.check(opb, pbcnf.dimacs(opb), pbcnf.derive(opb))
    >>> pbcnf.check(opb, "p cnf 2 1\\n1 0\\n", pbcnf.derive(opb))
    Traceback (most recent call last):
    pbcnf.errors.Rejected: pbcnf: PROOF line 4: not implied by 2
    """
    _calling.judge("pbcnf_check", posed_texts(opb, at_most, text_of(cnf), text_of(proof)))


def refute(opb: Text, cnf: Text, proof: Text, lrat: Text, *, at_most: Optional[int] = None) -> None:
    """Comes back if these show that a problem has no solution, else raises why not: the derivation as `check`, and the
    refutation, in the LRAT format, of the CNF.

    >>> opb = "+1 x1 >= 1 ;\\n+1 ~x1 >= 1 ;"
    >>> pbcnf.refute(opb, pbcnf.dimacs(opb), pbcnf.derive(opb), "3 0 1 2 0\\n")
    """
    _calling.judge("pbcnf_refute", posed_texts(opb, at_most, text_of(cnf), text_of(proof), text_of(lrat)))


def decode(opb: Text, model: Union[Text, Iterable[int]], *, at_most: Optional[int] = None) -> Solution:
    """The solution of a problem that a solver's model gives, once it was tested against each statement.

    `model` is what a SAT solver prints, its `s` and `v` lines, or the true literals. A variable that is not listed is false.
    Raises `NotASolution` or `NoModel` if it gives none.

    >>> pbcnf.decode("+1 rain +1 sun = 1 ;", [-1, 2]).values
    {'rain': False, 'sun': True}
    """
    said = _calling.put_words("pbcnf_decode", posed_texts(opb, at_most, model_of(model)))
    objective, values = None, {}
    for line in said.splitlines():
        head, *words = line.split(" ")
        if head == "o":
            objective = int(words[0])
        elif head == "v":
            values = {word.lstrip("-"): not word.startswith("-") for word in words}
    return Solution(said, objective, values)


def names(opb: Text) -> Dict[int, str]:
    """The free names of a problem, by the numbers of their variables. A variable that is not here is named by its number.

    >>> pbcnf.names("+1 rain +1 x1 >= 1 ;")
    {2: 'rain'}
    """
    said = _calling.put_words("pbcnf_map", posed_text(opb))
    pairs = (line.split(" ") for line in said.splitlines())
    return {int(number): name for number, name in pairs}


# --- One constraint at a time


def constraint(terms: Terms, relation: Relation, right: int, *, first: int, **chosen: Unpack[Chosen]) -> Encoding:
    """The clauses of one constraint, whose fresh variables begin at `first`.

    `terms` are pairs of a coefficient and a literal, a variable's number or its negative; all variables are below `first`. The
    next constraint's `first` is `next_free` of what is given back; nothing else is kept from call to call.

    >>> pbcnf.constraint([(1, 1), (1, 2), (1, 3)], "<=", 1, first=4).clauses
    [[-1, -2], [-1, -3], [-2, -3]]
    """
    asked = posed_one(terms, relation, right, first, chosen)
    return _calling.put_clauses("pbcnf_constraint", asked, 32 * asked.amount + 256)


def derive_constraint(terms: Terms, relation: Relation, right: int, *, first: int, **chosen: Unpack[Chosen]) -> str:
    """The derivation of these clauses, beside the problem of this one constraint over the variables below `first`.

    >>> pbcnf.derive_constraint([(1, 1), (1, 2)], ">=", 1, first=3) == pbcnf.derive("+1 x1 +1 x2 >= 1 ;")
    True
    """
    asked = posed_one(terms, relation, right, first, chosen)
    return _calling.put_text("pbcnf_constraint_derive", asked, 512 * asked.amount + 4096)


# --- Many constraints in one call


def constraints(asked: Iterable[Asked], *, first: int, **chosen: Unpack[Chosen]) -> Encoding:
    """The clauses of many constraints, one after another, with their fresh variables from `first` on: what `constraint` makes of each
    with the first variable that is still free, in one call of the library.

    Each is a tuple of its terms, its relation and its right side. A literal after these is its condition: the constraint has to hold
    only if that is true. Unit propagation reaches from the condition all that each half forces, and the condition's negation if
    the half cannot hold. Where one is to blame, the error reports its number.

    >>> pbcnf.constraints([([(1, 1), (1, 2), (1, 3)], "<=", 1), ([(2, 1), (1, -2)], ">=", 2)], first=4).clauses
    [[-1, -2], [-1, -3], [-2, -3], [1]]
    >>> pbcnf.constraints([([(1, 1), (1, 2)], ">=", 1, 3)], first=4).clauses
    [[1, 2, -3]]
    """
    given = posed_all(asked, first, chosen)
    return _calling.put_clauses("pbcnf_constraints", given, 32 * given.amount + 256)


def derive_constraints(asked: Iterable[Asked], *, first: int, **chosen: Unpack[Chosen]) -> str:
    """The derivation of these clauses, beside the problem of these constraints over the variables below `first`.

    >>> asked = [([(1, 1), (1, 2)], ">=", 1), ([(1, 1), (1, 2)], "<=", 1)]
    >>> pbcnf.derive_constraints(asked, first=3) == pbcnf.derive("+1 x1 +1 x2 >= 1 ;\\n+1 x1 +1 x2 <= 1 ;")
    True
    """
    given = posed_all(asked, first, chosen)
    return _calling.put_text("pbcnf_constraints_derive", given, 512 * given.amount + 4096)
