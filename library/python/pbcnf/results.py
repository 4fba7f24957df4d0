"""What the calls give back."""

from __future__ import annotations

from array import array
from typing import Dict, Iterator, List, NamedTuple, Optional, Sequence, Union, overload


class Clauses(Sequence[List[int]]):
    """Clauses in order, each as a list of its literals, which is made when it is asked for. They equal a list of such lists.

    >>> clauses = pbcnf.encode("+2 x1 +1 x2 +1 x3 >= 3 ;").clauses
    >>> len(clauses), clauses[-1], clauses == [[1], [2, 3]]
    (2, [2, 3], True)
    """

    def __init__(self, packed: bytes, count: int) -> None:
        self._packed, self._count = packed, count
        self._ends: Optional[array[int]] = None

    @property
    def integers(self) -> memoryview:
        """The literals of each clause, and 0 after each."""
        return memoryview(self._packed).cast("i")

    def __len__(self) -> int:
        return self._count

    def __iter__(self) -> Iterator[List[int]]:
        clause: List[int] = []
        for integer in self.integers:
            if integer:
                clause.append(integer)
            else:
                yield clause
                clause = []

    @overload
    def __getitem__(self, index: int) -> List[int]: ...

    @overload
    def __getitem__(self, index: slice) -> List[List[int]]: ...

    def __getitem__(self, index: Union[int, slice]) -> Union[List[int], List[List[int]]]:
        if isinstance(index, slice):
            return [self[number] for number in range(len(self))[index]]
        number, ends = range(len(self))[index], self._places()
        return self.integers[ends[number - 1] + 1 if number else 0:ends[number]].tolist()

    def _places(self) -> array[int]:
        """The places of the zeros, which are looked for once."""
        if self._ends is None:
            ends, at = array("q"), -1
            for clause in self:
                at += len(clause) + 1
                ends.append(at)
            self._ends = ends
        return self._ends

    def __eq__(self, other: object) -> bool:
        if isinstance(other, Clauses):
            return self._packed == other._packed
        return isinstance(other, list) and list(self) == other

    def __hash__(self) -> int:
        return hash(self._packed)

    def __repr__(self) -> str:
        return repr(list(self))


class Encoding:
    """The clauses of a problem, or of one constraint. `for clause in encoding` goes through them, `len(encoding)` counts them.

    variables: the last variable that is taken.
    original: the variables before those of products and the fresh ones: those of the problem, or those below the first fresh one.
    clauses: a sequence of lists, each the literals of a clause.

    >>> encoding = pbcnf.encode("+1 x1 +1 x2 +1 x3 <= 1 ;", amo="ladder")
    >>> len(encoding), encoding.variables, encoding.next_free, encoding.integers[:3].tolist()
    (5, 5, 6, [-5, 4, 0])
    """

    def __init__(self, variables: int, original: int, clauses: Clauses) -> None:
        self._parts = variables, original, clauses

    @property
    def variables(self) -> int:
        """The last variable that is taken."""
        return self._parts[0]

    @property
    def original(self) -> int:
        """The variables before those of products and the fresh ones."""
        return self._parts[1]

    @property
    def clauses(self) -> Clauses:
        """The clauses in order, each as a list of its literals."""
        return self._parts[2]

    @property
    def integers(self) -> memoryview:
        """The literals of each clause, a variable's number or its negative, and then 0, as IPASIR takes them: a view of integers of
        32 bits that nobody can write, for `list`, for numpy's `frombuffer` or for a solver."""
        return self.clauses.integers

    @property
    def next_free(self) -> int:
        """The first variable that is still free: the `first` of the next constraint."""
        return self.variables + 1

    def __iter__(self) -> Iterator[List[int]]:
        return iter(self.clauses)

    def __len__(self) -> int:
        return len(self.clauses)

    def __eq__(self, other: object) -> bool:
        return isinstance(other, Encoding) and self._parts == other._parts

    def __hash__(self) -> int:
        return hash(self._parts)

    def __repr__(self) -> str:
        return "<Encoding: %d of %d variables, %d clauses>" % (self.original, self.variables, len(self))


class Solution(NamedTuple):
    """A solution of a problem, whose every statement was tested.

    text: what the program says of it: its `o`, `s` and `v` lines.
    objective: the value of the objective, if there is one.
    values: whether each variable is true, by its name, in the order of the variables.

    >>> pbcnf.decode("min: +2 rain +3 sun ;\\n+1 rain +1 sun = 1 ;", [1])
    Solution(text='o 2\\ns SATISFIABLE\\nv rain -sun\\n', objective=2, values={'rain': True, 'sun': False})
    """

    text: str
    objective: Optional[int]
    values: Dict[str, bool]
