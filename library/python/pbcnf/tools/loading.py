"""The constraints that the program loads for a problem, by their numbers, and the objective: docs/FORMATS.md once more, for a text that
the program has accepted. That stays the judge of what is made of them."""

from __future__ import annotations

import re
from typing import Dict, Iterator, List, NamedTuple, Optional, Tuple

Terms = List[Tuple[int, int]]
_COMMENT = re.compile(rb"(?:(?<=[ \t\r\n;=<>:])|\A)\*[^\n]*")
_TOLD = re.compile(rb"\*[ \t\r]+#variable=[ \t\r]+([0-9]+)[ \t\r\n]")
_TOKEN = re.compile(rb">=|<=|[;=]|[^ \t\r\n;=<>:]*:|[^ \t\r\n;=<>:]+")
_NUMBERED = re.compile(rb"x0*[1-9][0-9]*\Z")
_RELATIONS = (b">=", b"=", b"<=")


class Constraint(NamedTuple):
    """The coefficients of the true literals, which are above 0, add up to the degree at least."""

    terms: Terms
    degree: int


class Loaded(NamedTuple):
    """What a derivation begins with, but for a bound on the objective; and the objective's sum, if there is one."""

    variables: int
    """Those of products are among them."""
    constraints: List[Constraint]
    objective: Optional[Terms]


def load(text: bytes) -> Loaded:
    """The constraints of an OPB text."""
    return _Reader(text).loaded()


def at_least(terms: Terms, degree: int) -> Constraint:
    """The constraint in normal form that a sum is at least so much."""
    net: Dict[int, int] = {}
    for coefficient, literal in terms:
        if literal < 0:
            degree -= coefficient
        net[abs(literal)] = net.get(abs(literal), 0) + (coefficient if literal > 0 else -coefficient)
    made = [(abs(coefficient), variable if coefficient > 0 else -variable) for variable, coefficient in net.items() if coefficient]
    return Constraint(made, degree - sum(coefficient for coefficient in net.values() if coefficient < 0))


def at_most(terms: Terms, bound: int) -> Constraint:
    """The constraint in normal form that a sum is at most so much."""
    return at_least([(-coefficient, literal) for coefficient, literal in terms], -bound)


class _Reader:
    """Goes through the tokens twice: numbers go by names, and products stand after all of them."""

    def __init__(self, text: bytes) -> None:
        told = _TOLD.match(text)
        self._tokens = _TOKEN.findall(_COMMENT.sub(b"", text))
        names = dict.fromkeys(token.lstrip(b"~") for token in self._tokens if token[:1].isalpha() or token[:1] in (b"~", b"_"))
        names.pop(b"min:", None)
        self._numbers = {name: int(name[1:]) for name in names if _NUMBERED.match(name)}
        numbered = max([int(told.group(1)) if told else 0, *self._numbers.values()])
        free = (name for name in names if name not in self._numbers)
        self._numbers.update((name, number) for number, name in enumerate(list(free), numbered + 1))
        self._named = numbered + sum(not _NUMBERED.match(name) for name in names)
        self._products: Dict[Tuple[int, ...], int] = {}

    def loaded(self) -> Loaded:
        objective: Optional[Terms] = None
        constraints: List[Constraint] = []
        for terms, relation, right in self._statements():
            if not relation:
                objective = terms
            if relation in (b">=", b"="):
                constraints.append(at_least(terms, right))
            if relation in (b"<=", b"="):
                constraints.append(at_most(terms, right))
        return Loaded(self._named + len(self._products), [*self._defining(), *constraints], objective)

    def _statements(self) -> Iterator[Tuple[Terms, bytes, int]]:
        """Each sum, with its relation and what stands on the right; the objective has none."""
        words: List[bytes] = []
        for token in self._tokens:
            if token != b";":
                words.append(token)
                continue
            relation = words[-2] if len(words) > 1 and words[-2] in _RELATIONS else b""
            terms = self._terms(words[1:] if not relation else words[:-2])
            yield terms, relation, int(words[-1]) if relation else 0
            words = []

    def _terms(self, words: List[bytes]) -> Terms:
        terms: Terms = []
        factors: List[int] = []
        coefficient: Optional[int] = None
        for word in [*words, b"0"]:
            if word[:1] in b"+-0123456789":
                literal = self._product(factors) if coefficient is not None else None
                if literal is not None and coefficient is not None:
                    terms.append((coefficient, literal))
                coefficient, factors = int(word), []
            else:
                number = self._numbers[word.lstrip(b"~")]
                factors.append(-number if word.startswith(b"~") else number)
        return terms

    def _product(self, factors: List[int]) -> Optional[int]:
        """The literal for a product, or None where it is 0."""
        literals = tuple(sorted(set(factors), key=abs))
        if any(-literal in literals for literal in literals):
            return None
        return literals[0] if len(literals) == 1 else self._products.setdefault(literals, self._named + len(self._products) + 1)

    def _defining(self) -> Iterator[Constraint]:
        """The constraints that say that a product is true exactly where all its literals are."""
        for literals, product in self._products.items():
            for literal in literals:
                yield Constraint([(1, literal), (1, -product)], 1)
            yield Constraint([(1, product), *((1, -literal) for literal in literals)], 1)
