"""What the calls of the library are passed: the values of Python as texts, numbers and arrays, or why they are none."""

from __future__ import annotations

import ctypes
import re
import struct
from array import array
from collections.abc import Mapping as Mappings
from operator import index
from typing import Any, Callable, Dict, Iterable, List, Mapping, NamedTuple, Optional, Tuple

from pbcnf._native import SUM, Bound, Options, Side
from pbcnf.errors import LimitPassed, Usage

WORDS: Dict[str, Tuple[str, ...]] = {
    "amo": ("auto", "pairwise", "ladder", "product"),
    "card": ("auto", "counter", "totalizer"),
    "general": ("diagram", "tree", "adder"),
    "equal": ("split", "joint"),
}
RELATIONS = {">=": 0, "<=": 1, "=": 2}
_BUDGET, _MOST_BUDGET, _MOST_FIRST = 50_000, 10_000_000, 1 << 31
_MOST_TERMS, _MOST_WEIGHT = 1 << 20, 1 << 100


def usage(words: str) -> Usage:
    return Usage("pbcnf: usage: " + words)


# --- Texts


def text_of(value: Any) -> bytes:
    """A text's bytes: of a `str`, or of anything whose bytes can be seen, as `bytes`, `bytearray`, `memoryview` and `mmap`."""
    if isinstance(value, bytes):
        return value
    text = _text_in(value)
    if text is None:
        raise TypeError("a text is str or bytes, and not %s" % type(value).__name__)
    return text


def _text_in(value: Any) -> Optional[bytes]:
    if isinstance(value, str):
        return value.encode("utf-8", "surrogateescape")
    try:
        view = memoryview(value)
    except TypeError:
        return None
    # An array of numbers that are no bytes is no text.
    return view.tobytes() if view.format in ("B", "c") else None


def model_of(value: Any) -> bytes:
    """A solver's text, or the one of a solver whose model has these true literals."""
    text = _text_in(value)
    if text is not None:
        return text
    if isinstance(value, Mappings):
        raise TypeError("a model is a solver's text or its true literals, and not %s" % type(value).__name__)
    literals = [_literal(literal) for literal in value]
    listed = set(literals)
    both = next((literal for literal in literals if literal and -literal in listed), None)
    if both is not None:
        raise usage("the model has both %d and %d" % (both, -both))
    return b"s SATISFIABLE\nv %s 0\n" % " ".join(str(literal) for literal in literals if literal).encode()


def _literal(value: Any) -> int:
    if isinstance(value, bool):
        raise TypeError("a literal is a whole number, and not %s" % value)
    literal = index(value)
    if abs(literal) >= _MOST_FIRST:
        raise usage("no variable has the literal %d" % literal)
    return literal


# --- Options and bounds


def options_of(chosen: Mapping[str, Any], table: bool = False) -> Options:
    options = Options(budget=_BUDGET, table=bool(table))
    for name, value in chosen.items():
        if name in WORDS:
            if value not in WORDS[name]:
                raise usage("%s is one of %s, and not %r" % (name, ", ".join(WORDS[name]), value))
            setattr(options, name, WORDS[name].index(value))
        elif name == "budget":
            options.budget = _within(index(value))
        else:
            raise TypeError("%s is no option" % name)
    return options


def _within(value: int) -> int:
    """A number, or 0 in the place of one that the type has not, which is no budget and no first variable either."""
    return value if 0 <= value < 1 << 32 else 0


def bound_of(at_most: Optional[int]) -> Bound:
    return Bound() if at_most is None else Bound(1, *_words(index(at_most), "at_most"))


def _words(value: int, what: str) -> Tuple[int, int]:
    """A number in two's complement of 128 bits, as its low and its high word."""
    if not -(1 << 127) <= value < 1 << 127:
        raise usage("%s does not fit in 128 bits" % what)
    return value & ((1 << 64) - 1), (value >> 64) & ((1 << 64) - 1)


# --- A whole problem, one constraint, and many


class Posed(NamedTuple):
    """What a call is passed before its room."""

    given: List[object]
    amount: int
    """The bytes of the text, or the terms of the constraint: by these a room is guessed."""
    usage: Callable[[], Usage] = lambda: usage("the library takes none of these numbers")
    """Says what the library does not take, once it has refused the numbers."""
    may_be_long: bool = False
    """Whether the call may take longer than somebody waits who has pressed Ctrl-C."""


# A call in a thread of its own takes some 50 microseconds more. Texts and sums up to these sizes mostly take less than a millisecond,
# and with the hardest weights, and any budget, about a second.
_SHORT_TEXT, _SHORT_STATEMENT = 20_000, 150
_FEW_TERMS, _FEW_IN_ONE, _LITTLE_WORK = 10_000, 16, 100_000
_SHORT_STATEMENTS = re.compile(rb"(?:[^;]{0,%d};)*" % _SHORT_STATEMENT)
_ABSOLUTE: Callable[[int], int] = abs
# A number before a literal.
_COEFFICIENT = re.compile(rb"(?<![^\s+-])[0-9]+(?=\s+[~A-Za-z_])")


def posed(opb: Any, at_most: Optional[int], chosen: Mapping[str, Any], table: bool = False) -> Posed:
    text, options, bound = text_of(opb), options_of(chosen, table), bound_of(at_most)
    return Posed([text, len(text), options, bound], len(text), lambda: _usage_of(chosen), _is_long_to_encode(text))


def _is_long_to_encode(text: bytes) -> bool:
    """Whether it is long, or has a sum of much work. Of the weights just their digits are counted, since there may be thousands."""
    if len(text) <= _SHORT_STATEMENT or len(text) > _SHORT_TEXT:
        return len(text) > _SHORT_TEXT
    short = _SHORT_STATEMENTS.match(text)
    if short and len(text) - short.end() <= _SHORT_STATEMENT:
        return False
    found = [_COEFFICIENT.findall(statement) for statement in text.split(b";") if len(statement) > _SHORT_STATEMENT]
    digits = max((len(coefficient) for coefficients in found for coefficient in coefficients), default=0)
    if not digits:
        return False
    weight: int = 5 * 10 ** min(digits - 1, 9)
    return max(map(len, found)) * sum(map(len, found)) * weight > _LITTLE_WORK


def posed_text(opb: Any) -> Posed:
    """A problem alone."""
    text = text_of(opb)
    return Posed([text, len(text)], len(text), may_be_long=len(text) > _SHORT_TEXT)


def posed_texts(opb: Any, at_most: Optional[int], *others: bytes) -> Posed:
    """A problem and its bound, and what is said of it: a call takes time by the length of all."""
    texts = (text_of(opb), *others)
    given: List[object] = [part for text in texts for part in (text, len(text))]
    given.insert(2, bound_of(at_most))
    return Posed(given, len(texts[0]), may_be_long=sum(map(len, texts)) > _SHORT_TEXT)


class _Block:
    """An array that a call is passed by its address, and which has one even if it is empty."""

    def __init__(self, items: array[int]) -> None:
        self.items = items if items else array(items.typecode, [0])
        self._as_parameter_ = ctypes.c_void_p(self.items.buffer_info()[0])


def posed_one(terms: Iterable[Tuple[int, int]], relation: str, right: int, first: int, chosen: Mapping[str, Any]) -> Posed:
    pairs = list(terms)
    coefficients, literals = _coefficients([coefficient for coefficient, _ in pairs]), _literals([literal for _, literal in pairs])
    if relation not in RELATIONS:
        raise usage("a relation is one of >=, <= and =, and not %r" % (relation,))
    side = Side(RELATIONS[relation], _within(index(first)), *_words(index(right), "the right side"))
    given = [_Block(coefficients), len(coefficients), _Block(literals), len(literals), side, options_of(chosen)]
    is_long = _is_long_to_sum(coefficients, len(pairs), len(pairs))
    return Posed(given, len(pairs), lambda: _usage_of_one([index(literal) for _, literal in pairs], index(first), chosen), is_long)


def _is_long_to_sum(coefficients: array[int], terms: int, most: int) -> bool:
    """Whether constraints of so many terms, of which one has `most`, may take long: a diagram has up to a node for each term and each
    value of the sum. The coefficients are those of all, and large if they take two words each."""
    if most <= _FEW_IN_ONE or terms > _FEW_TERMS:
        return terms > _FEW_TERMS
    return coefficients.typecode == "Q" or most * sum(map(_ABSOLUTE, coefficients)) > _LITTLE_WORK


def sum_of(terms: Iterable[Tuple[int, int]], first: int, chosen: Mapping[str, Any]) -> Tuple[List[Tuple[int, int]], str]:
    """The terms of a sum, once its literals are of variables below `first`, and a problem of these variables with the sum as its
    objective alone."""
    pairs = [(index(coefficient), index(literal)) for coefficient, literal in terms]
    mistake = _mistaken(index(first), chosen)
    if mistake is not None:
        raise mistake
    for number, (_, literal) in enumerate(pairs, 1):
        if not 1 <= abs(literal) < first:
            raise _usage_of_literal("literal of term %d" % number, literal, first)
    # As the library, but without a place in a text that nobody has written.
    if len(pairs) > _MOST_TERMS:
        raise _passed("terms")
    if sum(abs(coefficient) for coefficient, _ in pairs) >= _MOST_WEIGHT:
        raise _passed("weight")
    listed = "".join("%+d %sx%d " % (coefficient, "~" if literal < 0 else "", abs(literal)) for coefficient, literal in pairs)
    return pairs, "* #variable= %d\nmin: %s;\n" % (first - 1, listed)


def _passed(limit: str) -> LimitPassed:
    error = LimitPassed("pbcnf: totals: limit " + limit)
    error.limit = limit
    return error


def posed_all(constraints: Iterable[Any], first: int, chosen: Mapping[str, Any]) -> Posed:
    """Each constraint is a tuple of its terms, its relation and its right side, and of a condition, if it has one."""
    coefficients: List[int] = []
    literals: List[int] = []
    sums: List[bytes] = []
    conditions: List[int] = []
    most = 0
    for terms, relation, right, *condition in constraints:
        before = len(literals)
        for coefficient, literal in terms:
            coefficients.append(coefficient)
            literals.append(literal)
        count = len(literals) - before
        conditions.append(_condition(*condition))
        sums.append(_packed(len(sums) + 1, count, relation, right, conditions[-1]))
        if count > most:
            most = count
    words, numbers = _coefficients(coefficients), _literals(literals)
    given = [_Block(words), len(words), _Block(numbers), len(numbers), b"".join(sums), len(sums), _within(index(first)), options_of(chosen)]
    return Posed(given, len(literals), lambda: _usage_of_all(sums, conditions, [index(literal) for literal in literals], index(first), chosen),
                 _is_long_to_sum(words, len(literals), most))


def _condition(literal: int = 0) -> int:
    """The literal under which alone a constraint is asked, or 0."""
    return index(literal)


def _packed(number: int, terms: int, relation: str, right: int, condition: int) -> bytes:
    """The condition, the relation and the right side of the constraint of this number. For a condition that is none the library is passed one that it refuses."""
    value, literal = index(right), condition if abs(condition) < _MOST_FIRST else -_MOST_FIRST
    try:
        return SUM.pack(RELATIONS[relation], literal, terms, value & ((1 << 64) - 1), value >> 64)
    except KeyError:
        raise usage("the relation of constraint %d is %r, and not one of >=, <= and =" % (number, relation)) from None
    except struct.error:
        raise usage("the right side of constraint %d does not fit in 128 bits" % number) from None


def _coefficients(values: List[int]) -> array[int]:
    """A word for each, if one is enough, else two."""
    try:
        return array("q", values)
    except OverflowError:
        return array("Q", [word for value in values for word in _words(index(value), "a coefficient")])


def _literals(values: List[int]) -> array[int]:
    """The literals, with 0 in the place of a number that is none, so that the library refuses it."""
    try:
        return array("i", values)
    except OverflowError:
        return array("i", [literal if abs(literal) < _MOST_FIRST else 0 for literal in map(index, values)])


# --- What it is that the library does not take


def _usage_of(chosen: Mapping[str, Any]) -> Usage:
    return usage("the budget is %d, and not from 1 to %d" % (index(chosen.get("budget", _BUDGET)), _MOST_BUDGET))


def _usage_of_one(literals: List[int], first: int, chosen: Mapping[str, Any]) -> Usage:
    mistake = _mistaken(first, chosen)
    if mistake is not None:
        return mistake
    number = _outside(literals, first)
    return _usage_of_literal("literal of term %d" % (number + 1), literals[number], first)


def _usage_of_all(sums: List[bytes], conditions: List[int], literals: List[int], first: int, chosen: Mapping[str, Any]) -> Usage:
    mistake = _mistaken(first, chosen)
    if mistake is not None:
        return mistake
    for constraint, condition in enumerate(conditions, 1):
        if condition and not 1 <= abs(condition) < first:
            return _usage_of_literal("condition of constraint %d" % constraint, condition, first)
    number = term = _outside(literals, first)
    for constraint, packed in enumerate(sums, 1):
        terms = SUM.unpack(packed)[2]
        if term < terms:
            break
        term -= terms
    return _usage_of_literal("literal of term %d of constraint %d" % (term + 1, constraint), literals[number], first)


def _mistaken(first: int, chosen: Mapping[str, Any]) -> Optional[Usage]:
    """Whether the budget or the first fresh variable is out of its range."""
    if not 1 <= index(chosen.get("budget", _BUDGET)) <= _MOST_BUDGET:
        return _usage_of(chosen)
    if not 1 <= first <= _MOST_FIRST:
        return usage("the first fresh variable is %d, and not from 1 to %d" % (first, _MOST_FIRST))
    return None


def _outside(literals: List[int], first: int) -> int:
    """The place of the first literal that is of no variable below the first fresh one."""
    return next(number for number, literal in enumerate(literals) if not 1 <= abs(literal) < first)


def _usage_of_literal(what: str, literal: int, first: int) -> Usage:
    return usage("the %s is %d, and not of a variable from 1 to %d" % (what, literal, first - 1))
