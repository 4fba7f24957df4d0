"""How a call of the library is made: the room that it fills, and what its refusal is raised as."""

from __future__ import annotations

import ctypes
import struct
import threading
from array import array
from typing import Callable, List, Tuple, TypeVar, Union

from pbcnf._arguments import Posed
from pbcnf._native import DONE, NO_ROOM, Costs, Refusal, Row, Size, library
from pbcnf._waiting import status_of
from pbcnf.errors import Error, Usage, error_of
from pbcnf.results import Clauses, Encoding

Told = Union[Size, Costs, ctypes.c_uint64]
Made = TypeVar("Made")

# Each thread keeps the room of its last call up to so many bytes, since the next one takes about as much.
_KEPT = 1 << 20
_own = threading.local()


def error(refusal: Refusal) -> Error:
    """What a refusal is raised as, with the words that the library has for it."""
    said, length = (ctypes.c_uint8 * 256)(), ctypes.c_uint64()
    library().pbcnf_words(refusal, said, len(said), length)
    return error_of(refusal, bytes(said[:length.value]).decode("ascii"))


def put(name: str, posed: Posed, told: Told, item: int, room: int, made: Callable[[memoryview], Made]) -> Made:
    """What is made of the bytes that a call puts: items of so many bytes each, for as many of which there is room at least. Where
    that is too little the library reports how many there are, and is called again."""
    refusal, filled = Refusal(), _take_room()
    while True:
        if len(filled) < item * room:
            # What Python's allocator gives is aligned for any type.
            filled = array("B", [0]) * (item * room)
        given = (*posed.given, filled.buffer_info()[0], len(filled) // item, told, refusal)
        status = status_of(getattr(library(), name), given, filled, posed.may_be_long)
        if status == Usage.status:
            raise posed.usage()
        if status not in (DONE, NO_ROOM):
            raise error(refusal)
        room = told.value if isinstance(told, ctypes.c_uint64) else told.length
        if status == DONE:
            result = made(memoryview(filled)[:item * room])
            _give_room(filled)
            return result


def _take_room() -> array[int]:
    """The room that this thread keeps, which is nobody else's until it is given back: a signal's handler may call too."""
    kept: array[int] = _own.__dict__.pop("room", None) or array("B", [0])
    return kept


def _give_room(room: array[int]) -> None:
    if len(room) <= _KEPT:
        _own.room = room


def put_text(name: str, posed: Posed, room: int) -> str:
    """The text that a call puts which reports a size."""
    return put(name, posed, Size(), 1, room, _text)


def put_words(name: str, posed: Posed) -> str:
    """The text that a call puts which reports its length alone."""
    return put(name, posed, ctypes.c_uint64(), 1, 4 * posed.amount + 64, _text)


def _text(put: memoryview) -> str:
    return str(put, "ascii")


def put_clauses(name: str, posed: Posed, room: int) -> Encoding:
    """The clauses that a call puts as integers."""
    size = Size()
    packed = put(name, posed, size, ctypes.sizeof(ctypes.c_int32), room, memoryview.tobytes)
    return Encoding(size.vars, size.original, Clauses(packed, size.clauses))


def put_rows(name: str, posed: Posed, room: int) -> List[Tuple[int, int]]:
    """The values and literals of the rows that a call puts."""
    return put(name, posed, Size(), ctypes.sizeof(Row), room, _rows)


def put_softs(name: str, posed: Posed, room: int) -> Tuple[int, List[Tuple[int, int]]]:
    """The offset, and the weights and literals of the rows that a call puts."""
    costs = Costs()
    rows = put(name, posed, costs, ctypes.sizeof(Row), room, _rows)
    return (costs.high << 64) + costs.low, rows


def _rows(put: memoryview) -> List[Tuple[int, int]]:
    return [((high << 64) + low, literal) for low, high, literal, _ in struct.iter_unpack("=Qqii", put)]


def judge(name: str, posed: Posed) -> None:
    """Makes a call that judges texts, and puts nothing."""
    refusal = Refusal()
    if status_of(getattr(library(), name), (*posed.given, refusal), None, posed.may_be_long) != DONE:
        raise error(refusal)
