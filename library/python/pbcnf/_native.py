"""The C library: its structs and calls as pbcnf.h has them, and where it is found."""

from __future__ import annotations

import ctypes
import functools
import os
import struct
import sys
from typing import Dict, List

from pbcnf.errors import NoLibrary

DONE, NO_ROOM = 0, 5
# What goes with the terms of a sum: the relation, the condition, how many terms it has, and the words of the right side.
SUM = struct.Struct("=IiQQq")
# Which structs and numbers are those below, as PBCNF_ABI of the header.
ABI = 1
_NAME = "libpbcnf.so.0"


class Options(ctypes.Structure):
    _fields_ = [(name, ctypes.c_uint32) for name in ("amo", "card", "general", "equal", "table", "budget")]


class Bound(ctypes.Structure):
    _fields_ = [("set", ctypes.c_uint64), ("low", ctypes.c_uint64), ("high", ctypes.c_uint64)]


class Size(ctypes.Structure):
    _fields_ = [("vars", ctypes.c_uint32), ("original", ctypes.c_uint32), ("clauses", ctypes.c_uint64), ("length", ctypes.c_uint64)]


class Costs(ctypes.Structure):
    _fields_ = [("low", ctypes.c_uint64), ("high", ctypes.c_int64), ("length", ctypes.c_uint64)]


class Side(ctypes.Structure):
    _fields_ = [("relation", ctypes.c_uint32), ("first", ctypes.c_uint32), ("low", ctypes.c_uint64), ("high", ctypes.c_uint64)]


class Row(ctypes.Structure):
    _fields_ = [("low", ctypes.c_uint64), ("high", ctypes.c_int64), ("literal", ctypes.c_int32), ("unused", ctypes.c_int32)]


class Refusal(ctypes.Structure):
    _fields_ = [("line", ctypes.c_uint64), ("column", ctypes.c_uint64), ("number", ctypes.c_uint64), ("status", ctypes.c_uint32),
                ("file", ctypes.c_uint32), ("expected", ctypes.c_uint32), ("limit", ctypes.c_uint32), ("denied", ctypes.c_uint32),
                ("unproved", ctypes.c_uint32)]


def _signatures() -> Dict[str, List[object]]:
    """The types of the calls' parameters. A text, an array and a room are each a pointer and a count."""
    pointer, text = ctypes.POINTER, [ctypes.c_char_p, ctypes.c_size_t]
    bound, refusal, length = pointer(Bound), pointer(Refusal), pointer(ctypes.c_uint64)
    block = [ctypes.c_void_p, ctypes.c_size_t]
    room = block
    posed = [*text, pointer(Options), bound]
    posed_one = [*block, *block, pointer(Side), pointer(Options)]
    posed_all = [*block, *block, *text, ctypes.c_uint32, pointer(Options)]
    sized = [pointer(Size), refusal]
    return {
        "pbcnf_encode": posed + room + sized,
        "pbcnf_clauses": posed + room + sized,
        "pbcnf_derive": posed + room + sized,
        "pbcnf_bounds": posed + room + sized,
        "pbcnf_wcnf": posed + room + sized,
        "pbcnf_check": [*text, bound, *text, *text, refusal],
        "pbcnf_refute": [*text, bound, *text, *text, *text, refusal],
        "pbcnf_decode": [*text, bound, *text, *room, length, refusal],
        "pbcnf_map": [*text, *room, length, refusal],
        "pbcnf_softs": [*text, bound, *room, pointer(Costs), refusal],
        "pbcnf_constraint": posed_one + room + sized,
        "pbcnf_constraint_derive": posed_one + room + sized,
        "pbcnf_constraints": posed_all + room + sized,
        "pbcnf_constraints_derive": posed_all + room + sized,
        "pbcnf_words": [refusal, *room, length],
    }


def _there(*folders: str) -> List[str]:
    """The libraries in those of these folders that have one, by their ways from this file."""
    here = os.path.dirname(os.path.realpath(__file__))
    places = (os.path.join(here, folder, _NAME) for folder in folders)
    return [place for place in places if os.path.exists(place)]


def _places() -> List[str]:
    """Where the library may be, the likeliest first."""
    named = os.environ.get("PBCNF_LIBRARY")
    if named:
        return [named]
    # In the repository there may be one that was built, and one that lies ready.
    ready = "../../../release/%s-%s" % (os.uname().machine, sys.platform)
    newest = sorted(_there("../../out", ready), key=os.path.getmtime, reverse=True)
    return _there("", "../../../lib") + newest + [_NAME]


def _open(place: str) -> ctypes.CDLL:
    try:
        return ctypes.CDLL(place)
    except OSError as error:
        raise NoLibrary("pbcnf: the C library was not found: %s" % error) from None


@functools.lru_cache(maxsize=None)
def library() -> ctypes.CDLL:
    """The library, once it is found and has this module's interface and calls."""
    place = _places()[0]
    found = _open(place)
    try:
        _judge_interface(found)
        for name, parameters in _signatures().items():
            call = getattr(found, name)
            call.argtypes, call.restype = parameters, ctypes.c_uint8
    except AttributeError as error:
        raise NoLibrary("pbcnf: the library %s is of another version: %s" % (place, error)) from None
    return found


def _judge_interface(found: ctypes.CDLL) -> None:
    """Refuses a library whose calls have other structs or numbers."""
    found.pbcnf_abi.argtypes, found.pbcnf_abi.restype = [], ctypes.c_uint32
    if found.pbcnf_abi() != ABI:
        raise NoLibrary("pbcnf: the library has the interface %d, and this module %d" % (found.pbcnf_abi(), ABI))
