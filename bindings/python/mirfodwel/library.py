"""The shared library: where it is found, what it exports, and how its buffers and statuses are handled."""

from __future__ import annotations

import ctypes
import functools
import os
import sys
from ctypes import POINTER, c_bool, c_char_p, c_size_t, c_uint8, c_uint32, c_uint64, c_void_p
from pathlib import Path
from typing import Any, Callable

from .errors import BadInput, Closed, Error, NoLibrary, OutOfMemory, Unknown

DONE, FAULT, BAD_INPUT, NO_MEMORY, NO_ROOM, WRONG_STATE, UNKNOWN = 0, 1, 2, 4, 5, 6, 7

# The count of candidates of a goal whose candidates are not known.
NOT_KNOWN = 0xFFFFFFFF

KINDS = "iucf"
OUTCOMES = ("yes", "no", "maybe", "overflow")
REPLIES = (*OUTCOMES, "noted", "begin")
FORMS = ("text", "dot", "json")
FAULTS = ("none", "memory", "conflict", "validation", "protocol")
CAUSES = ("none", "depth", "depth or runs", "runs", "unknown cycle", "forced cycle", "not known", "maybe before", "not noted")

NAME = "libmirfodwel.so"


class Sizes(ctypes.Structure):
    _fields_ = [(name, c_size_t) for name in ("goals", "candidates", "questions", "names")]


class Handle(ctypes.Structure):
    _fields_ = [("is_open", c_bool), ("inside", c_void_p)]


class RowFault(ctypes.Structure):
    _fields_ = [("list", c_uint8), ("place", c_size_t)]


class AnswerRow(ctypes.Structure):
    _fields_ = [
        ("started", c_uint64),
        ("node", c_size_t),
        ("outcome", c_uint8),
        ("fault", c_uint8),
        ("has_graph", c_bool),
        ("limits_met", c_bool),
    ]


class ReasonRow(ctypes.Structure):
    _fields_ = [
        ("started", c_uint64),
        ("by", c_uint32),
        ("asked", c_uint32),
        ("step", c_uint8),
        ("has_question", c_bool),
        ("kind", c_uint8),
        ("outcome", c_uint8),
        ("fault", c_uint8),
        ("limits_met", c_bool),
    ]


# Bytes with their number, a buffer with its room, and where the room goes that is used.
_IN = (c_char_p, c_size_t)
_ROWS = (c_void_p, c_size_t)
_OUT = (c_void_p, c_size_t, POINTER(c_size_t))
_SESSION = POINTER(Handle)

_ARGUMENTS = {
    "goals": (*_IN, *_OUT),
    "answers": (*_IN, *_OUT),
    "explain": (c_uint8, *_IN, *_OUT),
    "check": (*_IN, *_OUT),
    "subtypes": (*_IN, *_OUT),
    "read": (*_IN, *_ROWS, *_ROWS, *_ROWS, *_ROWS, POINTER(Sizes), POINTER(c_size_t)),
    "open": (_SESSION, *_ROWS, *_ROWS, *_ROWS, POINTER(RowFault)),
    "reopen": (_SESSION, *_ROWS, *_ROWS, *_ROWS, POINTER(RowFault)),
    "change": (_SESSION, *_ROWS, *_ROWS, *_ROWS, POINTER(RowFault)),
    "ask": (_SESSION, c_size_t, c_uint32, POINTER(AnswerRow)),
    "graph": (_SESSION, c_size_t, *_OUT),
    "check_graph": (_SESSION, c_uint32, c_uint8, *_ROWS, POINTER(c_bool)),
    "wanted": (_SESSION, *_OUT),
    "explain_goal": (_SESSION, c_uint8, c_size_t, c_uint32, *_IN, *_OUT),
    "cause": (_SESSION, c_size_t, c_uint32, POINTER(ReasonRow)),
    "last_fault": (_SESSION, *_OUT),
    "held": (_SESSION, POINTER(c_size_t)),
    "held_bytes": (_SESSION, POINTER(c_size_t)),
    "close": (_SESSION,),
}


def path() -> Path:
    """Where the library is: in the folder that MIRFODWEL_LIB names, if it is set, else beside the package or in the repository's `out`."""
    named = os.environ.get("MIRFODWEL_LIB")
    here = Path(__file__).resolve().parent
    folders = [Path(named)] if named else [here, here / "../../../out"]
    places = [folder / NAME for folder in folders]
    for place in places:
        if place.is_file():
            return Path(os.path.abspath(place))
    looked = " or ".join(map(os.path.normpath, places))
    raise NoLibrary(f"no library at {looked}: ./library in the repository builds out/{NAME}; MIRFODWEL_LIB may name another folder")


@functools.lru_cache(maxsize=None)
def _loaded() -> ctypes.CDLL:
    place = path()
    try:
        return ctypes.CDLL(str(place))
    except OSError as error:
        raise NoLibrary(f"{place} cannot be loaded: {error}") from None


@functools.lru_cache(maxsize=None)
def exported(name: str) -> Callable[..., int]:
    """The function mirfodwel_NAME. A call lets go of Python's lock while it runs, and is not interrupted by a signal."""
    try:
        function = getattr(_loaded(), f"mirfodwel_{name}")
    except AttributeError:
        raise NoLibrary(f"{path()} has no mirfodwel_{name}, so it is of another version: ./library builds it") from None
    function.argtypes = _ARGUMENTS[name]
    # A status is a byte: the other bits of the register are anything.
    function.restype = c_uint8
    return function


def filled(kind: Any, room: int, call: Callable[..., int]) -> tuple[int, Any]:
    """The status of call(buffer, room, used), and what items of this kind it wrote; called again where the room was too small."""
    while True:
        buffer, used = (kind * room)(), c_size_t()
        status = call(buffer, room, ctypes.byref(used))
        if status != NO_ROOM:
            return status, buffer[: used.value]
        room = used.value


def filled_text(room: int, call: Callable[..., int]) -> tuple[int, str]:
    """The same of bytes that are text."""
    status, told = filled(ctypes.c_char, room, call)
    return status, told.decode(errors="replace")


def error_of(status: int, reason: str = "") -> Error:
    """The exception for a status other than DONE and FAULT."""
    if status == BAD_INPUT:
        place = reason.split(":", 1)[0].split(" ")
        at = int(place[1]) if len(place) == 2 and place[1].isdigit() else None
        return BadInput(reason, at if place[0] == "line" else None, at if place[0] == "byte" else None)
    if status == NO_MEMORY:
        return OutOfMemory(reason or "memory is out")
    if status == WRONG_STATE:
        return Closed("the session is closed")
    if status == UNKNOWN:
        return Unknown(reason or "the session has no such goal or node")
    return Error(f"status {status} {reason}".rstrip())


def depth_number(number: int) -> int:
    """A depth as the library takes it: of a number that does not fit, ctypes would take a part."""
    if number < 0:
        raise ValueError("a depth is 0 or more")
    return min(number, sys.maxsize)
