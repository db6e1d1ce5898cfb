"""The functions of jumbetai.h, of a shared object that is loaded when the first of them is called."""
from __future__ import annotations

import ctypes
import functools
import os
from typing import Any

# The name by which the system's loader knows the library.
_NAME = "libjumbetai.so.0"


class Counts(ctypes.Structure):
    _fields_ = [("fresh", ctypes.c_uint64), ("repeated", ctypes.c_uint64)]


class Parts(ctypes.Structure):
    _fields_ = [("first", ctypes.c_uint64), ("second", ctypes.c_uint64)]


class OrderCounts(ctypes.Structure):
    _fields_ = [("base", ctypes.c_uint64), ("last", ctypes.c_uint64), ("orders", ctypes.c_uint64)]


class Body(ctypes.Structure):
    _fields_ = [("bytes", ctypes.c_char_p), ("length", ctypes.c_size_t)]


class Answer(ctypes.Structure):
    _fields_ = [("status", ctypes.c_int), ("counts", Counts)]


class Lag(ctypes.Structure):
    _fields_ = [("lacking", ctypes.c_uint64), ("ahead", ctypes.c_uint64), ("blocks", ctypes.c_uint64)]


class Text(ctypes.Structure):
    _fields_ = [("bytes", ctypes.c_void_p), ("length", ctypes.c_size_t), ("events", ctypes.c_uint64)]


def _where() -> str:
    beside = os.path.join(os.path.dirname(os.path.abspath(__file__)), "libjumbetai.so")
    return os.environ.get("JUMBETAI_LIB") or (beside if os.path.exists(beside) else _NAME)


@functools.lru_cache(maxsize=None)
def library() -> Any:
    """The shared object, its functions declared as the header declares them; OSError where it isn't found."""
    loaded = ctypes.CDLL(_where())
    raw, text, counts = ctypes.c_void_p, ctypes.POINTER(Text), ctypes.POINTER(Counts)
    given, size, number, status = ctypes.c_char_p, ctypes.c_size_t, ctypes.c_uint64, ctypes.c_int
    made, order_counts, bodies = ctypes.POINTER(raw), ctypes.POINTER(OrderCounts), ctypes.POINTER(Body)
    calls: dict[str, tuple[Any, list[Any]]] = {
        "open": (raw, []),
        "open_file": (status, [given, ctypes.c_uint32, made]),
        "close": (None, [raw]),
        "count": (number, [raw]),
        "take": (status, [raw, given, size, counts]),
        "take_each": (status, [raw, bodies, size, ctypes.POINTER(Answer)]),
        "test": (status, [given, size, ctypes.POINTER(number)]),
        "check": (status, [raw, given, size, text]),
        "keep_views": (status, [raw]),
        "ask": (status, [raw, status, text]),
        "get": (status, [raw, given, size, given, size, text]),
        "summary": (status, [raw, text]),
        "delta": (status, [raw, given, size, number, text]),
        "delta_part": (status, [raw, given, size, number, number, number, text]),
        "cover": (status, [raw, text]),
        "name": (status, [raw, given]),
        "compare": (status, [raw, given, size, ctypes.POINTER(Lag)]),
        "arrivals": (status, [raw, number, text]),
        "copy": (status, [raw, made]),
        "release": (None, [raw]),
        "page": (status, [raw, number, text]),
        "open_outbox": (status, [given, given, number, ctypes.c_uint32, made]),
        "close_outbox": (None, [raw]),
        "order": (status, [raw, status, number, given, text]),
        "rows": (status, [raw, number, text]),
        "outbox_counts": (None, [raw, order_counts]),
        "open_numbers": (status, [given, ctypes.c_uint32, number, made]),
        "close_numbers": (None, [raw]),
        "number": (status, [raw, given, size, text]),
        "part": (status, [given, size, number, ctypes.POINTER(number)]),
        "split": (status, [raw, given, size, number, text]),
        "combine": (status, [raw, status, bodies, size, bodies, size, ctypes.POINTER(Parts), text]),
        "combine_summaries": (status, [raw, bodies, size, ctypes.POINTER(Parts), text]),
        "free": (None, [text]),
        "why": (status, []),
        "words": (ctypes.c_char_p, [status]),
        "version": (ctypes.c_char_p, []),
    }
    for call, (result, arguments) in calls.items():
        function = getattr(loaded, f"jumbetai_{call}")
        function.restype, function.argtypes = result, arguments
    return loaded


def bytes_at(address: int | None, length: int) -> ctypes.Array[ctypes.c_char]:
    """The bytes that lie there, of any length: ctypes.string_at has an int of C for it, which cuts it off."""
    kind = ctypes.c_char * length
    return kind.from_address(address) if address else kind()
