"""The C library: where it is, and its functions and structures (farmap.h)."""
from __future__ import annotations

import ctypes
import ctypes.util
import os
from ctypes import POINTER, Structure, c_char_p, c_int, c_size_t, c_uint32, c_uint64, c_void_p
from pathlib import Path

OK, NONE, OTHER = 0, 1, 2
BUSY, FORKED, CLOSED = 26, 28, 29
HANDSHAKE = 1
REASON = 512


class LentBytes(Structure):
    """farmap_bytes that are handed over. The bytes of a c_char_p may have NULs, as only C reads them."""
    _fields_ = [("data", c_char_p), ("length", c_size_t)]


class FoundBytes(Structure):
    """farmap_bytes that are returned."""
    _fields_ = [("data", c_void_p), ("length", c_size_t)]


class Pair(Structure):
    _fields_ = [("key", FoundBytes), ("value", FoundBytes)]


class Options(Structure):
    _fields_ = [("memory", c_uint64), ("pairs", c_uint64), ("folders", POINTER(c_char_p)), ("sessions", c_uint32),
                ("flags", c_uint32), ("names", c_uint64), ("reserved", c_uint64 * 3)]


def _candidates() -> list[str]:
    named = os.environ.get("FARMAP_LIBRARY")
    if named:
        return [named]
    own = Path(__file__).parent / "libfarmap.so"
    found = ctypes.util.find_library("farmap")
    return [*([str(own)] if own.exists() else []), *([found] if found else []), "libfarmap.so.0"]


def _load() -> ctypes.CDLL:
    failures = []
    for path in _candidates():
        try:
            return ctypes.CDLL(path)
        except OSError as why:
            failures.append(str(why))
    raise ImportError("libfarmap.so can't be loaded; name its path in FARMAP_LIBRARY (" + "; ".join(failures) + ")")


library = _load()

for name, result, arguments in (
    ("open", c_int, [POINTER(Options), POINTER(c_void_p), c_char_p, c_size_t]),
    ("close", c_int, [c_void_p]),
    ("sessions", c_uint32, [c_void_p]),
    ("session_open", c_int, [c_void_p, POINTER(c_void_p)]),
    ("session_close", c_int, [c_void_p]),
    ("get", c_int, [c_void_p, LentBytes, POINTER(FoundBytes)]),
    ("get_many", c_int, [c_void_p, POINTER(LentBytes), c_size_t, POINTER(FoundBytes)]),
    ("contains", c_int, [c_void_p, LentBytes]),
    ("put", c_int, [c_void_p, LentBytes, LentBytes, POINTER(FoundBytes)]),
    ("put_new", c_int, [c_void_p, LentBytes, LentBytes, POINTER(FoundBytes)]),
    ("put_if", c_int, [c_void_p, LentBytes, LentBytes, LentBytes, POINTER(FoundBytes)]),
    ("remove", c_int, [c_void_p, LentBytes]),
    ("take", c_int, [c_void_p, LentBytes, POINTER(FoundBytes)]),
    ("remove_if", c_int, [c_void_p, LentBytes, LentBytes, POINTER(FoundBytes)]),
    ("visit", c_int, [c_void_p, POINTER(c_uint64), POINTER(POINTER(Pair)), POINTER(c_size_t)]),
    ("length", c_int, [c_void_p, POINTER(c_uint64)]),
    ("count", c_int, [c_void_p, POINTER(c_uint64)]),
    ("evict", c_int, [c_void_p]),
    ("text", c_char_p, [c_int]),
    ("reason", c_char_p, [c_void_p]),
    ("is_proved", c_int, []),
):
    function = getattr(library, f"farmap_{name}")
    function.restype, function.argtypes = result, arguments
