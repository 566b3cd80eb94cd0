"""A map of bytes to bytes that may be larger than its memory, for the threads of a process.

    import farmap

    with farmap.open(memory="256m", far="/var/tmp") as cache:
        cache[b"planet"] = b"Saturn"
        print(cache[b"planet"], len(cache))

What is in use stays in memory, and everything else goes to scratch files in the folders of `far`. The map is gone
when it is closed, so it is no database. It is a `MutableMapping`, and all threads may use it at once: a call leaves
the interpreter's lock to others while it runs.

The map belongs to the process that opened it. In the child of a fork, for example of `multiprocessing` with its start
method "fork", each call raises `ForkedError`. Open another map there.
"""
from __future__ import annotations

import os
import queue
import weakref
from collections.abc import Callable, ItemsView, Iterable, Iterator, MutableMapping, ValuesView
from contextlib import contextmanager
from ctypes import POINTER, byref, c_size_t, c_uint64, c_void_p, create_string_buffer, string_at
from typing import Any, NamedTuple, TypeVar, Union, overload

from . import _library as c
from ._errors import (BusyError, ClosedError, DamagedError, DeviceError, EndedError, FarmapError, ForkedError, FullError,
                      OptionsError, RefusedMemoryError, TooLongError, error_of)

__all__ = ["BusyError", "ClosedError", "DamagedError", "DeviceError", "EndedError", "FarmapError", "ForkedError", "FullError",
           "Map", "OptionsError", "RefusedMemoryError", "Session", "Stats", "TooLongError", "is_proved", "open"]

Folder = Union[str, bytes, "os.PathLike[Any]"]
Data = Union[bytes, bytearray, memoryview]
Default = TypeVar("Default")

_MISSING: Any = object()
_UNITS = {"k": 1 << 10, "m": 1 << 20, "g": 1 << 30, "t": 1 << 40}
# How many forks lie between this process and the one that imported the module.
_forks = 0


def _note_fork() -> None:
    global _forks
    _forks += 1


os.register_at_fork(after_in_child=_note_fork)


class Stats(NamedTuple):
    """What one session has counted, and what is known of the map. No number is exact while other calls are made."""

    gets: int
    puts: int
    removes: int
    put_ifs: int
    too_long: int
    full: int
    names_spent: int
    device: int
    damaged: int
    memory: int
    local_reads: int
    far_reads: int
    swap_ins: int
    swap_outs: int
    device_failures: int
    pairs: int
    bytes_in_memory: int
    most_bytes_in_memory: int
    buckets: int
    names_left: int
    renewals: int
    lost_pairs: int
    lost_buckets: int


def _data(what: str, value: Data) -> bytes:
    if type(value) is bytes:
        return value
    if isinstance(value, (bytes, bytearray, memoryview)):
        return bytes(value)
    raise TypeError(f"a {what} is bytes, and not {type(value).__name__}" + ("; encode it" if isinstance(value, str) else ""))


def _lent(data: bytes) -> c.LentBytes:
    return c.LentBytes(data, len(data))


def _bytes_of(found: c.FoundBytes) -> bytes | None:
    return string_at(found.data, found.length) if found.data else None


class Session:
    """A session of a map, for one thread at a time. `Map.session` lends one.

    It has the calls that a map has, and is a bit faster, since a map has to find a session for each call.
    """

    def __init__(self, handle: int) -> None:
        self._handle: int | None = handle
        self._found = c.FoundBytes()
        self._ref = byref(self._found)

    def _fail(self, status: int) -> FarmapError:
        return error_of(status, c.library.farmap_reason(self._handle).decode(errors="replace"))

    def get(self, key: Data) -> bytes | None:
        """The value of the key, or None."""
        key = _data("key", key)
        status = c.library.farmap_get(self._handle, _lent(key), self._ref)
        if status == c.OK:
            return _bytes_of(self._found)
        if status == c.NONE:
            return None
        raise self._fail(status)

    def get_many(self, keys: Iterable[Data]) -> list[bytes | None]:
        """The values of the keys, in their order. Each is a get, so the whole is not one moment."""
        texts = [_data("key", key) for key in keys]
        asked = (c.LentBytes * len(texts))(*[(text, len(text)) for text in texts])
        found = (c.FoundBytes * len(texts))()
        status = c.library.farmap_get_many(self._handle, asked, len(texts), found)
        if status != c.OK:
            raise self._fail(status)
        return [_bytes_of(value) for value in found]

    def contains(self, key: Data) -> bool:
        """Whether the key has a value."""
        return self._flag(c.library.farmap_contains(self._handle, _lent(_data("key", key))))

    def set(self, key: Data, value: Data) -> None:
        """Sets the key."""
        status = c.library.farmap_put(self._handle, _lent(_data("key", key)), _lent(_data("value", value)), None)
        if status != c.OK:
            raise self._fail(status)

    def put(self, key: Data, value: Data) -> bytes | None:
        """Sets the key, and returns the value before, or None."""
        status = c.library.farmap_put(self._handle, _lent(_data("key", key)), _lent(_data("value", value)), self._ref)
        if status != c.OK:
            raise self._fail(status)
        return _bytes_of(self._found)

    def put_new(self, key: Data, value: Data) -> bytes | None:
        """Sets the key if it has no value, and returns None. Otherwise returns the value that it has."""
        status = c.library.farmap_put_new(self._handle, _lent(_data("key", key)), _lent(_data("value", value)), self._ref)
        if status in (c.OK, c.OTHER):
            return _bytes_of(self._found)
        raise self._fail(status)

    def put_if(self, key: Data, expected: Data, value: Data) -> bool:
        """Sets the key if it has the expected value. Returns whether it was set."""
        status = c.library.farmap_put_if(self._handle, _lent(_data("key", key)), _lent(_data("value", expected)),
                                         _lent(_data("value", value)), None)
        return self._flag(status)

    def remove(self, key: Data) -> bool:
        """Removes the key. Returns whether it had a value."""
        return self._flag(c.library.farmap_remove(self._handle, _lent(_data("key", key))))

    def take(self, key: Data) -> bytes | None:
        """Removes the key, and returns the value that it had, or None."""
        status = c.library.farmap_take(self._handle, _lent(_data("key", key)), self._ref)
        if status in (c.OK, c.NONE):
            return _bytes_of(self._found)
        raise self._fail(status)

    def remove_if(self, key: Data, expected: Data) -> bool:
        """Removes the key if it has the expected value. Returns whether it was removed."""
        status = c.library.farmap_remove_if(self._handle, _lent(_data("key", key)), _lent(_data("value", expected)), None)
        return self._flag(status)

    def change(self, key: Data, make: Callable[[bytes | None], bytes]) -> bytes:
        """Sets the key to what `make` returns for its value, or for None, and returns that.

        If another thread changes the key meanwhile, `make` is called again. So no change of another thread is lost.
        """
        key = _data("key", key)
        found = self.get(key)
        while True:
            value = make(found)
            if found is None:
                status = c.library.farmap_put_new(self._handle, _lent(key), _lent(_data("value", value)), self._ref)
            else:
                status = c.library.farmap_put_if(self._handle, _lent(key), _lent(found), _lent(_data("value", value)), self._ref)
            if status == c.OK:
                return value
            if status not in (c.NONE, c.OTHER):
                raise self._fail(status)
            found = _bytes_of(self._found)

    def pairs_from(self, cursor: int) -> tuple[int, list[tuple[bytes, bytes]]]:
        """The pairs of the first bucket from the cursor on that has some, and the next cursor. An empty list at the end."""
        at, pairs, count = c_uint64(cursor), POINTER(c.Pair)(), c_size_t()
        status = c.library.farmap_visit(self._handle, byref(at), byref(pairs), byref(count))
        if status not in (c.OK, c.NONE):
            raise self._fail(status)
        found = [pairs[i] for i in range(count.value)]
        return at.value, [(string_at(it.key.data, it.key.length), string_at(it.value.data, it.value.length)) for it in found]

    def length(self) -> int:
        """How many pairs there are. It is exact while no other call is made."""
        length = c_uint64()
        status = c.library.farmap_length(self._handle, byref(length))
        if status != c.OK:
            raise self._fail(status)
        return length.value

    def stats(self) -> Stats:
        """What this session has counted, and what is known of the map."""
        numbers = (c_uint64 * len(Stats._fields))()
        status = c.library.farmap_count(self._handle, numbers)
        if status != c.OK:
            raise self._fail(status)
        return Stats(*numbers)

    def evict(self) -> bool:
        """Moves one object to a device, and returns whether there was one. The map does so by itself."""
        return self._flag(c.library.farmap_evict(self._handle))

    def _flag(self, status: int) -> bool:
        if status == c.OK:
            return True
        if status in (c.NONE, c.OTHER):
            return False
        raise self._fail(status)


class _Items(ItemsView):
    def __iter__(self) -> Iterator[tuple[bytes, bytes]]:
        return self._mapping._pairs()


class _Values(ValuesView):
    def __iter__(self) -> Iterator[bytes]:
        return (value for _, value in self._mapping._pairs())


def _close_handle(handle: int) -> None:
    c.library.farmap_close(handle)


class Map(MutableMapping):
    """A map that `open` has opened. Keys and values are bytes: keys up to 65,535 of them, values up to 16 MiB.

    A call waits if as many calls run as the map has sessions (`threads` of `open`). Iterations visit one bucket after
    another, and may miss or meet what other calls change meanwhile.
    """

    def __init__(self, handle: int, sessions: list[int]) -> None:
        self._forks = _forks
        self._count = len(sessions)
        self._free: queue.SimpleQueue[Session | None] = queue.SimpleQueue()
        self._handle: int | None = handle
        self._end = weakref.finalize(self, _close_handle, handle)
        for session in sessions:
            self._free.put(Session(session))

    # Sessions.

    def _take(self) -> Session:
        if self._forks != _forks:
            raise ForkedError(c.FORKED, "the map belongs to the parent of this process; open one here")
        session = self._free.get()
        if session is None:
            self._free.put(None)
            raise ClosedError(c.CLOSED, "the map is closed")
        return session

    @contextmanager
    def session(self) -> Iterator[Session]:
        """Lends a session to a `with` statement, for one thread at a time. Waits until one is free."""
        session = self._take()
        lent = Session(session._handle)  # type: ignore[arg-type]
        try:
            yield lent
        finally:
            # (a session that was kept after its `with` statement raises an error, and is not another thread's)
            lent._handle = None
            self._free.put(session)

    def _ask(self, what: Callable[..., Any], *words: Any) -> Any:
        session = self._take()
        try:
            return what(session, *words)
        finally:
            self._free.put(session)

    # Calls.

    def __getitem__(self, key: Data) -> bytes:
        value = self._ask(Session.get, key)
        if value is None:
            raise KeyError(key)
        return value

    def __setitem__(self, key: Data, value: Data) -> None:
        self._ask(Session.set, key, value)

    def __delitem__(self, key: Data) -> None:
        if not self._ask(Session.remove, key):
            raise KeyError(key)

    def __contains__(self, key: object) -> bool:
        return isinstance(key, (bytes, bytearray, memoryview)) and self._ask(Session.contains, key)

    def __len__(self) -> int:
        return self._ask(Session.length)

    def _pairs(self) -> Iterator[tuple[bytes, bytes]]:
        cursor = 0
        while True:
            cursor, pairs = self._ask(Session.pairs_from, cursor)
            if not pairs:
                return
            yield from pairs

    def __iter__(self) -> Iterator[bytes]:
        return (key for key, _ in self._pairs())

    def items(self) -> ItemsView[bytes, bytes]:
        return _Items(self)

    def values(self) -> ValuesView[bytes]:
        return _Values(self)

    @overload
    def get(self, key: Data) -> bytes | None: ...
    @overload
    def get(self, key: Data, default: Default) -> bytes | Default: ...

    def get(self, key: Data, default: Any = None) -> Any:
        """The value of the key, or the default."""
        value = self._ask(Session.get, key)
        return default if value is None else value

    def get_many(self, keys: Iterable[Data]) -> list[bytes | None]:
        """The values of the keys, in their order, None for a key without one."""
        return self._ask(Session.get_many, list(keys))

    def put(self, key: Data, value: Data) -> bytes | None:
        """Sets the key, and returns the value before, or None."""
        return self._ask(Session.put, key, value)

    def put_new(self, key: Data, value: Data) -> bytes | None:
        """Sets the key if it has no value, and returns None. Otherwise returns the value that it has."""
        return self._ask(Session.put_new, key, value)

    def put_if(self, key: Data, expected: Data, value: Data) -> bool:
        """Sets the key if it has the expected value. Returns whether it was set."""
        return self._ask(Session.put_if, key, expected, value)

    def remove_if(self, key: Data, expected: Data) -> bool:
        """Removes the key if it has the expected value. Returns whether it was removed."""
        return self._ask(Session.remove_if, key, expected)

    def change(self, key: Data, make: Callable[[bytes | None], bytes]) -> bytes:
        """Sets the key to what `make` returns for its value, or for None, and returns that. See `Session.change`.

        `make` must not call the map.
        """
        return self._ask(Session.change, key, make)

    def setdefault(self, key: Data, default: Data = b"") -> bytes:  # type: ignore[override]
        found = self.put_new(key, default)
        return bytes(default) if found is None else found

    def pop(self, key: Data, default: Any = _MISSING) -> Any:
        value = self._ask(Session.take, key)
        if value is not None:
            return value
        if default is _MISSING:
            raise KeyError(key)
        return default

    def popitem(self) -> tuple[bytes, bytes]:
        for key, value in self._pairs():
            if self.remove_if(key, value):
                return key, value
        raise KeyError("the map is empty")

    def clear(self) -> None:
        """Removes all pairs, one after another."""
        for key in self:
            self._ask(Session.remove, key)

    def stats(self) -> Stats:
        """What is known of the map, and what one of its sessions has counted."""
        return self._ask(Session.stats)

    def __repr__(self) -> str:
        return f"<farmap.Map {'closed' if self._handle is None else 'open'}>"

    # The end.

    def close(self) -> None:
        """Closes the map, whose memory and scratch files are free then. `BusyError` if a call or a session is not over."""
        if self._handle is None or self._forks != _forks:
            self._handle = None
            self._end.detach()
            return
        sessions: list[Session] = []
        try:
            while len(sessions) < self._count:
                session = self._free.get_nowait()
                if session is None:
                    self._free.put(None)
                    return
                sessions.append(session)
        except queue.Empty:
            for session in sessions:
                self._free.put(session)
            raise BusyError(c.BUSY, "a call or a session of the map is not over; end it first") from None
        handle, self._handle = self._handle, None
        self._end.detach()
        self._free.put(None)
        status = c.library.farmap_close(handle)
        if status != c.OK:
            raise error_of(status, "")

    def __enter__(self) -> Map:
        return self

    def __exit__(self, *_: object) -> None:
        self.close()


def _bytes_in(size: int | str) -> int:
    if isinstance(size, int) and not isinstance(size, bool):
        number = size
    else:
        text = size.strip().lower()
        unit = _UNITS.get(text[-1:], 1)
        digits = text[:-1] if text[-1:] in _UNITS else text
        if not digits.isascii() or not digits.isdigit():
            raise ValueError(f"memory {size!r}: no size; 256m would do")
        number = int(digits) * unit
    if not 0 < number < 1 << 64:
        raise ValueError(f"memory {size!r}: no number of bytes; 256m would do")
    return number


def open(memory: int | str = "256m", far: Folder | Iterable[Folder] = (), *, pairs: int = 0, threads: int = 0,
         handshake: bool = False, _names: int = 0) -> Map:
    """Opens a map.

    memory: how many bytes of memory it may take, as 268435456 or "256m". Values in calls come in addition.
    far: a folder for scratch files with what has no room in memory, or several of them. Without one, calls that need
        more memory raise `FullError`.
    pairs: how many pairs are expected. It is a hint.
    threads: how many calls may run at once, 1 to 256. Others wait. The default is the number of processors.
    handshake: has the map's own threads make the calls. It is slower. See the page of the library.
    """
    folders = [far] if isinstance(far, (str, bytes, os.PathLike)) else list(far)
    paths = (c.c_char_p * (len(folders) + 1))(*[os.fsencode(folder) for folder in folders], None)
    for name, number, most in (("pairs", pairs, 1 << 40), ("threads", threads, 256)):
        if not 0 <= number <= most:
            raise ValueError(f"{name} {number}: no number from 0 to {most}")
    options = c.Options(memory=_bytes_in(memory), pairs=pairs, folders=paths if folders else None, sessions=threads,
                        flags=c.HANDSHAKE if handshake else 0, names=_names)
    handle, reason = c_void_p(), create_string_buffer(c.REASON)
    status = c.library.farmap_open(byref(options), byref(handle), reason, c.REASON)
    if status != c.OK:
        raise error_of(status, reason.value.decode(errors="replace"))
    sessions = []
    for _ in range(c.library.farmap_sessions(handle)):
        session = c_void_p()
        status = c.library.farmap_session_open(handle, byref(session))
        if status != c.OK:
            c.library.farmap_close(handle)
            raise error_of(status, "")
        sessions.append(session.value)
    return Map(handle.value, sessions)  # type: ignore[arg-type]


def is_proved() -> bool:
    """Whether the library was made from a proved program."""
    return bool(c.library.farmap_is_proved())
