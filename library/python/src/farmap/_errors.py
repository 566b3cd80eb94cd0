"""Errors: one class for each thing that a program may want to do about it."""
from __future__ import annotations

from . import _library as c


class FarmapError(Exception):
    """A call was not made. `status` is the number of farmap.h."""

    def __init__(self, status: int, reason: str) -> None:
        super().__init__(reason or c.library.farmap_text(status).decode())
        self.status = status


class TooLongError(FarmapError, ValueError):
    """A key or a value has too many bytes, or the answer would have too many."""


class FullError(FarmapError):
    """The memory is full, and nothing can be moved out of it."""


class DeviceError(FarmapError, OSError):
    """A device failed, for example because its disk is full. The text has the device's reason."""

    def __init__(self, status: int, reason: str) -> None:
        FarmapError.__init__(self, status, reason)


class DamagedError(DeviceError):
    """A device gave back other bytes than were written."""


class RefusedMemoryError(FarmapError, MemoryError):
    """The system refused memory. If `status` is 24 (FARMAP_LOST), the change was made, and only its answer is lost."""


class BusyError(FarmapError, RuntimeError):
    """A call or a session is not over, or the map is being renewed again and again."""


class ForkedError(FarmapError, RuntimeError):
    """The process is the child of a fork, and the map is its parent's. Open another one."""


class ClosedError(FarmapError, ValueError):
    """The map is closed."""


class EndedError(FarmapError, RuntimeError):
    """The map or a session has ended by a fault. Close the map, and open another one."""


class OptionsError(FarmapError, ValueError):
    """The map can't be opened with these options."""


_CLASSES = {16: TooLongError, 17: TooLongError, 18: TooLongError, 19: TooLongError, 20: FullError, 21: DeviceError,
            22: DamagedError, 23: RefusedMemoryError, 24: RefusedMemoryError, 25: BusyError, 26: BusyError, 27: BusyError,
            28: ForkedError, 29: ClosedError, 30: EndedError, 31: OptionsError, 32: RefusedMemoryError, 33: OptionsError}


def error_of(status: int, reason: str) -> FarmapError:
    """The error that a status means."""
    return _CLASSES.get(status, FarmapError)(status, reason)
