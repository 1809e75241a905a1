"""The logs of all processes of a chapter, merged."""
import ctypes
import enum
from typing import Dict, Sequence

from . import _REFUSALS, _library, _ranged
from .node import _BAD_LOGS


class _Merged(ctypes.Structure):
    _fields_ = [("length", ctypes.c_size_t), ("log", ctypes.c_uint64), ("place", ctypes.c_uint64)]


def _declare() -> None:
    u64, size, room = ctypes.c_uint64, ctypes.c_size_t, ctypes.c_char_p
    function = _library.tellwydar_merge_logs
    function.restype = ctypes.c_uint32
    function.argtypes = [room, size, ctypes.POINTER(u64), size, room, size, ctypes.POINTER(_Merged)]
    _library.tellwydar_log_part.restype = size
    _library.tellwydar_log_part.argtypes = [room, size, u64]


_declare()


class LogsFault(enum.Enum):
    """Why there is no record of logs."""

    NO_LOG = "no log"
    UNREAD = "not a log"  # `LogsRefused.told` says why
    OTHER = "of another chapter"  # than the first: `place` says where their heads differ
    TWICE = "of the process of another log"  # the one at `place`
    MISSING = "no log of a process"  # `place`
    TOO_MANY = "too many entries"
    UNFAITHFUL = "unfaithful"  # the entry at `place` is in no run of first entries of the logs
    OUT_OF_MEMORY = "out of memory"


_FAULTS: Dict[int, LogsFault] = {
    23: LogsFault.OUT_OF_MEMORY, 96: LogsFault.NO_LOG, 97: LogsFault.OTHER, 98: LogsFault.TWICE, 99: LogsFault.MISSING,
    100: LogsFault.TOO_MANY, 101: LogsFault.UNFAITHFUL,
}


class LogsRefused(Exception):
    """Why there is no record of logs. `log` is the place of the log that it names, and `place` what else it names, each
    from 0, and 0 where it names none. Heads differ at 0 in the cluster, and then the chapter, the front end, the number
    of processes and the names of the registers."""

    def __init__(self, why: LogsFault, log: int, place: int, told: str):
        super().__init__(told)
        self.why, self.log, self.place, self.told = why, log, place, told


def _refused(code: int, log: int, place: int) -> LogsRefused:
    why = _FAULTS.get(code, LogsFault.UNREAD)
    told = _BAD_LOGS[code].format(place) if code in _BAD_LOGS else _REFUSALS.get(code, why.value)
    return LogsRefused(why, log, place, told)


def first_entries(log: bytes, count: int) -> bytes:
    """The head of the log that this begins with, and its first entries, so many, where it has as many."""
    return log[: _library.tellwydar_log_part(log, len(log), _ranged(count, 64))]


def merge_logs(logs: Sequence[bytes]) -> bytes:
    """The text of the record that has the steps of these logs in an order that is a run: `verify` takes it. They are
    the logs of all processes of one chapter, in any order."""
    text = b"".join(logs)
    lengths = (ctypes.c_uint64 * len(logs))(*map(len, logs))
    size = max(4096, len(text))
    while True:
        room, told = ctypes.create_string_buffer(size), _Merged()
        code = _library.tellwydar_merge_logs(text, len(text), lengths, len(logs), room, size, ctypes.byref(told))
        if code:
            raise _refused(code, told.log, told.place)
        if told.length <= size:
            return room.raw[: told.length]
        size = told.length
