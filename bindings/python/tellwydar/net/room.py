"""Room in a chapter: what ends it, so that it comes to rest within the limits of a run.

Where no message is lost, an operation that is cast brings about `1 + 2n(n-1)` entries in the logs of n processes: its
call; each other process takes the cast, and all but the sender of an acknowledgement take that; and each of these
messages has a count, which is taken too. So where each process is ahead of the others by at most so many casts, it is
known how many entries it takes to come to rest, and how many registers a chapter can begin with.
"""
import ctypes
from typing import NamedTuple, Optional

from .. import _library, _ranged

_USUAL = (1 << 64) - 1


class _Row(ctypes.Structure):
    _fields_ = [(it, ctypes.c_uint64) for it in ("operations", "total", "entries", "ahead", "least", "most")]


_library.tellwydar_room.restype = ctypes.c_uint32
_library.tellwydar_room.argtypes = [*[ctypes.c_uint32] * 2, *[ctypes.c_uint64] * 2, ctypes.POINTER(_Row)]


class Room(NamedTuple):
    """What one process has of a chapter."""

    operations: int  # once it has called so many, the chapter ends
    entries: int  # once its log has so many, too
    ahead: int  # while so many of its casts aren't delivered at itself, it calls nothing that is cast


def room_of(processes: int, registers: int, operations: Optional[int], entries: Optional[int]) -> Room:
    """The room where chapters end at so many operations of a process, and at so many entries of all logs together; None
    is the usual number. `ValueError` says which numbers there can be."""
    row = _Row()
    given = (_USUAL if it is None else _ranged(it, 63) for it in (operations, entries))
    code = _library.tellwydar_room(_ranged(processes, 32), _ranged(registers, 32), *given, ctypes.byref(row))
    if code == 0:
        return Room(row.operations, row.entries, row.ahead)
    of, can = f"with {processes} processes and {registers} registers", f"{row.least} to {row.most}"
    raise ValueError({
        81: f"{of} a chapter needs {row.least} entries to begin, and has {row.most}",
        82: f"chapter_operations is {operations}; with {registers} registers it can be {can}",
        83: f"chapter_entries is {entries}; {of} it can be {can}",
    }.get(code, f"{of} there is no cluster"))
