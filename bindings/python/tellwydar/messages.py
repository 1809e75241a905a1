"""Messages between nodes: how they begin, and what they are to the process that they came to. Their form is told in
docs/FORMATS.md."""
import ctypes
import enum
from typing import Any, NamedTuple, Optional, Sequence

from . import _REFUSALS, Front, Refused, _library, _ranged
from .node import _Log, _spelled

START = 33  # how long the start of a message is: all before the byte that says what it brings
_REFUSALS[84] = "no chapter"


class _Met(ctypes.Structure):
    _fields_ = [
        ("cluster", ctypes.c_uint64), ("begun", ctypes.c_uint64), ("names", ctypes.c_uint32),
        ("chapter", ctypes.c_uint32), ("met", ctypes.c_uint32), ("registers", ctypes.c_uint16),
        ("front", ctypes.c_uint8), ("processes", ctypes.c_uint8), ("sender", ctypes.c_uint8),
        ("receiver", ctypes.c_uint8), ("brings", ctypes.c_uint8),
    ]


class _Heard(ctypes.Structure):
    _fields_ = [("begun", ctypes.c_uint64), ("is_heard", ctypes.c_uint32)]


class _Greeting(ctypes.Structure):
    _fields_ = [("accepted", ctypes.c_uint64), ("is_wanting", ctypes.c_uint32)]


def _declare() -> None:
    u8, u32, u64, size, room = ctypes.c_uint8, ctypes.c_uint32, ctypes.c_uint64, ctypes.c_size_t, ctypes.c_char_p
    heard, met = ctypes.POINTER(_Heard), ctypes.POINTER(_Met)
    for word, result, given in (
        ("start", u32, [ctypes.POINTER(_Log), room, size, u8, room, size]),
        ("met", u32, [room, size, u32, room, size, heard, size, met]),
        ("greet", None, [u32, u64, room, size]),
        ("greeting", u32, [room, size, ctypes.POINTER(_Greeting)]),
    ):
        function = getattr(_library, f"tellwydar_message_{word}")
        function.restype, function.argtypes = result, given


_declare()


def start_of(
    *, cluster: int, process: int, front: Front, processes: int, names: Sequence[str], begun: int, chapter: int, to: int
) -> bytes:
    """How a message of the process of this log to another one begins: all but what it brings."""
    drawn = _ranged(cluster, 64), _ranged(chapter, 64), _ranged(begun, 64)
    log = _Log(*drawn, Front(front), _ranged(processes, 32), _ranged(process, 8))
    spelled, room = _spelled(names), ctypes.create_string_buffer(START)
    given = ctypes.byref(log), spelled, len(spelled), _ranged(to, 8), room, START
    code = _library.tellwydar_message_start(*given)
    if code:
        raise Refused(_REFUSALS[code])
    return room.raw


class Met(enum.Enum):
    """What a message is to the process that it came to: the first of these that applies."""

    NO_MESSAGE = 11
    OTHER_FRONT = 3
    OTHER_PROCESSES = 4  # another number of them
    OTHER_REGISTERS = 5
    OTHER_CLUSTER = 6
    OTHER_RECEIVER = 7
    OTHER_SENDER = 8  # no other process of the cluster, or not the one by whose key it came
    LATE = 1  # from a process that doesn't know yet that its chapter, the one before, is over
    ELSEWHERE = 2  # from a process in some other chapter
    BEGUN_ANEW = 9  # from a log that was begun anew: another one of its process was heard first
    UNKNOWN = 10  # from the process that it says, but nothing is known that it could bring
    PEER = 0  # from the process that it says


class Meets(NamedTuple):
    """What a message is, and what it says at its start: zeros where it is none."""

    met: Met
    brings: int  # 0 frames, 1 a state, 2 a greeting
    sender: int
    receiver: int
    front: int
    processes: int
    registers: int
    cluster: int
    chapter: int
    begun: int


class Meeting:
    """Who was heard in a chapter: of each process the log that was heard first. `own` is how the messages of the
    process begin that hears, to whomever."""

    def __init__(self, own: bytes, processes: int):
        self._own, self._heard = own, (_Heard * processes)()

    def meet(self, key: Optional[int], message: bytes) -> Meets:
        """What a message is that came by the key of this process, where there are keys. If it is from the process that
        it says, the log of that one is heard."""
        row: Any = _Met()
        given = self._own, len(self._own), 256 if key is None else key, message, len(message)
        code = _library.tellwydar_message_met(*given, self._heard, len(self._heard), ctypes.byref(row))
        if code:
            raise Refused(_REFUSALS[code])
        who = row.brings, row.sender, row.receiver, row.front, row.processes
        return Meets(Met(row.met), *who, row.registers, row.cluster, row.chapter, row.begun)


class Greeting(NamedTuple):
    """What a node tells another one when they meet."""

    wants_one: bool
    accepted: int

    def data(self) -> bytes:
        room = ctypes.create_string_buffer(9)
        _library.tellwydar_message_greet(self.wants_one, _ranged(self.accepted, 64), room, 9)
        return room.raw

    @classmethod
    def of(cls, data: bytes) -> Optional["Greeting"]:
        """The greeting that these bytes are, None where they are none."""
        row: Any = _Greeting()
        code = _library.tellwydar_message_greeting(data, len(data), ctypes.byref(row))
        return None if code else cls(row.is_wanting == 1, row.accepted)
