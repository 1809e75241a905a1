"""Shared registers over totally ordered broadcast, from a library that is proved.

Each process of a `World` keeps a copy of all registers, and keeps it in step by Lamport's totally ordered multicast.
One steps a world by events: calls of operations, takes of frames, ticks. A history of one's own is judged by
`check_serial` and `check_points`. The commands of the program `awreg` are `replay`, `check`, `play` and `play_fair`. A
`Process` is one process alone, whose frames one carries oneself; what such processes did is put into one order by
`merge`, and judged by `verify`. A `Node` is one process that outlives crashes by a log, which one writes down; the logs
of all are put into one order by `merge_logs`. What any system answered its clients is judged by `judge`.

The environment's TELLWYDAR_LIB names the folder of `libtellwydar.so`, which `tools/bindings --keep FOLDER` makes.
"""
import ctypes
import enum
import os
import threading
from dataclasses import dataclass
from typing import Any, Callable, Dict, List, NoReturn, Optional, Sequence, Tuple, Union

__all__ = [
    "UNEQUAL", "Answered", "Called", "CompareAndSwap", "Fault", "Front", "HistoryRefused", "Judgement", "Known",
    "LogHead", "LogsFault", "LogsRefused", "Look", "Node", "Output", "Process", "Read", "Refused", "Reply", "Row",
    "Swap", "Told", "Unequal", "World", "Write", "check", "check_points", "check_serial", "first_entries", "judge",
    "merge", "merge_logs", "play", "play_fair", "replay", "story", "verify",
]


class _Lengths(ctypes.Structure):
    _fields_ = [("output", ctypes.c_size_t), ("errors", ctypes.c_size_t)]


class _Entry(ctypes.Structure):
    _fields_ = [
        ("value", ctypes.c_uint64), ("at", ctypes.c_uint32), ("number", ctypes.c_uint32),
        ("register", ctypes.c_uint16), ("process", ctypes.c_uint8), ("kind", ctypes.c_uint8),
    ]


class _Id(ctypes.Structure):
    _fields_ = [("number", ctypes.c_uint32), ("process", ctypes.c_uint8)]


class _Point(ctypes.Structure):
    _fields_ = [("at", ctypes.c_uint32), ("number", ctypes.c_uint32), ("process", ctypes.c_uint8)]


def _load() -> Tuple[ctypes.CDLL, Any]:
    folder = os.environ.get("TELLWYDAR_LIB", os.path.dirname(os.path.abspath(__file__)))
    path = os.path.join(folder, "libtellwydar.so")
    if not os.path.exists(path):
        raise ImportError(f"{path} isn't there: `tools/install --library` makes it, and TELLWYDAR_LIB names its folder")
    library = ctypes.CDLL(path)
    u8, u16, u32, u64 = ctypes.c_uint8, ctypes.c_uint16, ctypes.c_uint32, ctypes.c_uint64
    size, handle, room = ctypes.c_size_t, ctypes.c_void_p, ctypes.c_char_p
    for word in ("replay", "check", "play", "play_fair", "merge", "story", "verify"):
        call = getattr(library, f"tellwydar_{word}")
        call.restype, call.argtypes = u8, [room, size, room, size, room, size, ctypes.POINTER(_Lengths)]
    library.tellwydar_judge.restype = u8
    library.tellwydar_judge.argtypes = [room, size, u8, room, size, room, size, ctypes.POINTER(_Lengths)]
    library.tellwydar_judge_from.restype = u8
    library.tellwydar_judge_from.argtypes = [
        room, size, room, size, u8, room, size, room, size, ctypes.POINTER(_Lengths),
    ]
    for word, row in (("serial", _Id), ("points", _Point)):
        call = getattr(library, f"tellwydar_check_{word}_expecting")
        call.restype = u32
        call.argtypes = [
            u32, u32, ctypes.POINTER(_Entry), size, ctypes.POINTER(u64), size, ctypes.POINTER(row), size,
            ctypes.POINTER(size),
        ]
    for word, result, given in (
        ("new", u32, [u32, u32, u32, ctypes.POINTER(handle)]),
        ("step", u32, [handle, u32, u8, u32, u8, u64]),
        ("compare_and_swap", u32, [handle, u8, u32, u64, u64]),
        ("arrange", u32, [handle]),
        ("look", u64, [handle, u32, u32]),
        ("close", None, [handle]),
    ):
        call = getattr(library, f"tellwydar_world_{word}")
        call.restype, call.argtypes = result, given
    for word, result, given in (
        ("new", u32, [u32, u32, u32, u8, ctypes.POINTER(handle)]),
        ("call", u32, [handle, u32, u32, u64]),
        ("compare_and_swap", u32, [handle, u32, u64, u64]),
        ("take", u32, [handle, u8, room, size]),
        ("tick", u32, [handle]),
        ("frames", u32, [handle, room, size, ctypes.POINTER(size)]),
        ("look", u64, [handle, u32, u16]),
        ("known", u64, [handle, u32, u8]),
        ("close", None, [handle]),
    ):
        call = getattr(library, f"tellwydar_process_{word}")
        call.restype, call.argtypes = result, given
    free = ctypes.CDLL(None).free
    free.restype, free.argtypes = None, [handle]
    return library, free


_library, _free = _load()


@dataclass(frozen=True)
class Told:
    """What a command told: its status, its answer, and the line of a fault."""

    status: int
    answer: bytes
    line: bytes


def _told_by(size: int, call: Callable[[Any, int, Any, int, _Lengths], int]) -> Told:
    """What a call tells that puts an answer and a line into two rooms, in rooms that are large enough."""
    room, line_room = max(4096, size), 256
    while True:
        lengths, answer, line = _Lengths(), ctypes.create_string_buffer(room), ctypes.create_string_buffer(line_room)
        status = call(answer, room, line, line_room, lengths)
        if lengths.output <= room and lengths.errors <= line_room:
            return Told(status, answer.raw[: lengths.output], line.raw[: lengths.errors])
        room, line_room = max(room, lengths.output), max(line_room, lengths.errors)


def _tell(word: str, text: bytes) -> Told:
    if not isinstance(text, bytes):
        raise TypeError("a text is bytes")
    function = getattr(_library, f"tellwydar_{word}")

    def call(answer: Any, room: int, line: Any, line_room: int, lengths: _Lengths) -> int:
        status: int = function(text, len(text), answer, room, line, line_room, ctypes.byref(lengths))
        return status

    return _told_by(len(text), call)


def replay(schedule: bytes) -> Told:
    """Runs a schedule: the answer is the report of its run."""
    return _tell("replay", schedule)


def check(report: bytes) -> Told:
    """Judges a report: the answer is the verdicts on its order and, where it has points, on them."""
    return _tell("check", report)


def play(workload: bytes) -> Told:
    """Plays a workload as the words of its seed say: the answer is the report of the play."""
    return _tell("play", workload)


def play_fair(workload: bytes) -> Told:
    """Plays a workload fairly."""
    return _tell("play_fair", workload)


def merge(record: bytes) -> Told:
    """Puts the steps of a record, those of each process in their own order, into an order that is a run: the answer is
    the record in that order."""
    return _tell("merge", record)


def story(reports: bytes) -> Told:
    """Judges the reports of chapters, one behind another: status 0 where they are one story, and else the answer names
    the first report with which they go wrong, or the line says why they weren't judged."""
    return _tell("story", reports)


def verify(record: bytes) -> Told:
    """Judges a record of processes that ran apart: the answer is the report of the run that it is."""
    return _tell("verify", record)


@dataclass(frozen=True)
class Read:
    register: int


@dataclass(frozen=True)
class Write:
    register: int
    value: int


@dataclass(frozen=True)
class Swap:
    """A write that answers what was there."""

    register: int
    value: int


@dataclass(frozen=True)
class CompareAndSwap:
    """A write where the expected value is there, and it answers whether it was."""

    register: int
    expected: int
    value: int


Op = Union[Read, Write, Swap, CompareAndSwap]


class Unequal(enum.Enum):
    """The answer of a compare-and-swap that found another value than the expected one."""

    UNEQUAL = "unequal"


UNEQUAL = Unequal.UNEQUAL
Answer = Union[None, int, Unequal]  # None is Done


@dataclass(frozen=True)
class Called:
    """A call: by which event, of which process, under which of its numbers, and what."""

    at: int
    process: int
    number: int
    op: Op


@dataclass(frozen=True)
class Answered:
    """An answer: None for Done, `UNEQUAL`, or the value."""

    at: int
    process: int
    number: int
    value: Answer


Entry = Union[Called, Answered]


class Fault(Exception):
    """Why an order isn't what it was asked for, with the place in the list that the fault names, or None."""

    def __init__(self, what: str, place: Optional[int]):
        super().__init__(what if place is None else f"{what} at {place}")
        self.what, self.place = what, place


_FAULTS = {
    1: "unknown", 2: "twice", 3: "missing", 4: "own order", 5: "answer", 6: "outside", 7: "falling",
    8: "out of memory", 9: "no shape", 10: "out of place",
}


def _ranged(value: int, bits: int) -> int:
    if isinstance(value, bool):
        raise TypeError(f"{value} is no number")
    if not 0 <= value < 1 << bits:
        raise ValueError(f"{value} is no number of {bits} bits")
    return value


_CALLS = {Read: 0, Write: 1, Swap: 2, CompareAndSwap: 5}


def _answer_row(value: Answer) -> Tuple[int, int]:
    """The kind and the value of an answer's row."""
    if isinstance(value, Unequal):
        return 6, 0
    return (3, 0) if value is None else (4, _ranged(value, 64))


def _expected(entries: Sequence[Entry]) -> "ctypes.Array[ctypes.c_uint64]":
    """What each entry expects, 0 where it is no compare-and-swap."""
    values = (ctypes.c_uint64 * max(1, len(entries)))()
    for place, entry in enumerate(entries):
        if isinstance(entry, Called) and isinstance(entry.op, CompareAndSwap):
            values[place] = _ranged(entry.op.expected, 64)
    return values


def _rows(entries: Sequence[Entry]) -> "ctypes.Array[_Entry]":
    rows = (_Entry * max(1, len(entries)))()
    for row, entry in zip(rows, entries):
        row.at, row.number, row.process = _ranged(entry.at, 32), _ranged(entry.number, 32), _ranged(entry.process, 8)
        if isinstance(entry, Answered):
            row.kind, row.value = _answer_row(entry.value)
        else:
            row.kind = _CALLS[type(entry.op)]
            row.register, row.value = _ranged(entry.op.register, 16), _ranged(getattr(entry.op, "value", 0), 64)
    return rows


def _judge(call: Callable[..., int], processes: int, registers: int, entries: Sequence[Entry], rows: Any,
           count: int) -> None:
    place = ctypes.c_size_t()
    given = (_rows(entries), len(entries), _expected(entries), len(entries), rows, count)
    code = call(_ranged(processes, 32), _ranged(registers, 32), *given, ctypes.byref(place))
    if code:
        raise Fault(_FAULTS[code], place.value if code in (5, 6, 7, 10) else None)


def check_serial(processes: int, registers: int, history: Sequence[Entry], order: Sequence[Tuple[int, int]]) -> None:
    """Raises a `Fault` unless the operations, each a pair of process and number, are a serial order of the history:
    sequential consistency (Lamport 1979)."""
    rows = (_Id * max(1, len(order)))()
    for row, (process, number) in zip(rows, order):
        row.process, row.number = _ranged(process, 8), _ranged(number, 32)
    _judge(_library.tellwydar_check_serial_expecting, processes, registers, history, rows, len(order))


def check_points(processes: int, registers: int, history: Sequence[Entry],
                 points: Sequence[Tuple[int, int, int]]) -> None:
    """Raises a `Fault` unless the points, each of process, number and event, are a point order of the history:
    linearizability (Herlihy and Wing 1990)."""
    rows = (_Point * max(1, len(points)))()
    for row, (process, number, at) in zip(rows, points):
        row.process, row.number, row.at = _ranged(process, 8), _ranged(number, 32), _ranged(at, 32)
    _judge(_library.tellwydar_check_points_expecting, processes, registers, history, rows, len(points))


class Front(enum.IntEnum):
    """How operations start."""

    LINEAR = 0
    LOCAL_READ = 1
    LOCAL_WRITE = 2


class Refused(Exception):
    """Why an event, a world or a process is refused. Nothing has changed, but after `out of memory` and `clock full`
    the world or the process has stopped."""


_REFUSALS: Dict[int, str] = {
    16: "failed", 17: "too many events", 18: "no process", 19: "busy", 20: "no register", 21: "too many operations",
    22: "no frame", 23: "out of memory", 24: "ahead", 25: "stale", 26: "clock full", 32: "no event", 33: "closed",
    34: "no shape", 35: "no front", 48: "not a frame",
}


@dataclass(frozen=True)
class Reply:
    """An answer, None for Done, `UNEQUAL` or the value, and how many casts it counts with."""

    value: Answer
    place: int


def _reply(code: int, value: Callable[[], int], place: Callable[[], int]) -> Optional[Reply]:
    """What a step tells: no reply, or one."""
    if code > 3:
        raise Refused(_REFUSALS[code])
    if code == 0:
        return None
    return Reply(None if code == 1 else value() if code == 2 else UNEQUAL, place())


class _Handle:
    """What the library keeps behind a pointer. Threads take turns: a call of another one waits
    until this one is made."""

    def __init__(self, make: Callable[..., int], close: Callable[[ctypes.c_void_p], None], *numbers: int):
        self._handle: Optional[ctypes.c_void_p] = None
        self._close, self._turn = close, threading.RLock()
        handle = ctypes.c_void_p()
        code = make(*numbers, ctypes.byref(handle))
        if code:
            raise Refused(_REFUSALS[code])
        self._handle = handle

    def close(self) -> None:
        """Gives back what is held. Later calls are refused as closed."""
        with self._turn:
            # (what a handler of a signal raises here leaves it not given back, and never gives it back twice)
            handle, self._handle = self._handle, None
            if handle is not None:
                self._close(handle)
                _free(handle)

    def __del__(self) -> None:
        if getattr(self, "_handle", None) is not None:
            self.close()

    def __exit__(self, *_: object) -> None:
        self.close()

    def __reduce__(self) -> NoReturn:
        raise TypeError(f"a {type(self).__name__} can't be copied")

    def _asked(self, function: Callable[..., int], *numbers: Union[int, bytes]) -> int:
        """What a function of the library answers of this handle."""
        with self._turn:
            if self._handle is None:
                raise Refused("closed")
            return int(function(self._handle, *numbers))


class World(_Handle):
    """All processes of a run with their wires, stepped event by event."""

    def __init__(self, front: Front, processes: int, registers: int):
        self.front = Front(front)
        super().__init__(_library.tellwydar_world_new, _library.tellwydar_world_close, self.front,
                         _ranged(processes, 32), _ranged(registers, 32))

    def __enter__(self) -> "World":
        return self

    def _look(self, what: int, at: int = 0) -> int:
        return self._asked(_library.tellwydar_world_look, what, at)

    def _step(self, kind: int, process: int, number: int, sender: int, value: int) -> Optional[Reply]:
        numbers = kind, _ranged(process, 8), _ranged(number, 32), _ranged(sender, 8), _ranged(value, 64)
        return self._stepped(_library.tellwydar_world_step, *numbers)

    def _stepped(self, function: Callable[..., int], *numbers: int) -> Optional[Reply]:
        with self._turn:  # no other step comes between this one and what is told of it
            return _reply(self._asked(function, *numbers), lambda: self._look(8), lambda: self._look(9))

    def call(self, process: int, op: Op) -> Optional[Reply]:
        """A process calls an operation."""
        register = _ranged(op.register, 16)
        if isinstance(op, CompareAndSwap):
            values = _ranged(op.expected, 64), _ranged(op.value, 64)
            return self._stepped(_library.tellwydar_world_compare_and_swap, _ranged(process, 8), register, *values)
        return self._step(_CALLS[type(op)], process, register, 0, getattr(op, "value", 0))

    def take(self, sender: int, receiver: int, number: int) -> Optional[Reply]:
        """A process takes a frame by its place on the wire, as often and in whatever order."""
        return self._step(3, receiver, number, sender, 0)

    def tick(self, process: int) -> None:
        """A process puts its first unacknowledged frames again."""
        self._step(4, process, 0, 0, 0)

    @property
    def events(self) -> int:
        """How many events were accepted."""
        return self._look(0)

    def history(self) -> List[Entry]:
        """The calls and answers so far."""
        return [self._entry(at) for at in range(self._look(1))]

    def _entry(self, at: int) -> Entry:
        event, process, number, kind, register, value = (self._look(what, at) for what in range(2, 8))
        if kind in (3, 4, 6):
            answer: Answer = {3: None, 4: value, 6: UNEQUAL}[kind]
            return Answered(event, process, number, answer)
        if kind == 5:
            return Called(event, process, number, CompareAndSwap(register, self._look(17, at), value))
        return Called(event, process, number, (Read(register), Write(register, value), Swap(register, value))[kind])

    def _arrange(self) -> None:
        code = self._asked(_library.tellwydar_world_arrange)
        if code:
            raise Refused(_REFUSALS[code])

    def serial_order(self) -> List[Tuple[int, int]]:
        """A serial order of the history: pairs of process and number."""
        self._arrange()
        return [(self._look(11, at), self._look(12, at)) for at in range(self._look(10))]

    def points(self) -> List[Tuple[int, int, int]]:
        """A linearization of the history, by process, number and event: under `Front.LINEAR`, else none."""
        self._arrange()
        return [(self._look(14, at), self._look(15, at), self._look(16, at)) for at in range(self._look(13))]


@dataclass(frozen=True)
class Known:
    """What a process knows of another one: the number of the first body to it that it hasn't acknowledged and of the
    next one, the number of the next body from it, and the time of the last one that was accepted from it."""

    first: int
    next: int
    expected: int
    seen: int


# (63 links, 16 frames each, of at most 40 bytes and one for the receiver)
_ROOM = 63 * 16 * 41


def _framed(room: Any, asks: Callable[..., int]) -> List[Tuple[int, bytes]]:
    """The frames that a function puts into the room: pairs of receiver and bytes."""
    length, frames = ctypes.c_size_t(), []
    code = asks(room, _ROOM, ctypes.byref(length))
    if code:
        raise Refused(_REFUSALS[code])
    told = ctypes.string_at(room, length.value)
    while told:
        end = 3 + int.from_bytes(told[1:3], "big")
        frames.append((told[0], told[1:end]))
        told = told[end:]
    return frames


class _Progress(_Handle):
    """How far one process has come, and its copy."""

    def _look(self, what: int, register: int = 0) -> int:
        raise NotImplementedError

    @property
    def delivered(self) -> int:
        """How many casts it has delivered."""
        return self._look(1)

    @property
    def unsettled(self) -> int:
        """How many of its own casts are not delivered here."""
        return self._look(2)

    @property
    def pending(self) -> int:
        """How many data frames are not acknowledged, over all links."""
        return self._look(3)

    @property
    def busy(self) -> bool:
        """Whether an operation runs."""
        return self._look(4) != 0

    def register(self, register: int) -> int:
        """The value of a register in its copy."""
        return self._look(5, _ranged(register, 16))


class Process(_Progress):
    """One process of a run, whose frames its owner carries: whatever is lost, repeated or reordered."""

    def __init__(self, front: Front, processes: int, registers: int, me: int):
        numbers = Front(front), _ranged(processes, 32), _ranged(registers, 32), _ranged(me, 8)
        super().__init__(_library.tellwydar_process_new, _library.tellwydar_process_close, *numbers)
        self._room = ctypes.create_string_buffer(_ROOM)

    def __enter__(self) -> "Process":
        return self

    def _look(self, what: int, register: int = 0) -> int:
        return self._asked(_library.tellwydar_process_look, what, register)

    def _stepped(self, function: Callable[..., int], *numbers: Union[int, bytes]) -> Optional[Reply]:
        with self._turn:  # no other step comes between this one and what is told of it
            return _reply(self._asked(function, *numbers), lambda: self._look(6), lambda: self._look(7))

    def call(self, op: Op) -> Optional[Reply]:
        """Calls an operation."""
        register, value = _ranged(op.register, 16), _ranged(getattr(op, "value", 0), 64)
        if isinstance(op, CompareAndSwap):
            return self._stepped(_library.tellwydar_process_compare_and_swap, register, _ranged(op.expected, 64), value)
        return self._stepped(_library.tellwydar_process_call, _CALLS[type(op)], register, value)

    def take(self, sender: int, frame: bytes) -> Optional[Reply]:
        """Takes a frame of another process. Bytes that spell none are refused as `not a frame`, and make no step."""
        if not isinstance(frame, bytes):
            raise TypeError("a frame is bytes")
        return self._stepped(_library.tellwydar_process_take, _ranged(sender, 8), frame, len(frame))

    def tick(self) -> None:
        """Puts the first unacknowledged frames of every link again."""
        self._stepped(_library.tellwydar_process_tick)

    def frames(self) -> List[Tuple[int, bytes]]:
        """The frames that the last step put, in their order: pairs of receiver and bytes. A refused step put none."""
        with self._turn:
            return _framed(self._room, lambda *given: self._asked(_library.tellwydar_process_frames, *given))

    @property
    def clock(self) -> int:
        return self._look(0)

    def known(self, peer: int) -> Known:
        """What it knows of another process."""
        with self._turn:
            return Known(*(self._asked(_library.tellwydar_process_known, what, _ranged(peer, 8)) for what in range(4)))


from .histories import HistoryRefused, Judgement, Row, judge  # noqa: E402 (they stand on what is above)
from .node import LogHead, Look, Node, Output  # noqa: E402
from .logs import LogsFault, LogsRefused, first_entries, merge_logs  # noqa: E402
