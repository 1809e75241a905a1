"""A node whose decisions are proved: one process of a cluster that outlives crashes by its log.

Its owner writes the bytes that each step gives behind the log, in their order; says how many entries are durable
(`mark_durable`) once they are; and carries what is handed out. The frames and the reply of a step are handed out once
its entry is durable, and no sooner:

    log = Node.begin(cluster=7, process=0, front=Front.LINEAR, processes=2, names=["x"], begun=12)
    node = Node.open(log, durable=0)
    node.hear(1, 0)                      # process 1 says that it accepted nothing from this one: its `accepted(0)`
    log += node.call(Write(0, 5))        # now make it durable
    node.mark_durable(node.logged)
    output = node.hand_out()             # frames for other processes, and the reply if there is one
"""
import ctypes
import re
import threading
from dataclasses import dataclass
from typing import Any, Callable, List, NamedTuple, Optional, Sequence, Tuple, Union

from . import (
    _CALLS, _REFUSALS, _ROOM, CompareAndSwap, Front, Known, Op, Refused, Reply, Write, _framed, _library, _Progress,
    _ranged, _reply,
)

_NOTHING_DUE = 71
_NO_HEAD = 18, 72
_REFUSALS.update({
    64: "stopped", 65: "unspelled", 66: "log lost", 67: "unheard", 68: "log full", 69: "no room", 70: "not logged",
    76: "bad names", 80: "no state",
})
_BAD_LOGS = {
    72: "line {}: not a log", 73: "entry {}: damaged", 74: "entry {}: no step", 75: "entry {}: of another process",
}


class _Log(ctypes.Structure):
    _fields_ = [
        ("cluster", ctypes.c_uint64), ("chapter", ctypes.c_uint64), ("begun", ctypes.c_uint64),
        ("front", ctypes.c_uint32), ("processes", ctypes.c_uint32), ("process", ctypes.c_uint8),
    ]


def _declare() -> None:
    u8, u16, u32, u64 = ctypes.c_uint8, ctypes.c_uint16, ctypes.c_uint32, ctypes.c_uint64
    size, room, handle = ctypes.c_size_t, ctypes.c_char_p, ctypes.c_void_p
    for word, result, given in (
        ("begin", u32, [ctypes.POINTER(_Log), room, size, room, size, ctypes.POINTER(size)]),
        ("is_headless", u32, [ctypes.POINTER(_Log), room, size, ctypes.POINTER(u32)]),
        ("new", u32, [ctypes.POINTER(handle)]),
        ("open", u32, [handle, room, size, u64]),
        ("call", u32, [handle, u32, u32, u64]),
        ("compare_and_swap", u32, [handle, u32, u64, u64]),
        ("take", u32, [handle, u8, room, size]),
        ("tick", u32, [handle]),
        ("bytes", size, [handle, room, size]),
        ("hear", u32, [handle, u8, u64]),
        ("tell_state", u32, [handle, u32, room, size, ctypes.POINTER(size)]),
        ("hear_state", u32, [handle, u8, room, size]),
        ("is_over", u32, [handle]),
        ("set_room", u32, [handle, u64, u64, u64]),
        ("follow", u32, [handle, ctypes.POINTER(u64), size]),
        ("end", u32, [handle]),
        ("course", u64, [handle, u32, u32]),
        ("mark_durable", u32, [handle, u64]),
        ("hand_out", u32, [handle]),
        ("frames", u32, [handle, room, size, ctypes.POINTER(size)]),
        ("look", u64, [handle, u32, u16]),
        ("known", u64, [handle, u32, u8]),
        ("watch", u32, [handle, u8]),
        ("came", u32, [handle, u8]),
        ("close", None, [handle]),
    ):
        function = getattr(_library, f"tellwydar_node_{word}")
        function.restype, function.argtypes = result, given
    function = _library.tellwydar_log_head
    function.restype, function.argtypes = u32, [room, size, ctypes.POINTER(_Log), room, size, ctypes.POINTER(size)]


_declare()


def _spelled(names: Sequence[str]) -> bytes:
    """The names of registers, as the library takes them."""
    if isinstance(names, (str, bytes)):
        raise TypeError(f"the names are a list of strings, and not {names!r}")
    for name in names:
        if not isinstance(name, str):
            raise TypeError(f"a register's name is a string, and not {name!r}")
        if not re.fullmatch("[a-z]{1,16}", name):
            raise ValueError(f"a register's name is 1 to 16 letters a to z, and not {name!r}")
    if len(set(names)) < len(names):
        raise ValueError("two registers have the same name")
    return " ".join(names).encode()


@dataclass(frozen=True)
class Output:
    """What goes out of one step: frames for other processes, pairs of receiver and bytes, and the reply to its caller,
    if there is one."""

    frames: List[Tuple[int, bytes]]
    reply: Optional[Reply]


class LogHead(NamedTuple):
    """What the head of a log says, in the words of `Node.begin`."""

    cluster: int
    process: int
    front: Front
    processes: int
    names: Tuple[str, ...]
    begun: int
    chapter: int


class Look(NamedTuple):
    """What is due at a look at another process."""

    greets: bool  # that one is to be greeted
    ticks: bool  # this node is to tick


class Node(_Progress):
    """A node that goes on after its log. It is used by the thread that opened it alone, as its bytes have one order,
    unless its owner guards it by a lock of his own. Where a handler of a signal raises while a step is made, the step's
    bytes may be lost: then the node has stopped, all is refused as `failed`, and it is opened again from its log."""

    # (an entry's line has at most 151 bytes)
    _BYTES = 160

    def __init__(self, guarded: bool) -> None:
        super().__init__(_library.tellwydar_node_new, _library.tellwydar_node_close)
        self._thread = None if guarded else threading.get_ident()
        self._is_torn = False
        self._line: Any = ctypes.create_string_buffer(self._BYTES)
        self._room = ctypes.create_string_buffer(_ROOM)

    @staticmethod
    def begin(
        *, cluster: int, process: int, front: Front, processes: int, names: Sequence[str], begun: int, chapter: int = 0
    ) -> bytes:
        """The log of a process that did nothing yet. `cluster` is the same for all processes of a cluster and for no
        other one, and `begun` is drawn anew for each log."""
        drawn = _ranged(cluster, 64), _ranged(chapter, 64), _ranged(begun, 64)
        log = _Log(*drawn, Front(front), _ranged(processes, 32), _ranged(process, 8))
        spelled = _spelled(names)
        # (nine short lines, and the names)
        room, length = ctypes.create_string_buffer(512 + len(spelled)), ctypes.c_size_t()
        given = ctypes.byref(log), spelled, len(spelled), room, len(room), ctypes.byref(length)
        code = _library.tellwydar_node_begin(*given)
        if code:
            raise Refused(_REFUSALS[code])
        return room.raw[: length.value]

    @staticmethod
    def is_headless(log: bytes, *, cluster: int, process: int, chapter: int) -> bool:
        """Whether this has a part of such a log's first four lines and zeros, or these lines and fewer than five line
        feeds behind them. All that a crash can leave before the head is whole is so, and no log is: it can be begun
        anew."""
        row = _Log(_ranged(cluster, 64), _ranged(chapter, 64), process=_ranged(process, 8))
        headless = ctypes.c_uint32()
        code = _library.tellwydar_node_is_headless(ctypes.byref(row), log, len(log), ctypes.byref(headless))
        if code:
            raise Refused(_REFUSALS[code])
        return headless.value == 1

    @staticmethod
    def head(log: bytes) -> Optional[LogHead]:
        """What the head of the log says that this begins with, whatever stands behind it. None where it begins with no
        head."""
        row, length, size = _Log(), ctypes.c_size_t(), 512
        while True:
            room = ctypes.create_string_buffer(size)
            code = _library.tellwydar_log_head(log, len(log), ctypes.byref(row), room, size, ctypes.byref(length))
            if code in _NO_HEAD:
                return None
            if code:
                raise Refused(_REFUSALS[code])
            if length.value <= size:
                names = tuple(room.raw[: length.value].decode().split(" "))
                return LogHead(row.cluster, row.process, Front(row.front), row.processes, names, row.begun, row.chapter)
            size = length.value

    @classmethod
    def open(cls, log: bytes, durable: int, *, guarded: bool = False) -> "Node":
        """A node that goes on after its log, all of whose entries count as durable, so see that they are; `durable` is
        how many were told so before. The log is `log[: node.whole]`: what a crash left behind that is to be cut off
        before more is written. With `guarded` threads share the node: its owner has a lock, and each holds it from a
        step until the step's bytes are in their place."""
        if not isinstance(log, (bytes, bytearray)):
            raise TypeError("a log is bytes")
        text = bytes(log)
        node = cls(guarded)
        code = node._asked(_library.tellwydar_node_open, text, len(text), _ranged(durable, 64))
        if code:
            place = node._look(14)
            node.close()
            raise Refused(_BAD_LOGS[code].format(place) if code in _BAD_LOGS else _REFUSALS[code])
        return node

    def __enter__(self) -> "Node":
        return self

    def _asked(self, function: Callable[..., int], *numbers: Union[int, bytes]) -> int:
        if self._thread not in (None, threading.get_ident()):
            raise RuntimeError("a node is used by the thread that opened it alone")
        if self._is_torn:
            raise Refused("failed")
        return super()._asked(function, *numbers)

    def _told(self, code: int) -> None:
        if code:
            raise Refused(_REFUSALS[code])

    def _look(self, what: int, register: int = 0) -> int:
        return self._asked(_library.tellwydar_node_look, what, register)

    def _step(self, function: Callable[..., int], *numbers: Union[int, bytes]) -> bytes:
        try:
            self._told(self._asked(function, *numbers))
            count = self._asked(_library.tellwydar_node_bytes, self._line, self._BYTES)
            return ctypes.string_at(self._line, count)
        except (Refused, RuntimeError):
            raise
        except BaseException:
            self._is_torn = True
            raise

    def call(self, op: Op) -> bytes:
        """Calls an operation, and gives the bytes by which the log grows."""
        register, value = _ranged(op.register, 16), _ranged(getattr(op, "value", 0), 64)
        if isinstance(op, CompareAndSwap):
            return self._step(_library.tellwydar_node_compare_and_swap, register, _ranged(op.expected, 64), value)
        return self._step(_library.tellwydar_node_call, _CALLS[type(op)], register, value)

    def take(self, sender: int, frame: bytes) -> bytes:
        """Takes a frame of another process, and gives the bytes by which the log grows."""
        if not isinstance(frame, bytes):
            raise TypeError("a frame is bytes")
        return self._step(_library.tellwydar_node_take, _ranged(sender, 8), frame, len(frame))

    def tick(self) -> bytes:
        """Puts the first unacknowledged frames of every link again, and gives the bytes by which the log grows."""
        return self._step(_library.tellwydar_node_tick)

    def hear(self, other: int, count: int) -> None:
        """Hears that another process accepted so many bodies from this one: its `accepted` of this one. If that is more
        than were ever queued for it, this node's log was lost, and the node stops for good."""
        self._told(self._asked(_library.tellwydar_node_hear, _ranged(other, 8), _ranged(count, 64)))

    def tell_state(self, is_quiet: bool) -> bytes:
        """The bytes that tell the others how far it has come in its chapter; it is quiet where it calls nothing more
        and no operation goes on. The node keeps that it told this."""
        length = ctypes.c_size_t()
        room: Tuple[Any, ...] = (self._room, _ROOM, ctypes.byref(length))
        self._told(self._asked(_library.tellwydar_node_tell_state, int(is_quiet), *room))
        return ctypes.string_at(self._room, length.value)

    def hear_state(self, sender: int, told: bytes) -> None:
        """Hears such bytes of a node of the same chapter, in whatever order they come: the latest are kept."""
        self._told(self._asked(_library.tellwydar_node_hear_state, _ranged(sender, 8), told, len(told)))

    @property
    def is_over(self) -> bool:
        """Whether the chapter is over, by what it told and heard: then everybody has accepted all that anybody put."""
        return self._asked(_library.tellwydar_node_is_over) != 0

    def follow(self, values: Sequence[int], *, operations: int, entries: int, ahead: int) -> None:
        """Sets the room of its chapter: the operations and the entries of this process at which it is to end, and how
        many of its casts may be on their way. And tells with which values of the registers, in their order, the chapter
        before ended, none for the first one: those that aren't 0 are what process 0 writes first, and nothing else is
        called until they are delivered."""
        room = (_ranged(it, 64) for it in (operations, entries, ahead))
        row: Any = (ctypes.c_uint64 * len(values))(*(_ranged(it, 64) for it in values))
        self._told(self._asked(_library.tellwydar_node_set_room, *room))
        self._told(self._asked(_library.tellwydar_node_follow, row, len(values)))

    def end(self) -> None:
        """Asks for the end of its chapter, as is due where another node tells how far it has come."""
        self._told(self._asked(_library.tellwydar_node_end))

    def _course(self, what: int, is_running: bool = False) -> int:
        return self._asked(_library.tellwydar_node_course, what, int(is_running))

    @property
    def is_ending(self) -> bool:
        """Whether its chapter is to end, since there is little room left or somebody has asked for it: then it calls
        nothing more."""
        return self._course(0) != 0

    @property
    def is_far_ahead(self) -> bool:
        """Whether so many of its casts are on their way that no other is made."""
        return self._course(1) != 0

    def is_opening(self, is_running: bool) -> bool:
        """Whether the values that the chapter before ended with aren't all delivered here, or the write of one goes on:
        then nothing else is called. (`is_running`: an operation runs, or its reply isn't handed out.)"""
        return self._course(2, is_running) != 0

    def is_quiet(self, is_running: bool) -> bool:
        """Whether it calls nothing more in its chapter, and no operation goes on."""
        return self._course(3, is_running) != 0

    @property
    def own_calls(self) -> int:
        """How many of its calls weren't made to write what the chapter before ended with."""
        return self._course(4)

    @property
    def next_opening(self) -> Optional[Write]:
        """What it writes next of what the chapter before ended with: only process 0 does."""
        return Write(self._course(6), self._course(7)) if self._course(5) else None

    def mark_durable(self, count: int) -> None:
        """Notes that so many entries of the log are durable, those that it was opened with among them."""
        self._told(self._asked(_library.tellwydar_node_mark_durable, _ranged(count, 64)))

    def hand_out(self) -> Optional[Output]:
        """What goes out of the next step, if its entry is durable, else None."""
        code = self._asked(_library.tellwydar_node_hand_out)
        if code == _NOTHING_DUE:
            return None
        reply = _reply(code, lambda: self._look(6), lambda: self._look(7))
        frames = _framed(self._room, lambda *given: self._asked(_library.tellwydar_node_frames, *given))
        return Output(frames, reply)

    @property
    def logged(self) -> int:
        """How many entries its log has."""
        return self._look(8)

    @property
    def calls(self) -> int:
        """How many of them are calls."""
        return self._look(15)

    @property
    def durable(self) -> int:
        """How many of them it was told are durable."""
        return self._look(9)

    @property
    def whole(self) -> int:
        """How many bytes of the text that it was opened with are the log."""
        return self._look(13)

    @property
    def is_stopped(self) -> bool:
        """Whether it has stopped for good: its log was lost, or an entry had no text."""
        return self._look(10) + self._look(11) > 0

    @property
    def has_heard_all(self) -> bool:
        """Whether it has heard from all others, and so may cast."""
        return self._look(12) != 0

    def _known(self, what: int, peer: int) -> int:
        return self._asked(_library.tellwydar_node_known, what, _ranged(peer, 8))

    def known(self, peer: int) -> Known:
        """What its process knows of another one."""
        return Known(*(self._known(what, peer) for what in range(4)))

    def has_heard(self, peer: int) -> bool:
        """Whether it has heard from a process."""
        return self._known(4, peer) != 0

    def is_long_silent(self, peer: int) -> bool:
        """Whether another process is silent for so long, 127 looks or more, that it is only greeted."""
        return self._known(5, peer) != 0

    def watch(self, peer: int) -> Look:
        """Looks at another process, as is to be done every few milliseconds. Where it wasn't heard, or doesn't
        acknowledge a frame, something is due after 1, 2, 4, .. 64 looks, and from there on after each 100."""
        code = self._asked(_library.tellwydar_node_watch, _ranged(peer, 8))
        return Look(code & 1 != 0, code & 2 != 0)

    def came(self, peer: int) -> bool:
        """Notes that it took what came from another process: where that was silent for long, looks are counted anew.
        Tells whether to tick at once: where the last tick that was due for that process put frames again, and it has
        acknowledged just these, though it hasn't acknowledged more."""
        return self._asked(_library.tellwydar_node_came, _ranged(peer, 8)) != 0

    def accepted(self, peer: int) -> int:
        """How many bodies it accepted from another process, which that one is to hear when they meet."""
        return self.known(peer).expected
