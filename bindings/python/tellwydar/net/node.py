"""A node: one process, its log, and a road to the others.

What it decides is decided by a proved node (`tellwydar.Node`). Under one lock steps are made there: by the caller's
thread for a call, and by one receiver thread for what comes in, some messages at a time, and for the ticks. The
receiver's thread alone has to do with the disk, and holds no lock meanwhile: so no caller waits for the disk for longer
than it wants to. It writes the entries of all steps that were made; then the proved node is told that they are durable,
and hands out frames and answers. It also greets the others, since no call is cast before all were heard, and ends a
chapter and begins the next one (`chapters`): callers wait meanwhile.
"""
import threading
import time
from typing import Callable, Dict, List, Optional, Sequence, Tuple, Type, Union

from .. import _CALLS, Answer, CompareAndSwap, LogHead, Op, Read, Refused, Reply, Swap, Write
from .. import Node as ProvedNode
from ..messages import START, Met
from . import core
from .core import Busy, Closed, NodeFailed, Paused, TimedOut
from .datagrams import AnyRoad, DatagramRoad
from .peers import FRAMES, GREETING, Peers
from .road import Arrived, Complaints, Keys, LossyRoad, Road
from .room import room_of
from .status import Status, status_of
from .story import Story

_HOLD = 0.002  # seconds for which counts are held
_MOMENT = 0.1  # seconds that a caller gives the disk at least, where nothing else is between it and its answer


class Node:
    """One process of a cluster on a machine of its own.

    `front` and `registers` (names) are the same at all nodes, and so are `peers`: an address for each process,
    `tcp://HOST:PORT` or `udp://HOST:PORT`, of which `me` is this one's; and `cluster`, a number of 1 to 2^63 - 1 that
    no other cluster has. `keys` are needed for addresses that aren't loopback. `log_path` is a new file, or with
    `resume` the log of this process, which goes on. With `sync` each entry is on the disk before its frames go out, and
    its answer is told, unless it is a read that is answered at once. `look` are the seconds between two looks at the
    links. A chapter ends where this process has called `chapter_operations`, or all logs together could have
    `chapter_entries` (`room`). `lossy` puts a road for tests around the real one, and `say` is given each line of what
    is odd.

    States: up, with no operation, with one going on, or with an answer to be fetched; closed; failed. None of the last
    two is left. All functions may be called by any thread; in a handler of a signal only `close`.
    """

    def __init__(self, front: str, registers: Sequence[str], me: int, peers: Sequence[str], keys: Optional[Keys],
                 log_path: str, *, cluster: int, sync: bool = False, look: float = 0.01, resume: bool = False,
                 chapter_operations: Optional[int] = None, chapter_entries: Optional[int] = None,
                 lossy: Optional[Callable[[AnyRoad], LossyRoad]] = None, say: Callable[[str], None] = core.say):
        if type(cluster) is not int or not 0 < cluster < 2**63:
            raise ValueError(f"{cluster!r} is no number of a cluster: 1 to 2^63 - 1")
        head = LogHead(cluster, me, core.front_of(front), len(peers), tuple(registers), begun=0, chapter=0)
        ProvedNode.begin(**head._asdict())  # (what no log can be of is refused before there is any)
        room = room_of(len(peers), len(registers), chapter_operations, chapter_entries)
        self.registers = head.names
        self._names = {name: r for r, name in enumerate(registers)}
        self._me, self.sync, self._look_every = me, sync, look
        self._say, self._complain = say, Complaints(say)
        self._answer: Optional[Reply] = None
        self._is_awaited = False  # the caller of the operation that goes on is still there
        of = me, peers, keys, self._complain
        # (before the log: where it is refused no log is begun)
        road: AnyRoad = DatagramRoad(*of) if peers[me].startswith("udp://") else Road(*of)
        try:
            self._road = road if lossy is None else lossy(road)
            self._story = Story(head, log_path, room, resume, say)
        except BaseException:
            road.close()
            raise
        self._lock = threading.RLock()  # (unlike a `Lock`, it is taken again behind a wait whatever a signal raises)
        self._answered = threading.Condition(self._lock)
        self._failed, self._closed, self._is_over, self._is_opening = "", False, False, True
        self._is_held_back = False  # a caller waits until others have come nearer
        self._held_till: Optional[float] = None
        self._peers = Peers(self._story, self._road, self._complain)
        self._thread = threading.Thread(target=self._serve, name="tellwydar", daemon=True)
        try:
            self._thread.start()
        except BaseException:
            road.close()
            self._story.close()
            raise

    # --- entries and chapters: the receiver's thread, which holds no lock while the disk has to do with it

    def _commit(self, must: bool = False) -> None:
        """Writes the entries down that were made; once they are durable their frames go out, and then their answer is
        told.

        With `sync` that is on the disk. Counts alone are no reason to wait for that, unless it `must` be: they are held
        until something else is one, or for 2 ms."""
        story = self._story
        with self._lock:
            if self._failed or not story.lines and not (must and self._held_till):
                return
            is_held = self.sync and not must and not story.is_urgent()
            lines, force, logged = story.made(self.sync and not is_held)
        story.write(lines, force)
        with self._lock:
            if is_held:
                self._held_till = self._held_till or time.monotonic() + _HOLD
            elif not self._failed:
                self._held_till = None
                self._hand_out(logged)

    def _end_chapter(self, is_look: bool) -> None:
        """While the chapter ends the others are told how far this node has come, and where it is over the next one
        begins. Nobody calls meanwhile."""
        story = self._story
        with self._lock:
            if self._failed or story.lines or not story.node.is_ending:
                return
            story.tell_state()
            is_quiet, is_over, called = story.node.is_quiet(story.running), story.node.is_over, story.called()
        try:
            if is_quiet:
                story.say_quiet(called)
            following = story.begin_next() if is_over else None
        except OSError:
            return  # at the next look it is tried again
        with self._lock:
            if is_look:
                self._peers.tell_own()
            if following:
                story.turn(*following)
                self._held_till = None  # a count that was held is of the last chapter
                self._is_opening = True
                self._peers = Peers(story, self._road, self._complain)

    def _write_opening(self) -> None:
        """Process 0 writes what the last chapter ended with, one register after another."""
        story = self._story
        while True:
            with self._lock:
                due = story.node.next_opening
                if due is None or story.running or not story.node.has_heard_all:
                    if not story.is_opening():
                        self._is_opening = False
                        self._answered.notify_all()
                    return
                story.call(due)
            self._commit()

    # --- under the lock

    def _hand_out(self, logged: int) -> None:
        """Has go out what waits for no more entries than these."""
        story = self._story
        out: Dict[int, List[bytes]] = {}
        for output in story.outputs(logged):
            for to, frame in output.frames:
                out.setdefault(to, []).append(frame)
            if output.reply is not None and story.own_calls > 0:
                self._answer = output.reply
        for to, frames in out.items():
            self._send(to, frames)
        if self._answer is not None:
            self._answered.notify_all()

    def _send(self, to: int, frames: List[bytes]) -> None:
        start = self._peers.post.starts[to] + FRAMES
        message, last = start, b""
        for frame in frames:
            if frame[3] == 2:
                last = frame  # of several counts the last says all
                continue
            if len(message) + len(frame) + 12 > self._road.most_bytes:
                self._road.send(to, message)
                message = start
            message += frame
        self._road.send(to, message + last)

    def _fail(self, why: str) -> None:
        self._failed = why
        self._answered.notify_all()
        self._say(f"process {self._me} stopped: {why}")

    def _up(self) -> None:
        if self._closed:
            raise Closed()
        if self._failed:
            raise NodeFailed(self._failed)

    # --- the caller's side

    def _register(self, name: Union[str, int]) -> int:
        return self._names.get(name, -1) if isinstance(name, str) else name

    def perform(self, op: Op, timeout: Optional[float] = None) -> Answer:
        """Makes a call, and gives its answer: None where it is done, `UNEQUAL`, or a value. `TimedOut` says that the
        operation goes on, and `Paused` that it wasn't made."""
        if type(op) not in _CALLS:
            raise TypeError(f"{op!r} is no operation")
        if type(op.register) is not int or not 0 <= op.register < 2**16:
            raise Refused("no register")
        for value in (getattr(op, "value", 0), getattr(op, "expected", 0)):
            if type(value) is not int or not 0 <= value < 2**64:
                raise ValueError(f"{value!r} is no number of 64 bits")
        end = None if timeout is None else time.monotonic() + timeout
        with self._lock:
            while not self._has_called(op):
                self._sleep(end, Paused)
            if end is not None and not self._story.node.busy:
                end = max(end, time.monotonic() + _MOMENT)
            return self._wait(end)

    def _has_called(self, op: Op) -> bool:
        """Makes the call, but not while a chapter ends or begins, somebody has to be heard before, or this node is far
        ahead of the others."""
        self._up()
        story = self._story
        is_idle = not story.running and self._answer is None
        if story.is_opening() or story.node.is_ending and is_idle:
            return False
        if not is_idle:
            raise Busy()
        if not isinstance(op, Read) and story.node.is_far_ahead:
            self._is_held_back = True
            return False
        try:
            story.call(op)
            self._road.wake()
        except Refused as why:  # nothing has changed, but it may have stopped for good
            if str(why) == "unheard":
                return False
            if str(why) in core.STOPS:
                self._fail(str(why))
            raise
        except BaseException as why:  # (also what a handler of a signal raises: a step may be made and not written)
            self._fail(str(why) or repr(why))
            raise
        return True

    def _sleep(self, end: Optional[float], late: Type[Exception]) -> None:
        """Waits until something changes, while the caller has time."""
        left = None if end is None else min(end - time.monotonic(), threading.TIMEOUT_MAX)
        if left is not None and left <= 0:
            raise late()
        self._answered.wait(left)

    def _wait(self, end: Optional[float]) -> Answer:
        """The answer of the operation that goes on. Nobody else fetches it meanwhile."""
        self._is_awaited = True
        try:
            while self._answer is None:
                self._up()
                self._sleep(end, TimedOut)
        finally:
            self._is_awaited = False
        answer, self._answer = self._answer, None
        return answer.value

    def read(self, register: Union[str, int], timeout: Optional[float] = None) -> int:
        value = self.perform(Read(self._register(register)), timeout)
        assert isinstance(value, int)
        return value

    def write(self, register: Union[str, int], value: int, timeout: Optional[float] = None) -> None:
        self.perform(Write(self._register(register), value), timeout)

    def swap(self, register: Union[str, int], value: int, timeout: Optional[float] = None) -> int:
        old = self.perform(Swap(self._register(register), value), timeout)
        assert isinstance(old, int)
        return old

    def compare_and_swap(self, register: Union[str, int], expected: int, value: int,
                         timeout: Optional[float] = None) -> bool:
        """Writes the value where the expected one is there, and tells whether it was."""
        return self.perform(CompareAndSwap(self._register(register), expected, value), timeout) is None

    def wait(self, timeout: Optional[float] = None) -> Answer:
        """The answer of the operation whose caller's time was up: None where it is done, `UNEQUAL`, or a value. `Busy`
        says that a caller still waits for it."""
        end = None if timeout is None else time.monotonic() + timeout
        with self._lock:
            if self._is_awaited:
                raise Busy()
            if not self.so_far()[1]:
                raise ValueError("no operation goes on")
            return self._wait(end)

    def so_far(self) -> Tuple[int, bool]:
        """How many operations were called, in earlier runs too, and whether one of them goes on or has
        an answer to be fetched."""
        with self._lock:
            is_own = self._story.running and self._story.own_calls > 0
            return self._story.called(), is_own or self._answer is not None

    def status(self) -> Status:
        """How far this node has come, and what it knows of the others."""
        with self._lock:
            self._up()
            return status_of(self._story, self._peers.came_at, time.monotonic())

    def pending(self) -> int:
        """How many frames the others haven't acknowledged."""
        with self._lock:
            self._up()
            return self._story.node.pending

    def _is_in_call(self) -> bool:
        """Whether this thread is in the midst of a call, as where a handler of a signal runs."""
        try:
            self._answered.notify(0)  # (only who has the lock may)
        except RuntimeError:
            return False
        return True

    def close(self) -> None:
        """Ends the node. Others that need its acknowledgements wait from then on: close it when all are done. A handler
        of a signal that came in the midst of a call doesn't wait for the end."""
        if self._is_in_call():
            self._closed = True
            if not self._is_over:
                self._road.wake()
            return
        with self._lock:
            self._closed = True
            self._answered.notify_all()
            while not self._is_over:
                self._road.wake()
                self._answered.wait()

    def join(self) -> None:
        """Waits until the node has ended: it was closed, or it stopped, and then `status` says why."""
        self._thread.join()

    def __enter__(self) -> "Node":
        return self

    def __exit__(self, *_: object) -> None:
        self.close()

    # --- the receiver's side

    def _serve(self) -> None:
        look_at, messages = time.monotonic() + self._look_every, []  # type: float, Arrived
        try:
            while True:
                now = time.monotonic()
                is_look = now >= look_at
                with self._lock:
                    if self._closed or self._failed:
                        break
                    must = self._held_till is not None and now >= self._held_till
                    for key, message in messages:
                        must |= self._heard(key, message, now)
                    if is_look:
                        must |= self._look()
                        look_at = now + self._look_every
                self._commit(must)
                self._end_chapter(is_look)
                if self._is_opening:
                    self._write_opening()
                with self._lock:
                    if self._is_held_back and not self._story.node.is_far_ahead:
                        self._is_held_back = False
                        self._answered.notify_all()
                    ends = [self._held_till, self._road.pump(now), None if self._is_at_rest() else look_at]
                messages = self._receive(min((it for it in ends if it is not None), default=None))
                if not self._story.is_owed:
                    self._commit()  # a read that was answered at once isn't held up by what came meanwhile
            self._commit(True)  # (what was called is in the log, if the node hasn't failed)
        except Exception as why:  # one of core.STOPS, or what nobody thought of: stop, before anything goes out
            with self._lock:
                self._fail(str(why) or repr(why))
        finally:
            with self._lock:
                self._is_over = True
                self._answered.notify_all()
                self._road.close()
                self._story.close()

    def _receive(self, until: Optional[float]) -> Arrived:
        try:
            return self._road.receive(None if until is None else max(0.0, until - time.monotonic()))
        except Exception as why:
            raise NodeFailed(f"the road broke: {why!r}") from None

    def _is_at_rest(self) -> bool:
        """Whether nothing is to be done until somebody else does something."""
        node = self._story.node
        is_busy = node.is_ending or not node.has_heard_all or self._story.is_opening()
        return not is_busy and node.pending == 0

    def _look(self) -> bool:
        """Looks at the links, and tells whether all entries are to be durable then."""
        return self._tick(self._peers.look()) or self._story.node.is_ending

    def _tick(self, is_due: bool) -> bool:
        if is_due:
            self._story.step(self._story.node.tick)
        return is_due

    def _heard(self, key: Optional[int], message: bytes, now: float) -> bool:
        """Hears a message, and tells whether all entries are to be durable then."""
        it = self._peers.post.met(key, message)
        if it is None:
            return False
        if it.met is Met.LATE:
            self._peers.tell_last(it.sender)
            return False
        brings, rest = message[START : START + 1], message[START + 1 :]
        if brings == FRAMES:
            self._take(it.sender, rest)
        elif brings == GREETING:
            self._peers.greeted(it.sender, rest)
            if self._story.node.has_heard_all:
                self._answered.notify_all()
        else:
            self._peers.heard_state(it.sender, rest)
        return self._tick(self._peers.came(it.sender, now))

    def _take(self, sender: int, frames: bytes) -> None:
        at = 0
        while at < len(frames):
            end = at + 2 + int.from_bytes(frames[at : at + 2], "big")
            try:
                self._story.step(self._story.node.take, sender, frames[at:end])
            except Refused as why:
                if str(why) in core.STOPS:
                    raise
                self._complain(f"frame {sender}", f"process {sender}: a frame is refused: {why}")
            at = end
