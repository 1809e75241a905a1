"""Roads between nodes. A road may lose, repeat and reorder what it carries; what it must not do is invent it, and
if it does `judge` says so.

`Road` is ZeroMQ: a node binds one PULL, in which it hears all others, and connects one PUSH to each of them. With keys
(CURVE) both ends are known: the listener lets in only keys of its list, and the key says which process a message is
from; the sender talks only to the key that it was told. Nothing waits on a road: what finds a full queue or no
connection is dropped, and is put again by a tick. `datagrams` has a road of UDP.
"""
import heapq
import ipaddress
import os
import random
import select
import struct
import time
from typing import Any, Callable, Dict, List, NamedTuple, Optional, Sequence, Tuple

import zmq
from zmq.utils import z85

MOST_BYTES = 4096  # of a message
MOST_QUEUED = 1000  # messages to or from one peer
BATCH = 64  # messages taken at once

# (type checkers know neither of them whole)
_os: Any = os
of_z85: Callable[[bytes], bytes] = getattr(z85, "decode")
to_z85: Callable[[bytes], bytes] = getattr(z85, "encode")


class RoadFault(Exception):
    pass


class Keys(NamedTuple):
    """The own secret key, and the public key of each process, in Z85 (40 characters)."""

    secret: bytes
    known: Tuple[bytes, ...]

    def __repr__(self) -> str:
        return f"Keys(secret=.., known={self.known})"  # a trace or a log that has it gives nothing away


def new_keys() -> Tuple[bytes, bytes]:
    """A public key and its secret key."""
    return zmq.curve_keypair()


def read_secret(path: str) -> bytes:
    """A secret key from a file that only its owner may read."""
    file = os.open(path, os.O_RDONLY)
    try:
        if os.fstat(file).st_mode & 0o077:
            raise RoadFault(f"{path}: others may read this secret key: chmod 600")
        return os.read(file, 100).strip()
    finally:
        os.close(file)


def is_loopback(address: str) -> bool:
    if address.startswith("ipc://"):
        return True
    host = address.partition("://")[2].rpartition(":")[0].strip("[]")
    try:
        return ipaddress.ip_address(host).is_loopback
    except ValueError:
        return False  # a name, or a star


def _is_key(key: bytes) -> bool:
    try:
        return len(key) == 40 and to_z85(of_z85(key)) == key
    except (KeyError, struct.error):
        return False


def check_keys(me: int, addresses: Sequence[str], keys: Optional[Keys]) -> None:
    """Each process has a key of its own, and this one the secret to its own. Without keys only loopback addresses are
    taken."""
    if keys is None:
        for address in addresses:
            if not is_loopback(address):
                raise RoadFault(f"{address} is no loopback address: between machines give keys")
        return
    if not all(map(_is_key, (keys.secret, *keys.known))):
        raise RoadFault("a key has 40 characters of Z85")
    if len(keys.known) != len(addresses) or len(set(keys.known)) != len(addresses):
        raise RoadFault("each process needs a key of its own")
    if zmq.curve_public(keys.secret) != keys.known[me]:
        raise RoadFault(f"the secret key isn't that of process {me}")


class Complaints:
    """Says each kind of complaint the 1st, 2nd, 4th, 8th, .. time, so that no flood fills a disk."""

    def __init__(self, say: Callable[[str], None]):
        self.say = say
        self.counts: Dict[str, int] = {}

    def __call__(self, kind: str, text: str) -> None:
        count = self.counts[kind] = self.counts.get(kind, 0) + 1
        if count & (count - 1) == 0:
            self.say(text if count == 1 else f"{text} ({count} of this kind)")


Arrived = List[Tuple[Optional[int], bytes]]  # messages, each with the process that its key names


class Bell:
    """What wakes a road, and what it hears. Once a node serves, its receiver alone calls all but `wake`: no socket is
    in two threads at a time."""

    def __init__(self, complain: Complaints, poller: Any, heard: Sequence[Any]):
        self.complain, self.poller, self.dropped = complain, poller, 0
        self.bell: int = _os.eventfd(0, _os.EFD_NONBLOCK | _os.EFD_CLOEXEC)
        for one in [*heard, self.bell]:
            poller.register(one, select.POLLIN)

    def wake(self) -> None:
        _os.eventfd_write(self.bell, 1)

    def ready(self, timeout: Optional[float]) -> Dict[Any, int]:
        """What is heard within this time, if it isn't woken before."""
        ready = dict(self.poller.poll(None if timeout is None else max(0, int(timeout * 1000 + 0.999))))
        if self.bell in ready:
            _os.eventfd_read(self.bell)
        return ready

    def pump(self, now: float) -> Optional[float]:
        """Sends what is due, and tells when something is due next."""
        return None

    def close(self) -> None:
        os.close(self.bell)


def _at(address: str, act: Callable[[str], Any]) -> None:
    try:
        act(address)
    except zmq.ZMQError as why:
        raise RoadFault(f"{address}: {why}") from None


class Road(Bell):
    """The road of ZeroMQ."""

    most_bytes = MOST_BYTES

    def __init__(self, me: int, addresses: Sequence[str], keys: Optional[Keys], complain: Complaints):
        self.by_key: Optional[Dict[bytes, bytes]] = None
        check_keys(me, addresses, keys)
        if keys is not None:
            self.by_key = {of_z85(key): b"%d" % p for p, key in enumerate(keys.known) if p != me}
        self.context = zmq.Context()
        try:
            self._open(me, addresses, keys)
        except BaseException as why:
            self.context.destroy(0)
            if isinstance(why, zmq.ZMQError):
                raise RoadFault(f"{addresses[me]}: {why}") from None
            raise
        super().__init__(complain, zmq.Poller(), [self.pull, self.door])

    def _socket(self, kind: int, is_ipv6: bool) -> Any:
        """A socket within its limits."""
        socket = self.context.socket(kind)
        socket.linger = 0
        for option, value in (
            (zmq.MAXMSGSIZE, MOST_BYTES), (zmq.SNDHWM, MOST_QUEUED), (zmq.RCVHWM, MOST_QUEUED), (zmq.IPV6, is_ipv6),
            (zmq.HANDSHAKE_IVL, 5000), (zmq.HEARTBEAT_IVL, 2000), (zmq.HEARTBEAT_TIMEOUT, 6000),
            (zmq.RECONNECT_IVL, 50), (zmq.RECONNECT_IVL_MAX, 2000),
        ):
            socket.set(option, value)
        return socket

    def _open(self, me: int, addresses: Sequence[str], keys: Optional[Keys]) -> None:
        is_ipv6 = any("[" in it for it in addresses)
        self.door = self.context.socket(zmq.REP)
        self.door.linger = 0
        self.door.bind("inproc://zeromq.zap.01")
        self.pull = self._socket(zmq.PULL, is_ipv6)
        self.pull.set(zmq.ZAP_DOMAIN, b"tellwydar")
        if keys is not None:
            self.pull.curve_server, self.pull.curve_secretkey = True, keys.secret
        _at(addresses[me], self.pull.bind)
        self.push = {p: self._socket(zmq.PUSH, is_ipv6) for p in range(len(addresses)) if p != me}
        for p, socket in self.push.items():
            socket.set(zmq.IMMEDIATE, 1)  # nothing is kept for a peer that isn't there
            if keys is not None:
                socket.curve_secretkey, socket.curve_publickey = keys.secret, keys.known[me]
                socket.curve_serverkey = keys.known[p]
            _at(addresses[p], socket.connect)

    def send(self, to: int, message: bytes) -> None:
        try:
            self.push[to].send(message, zmq.NOBLOCK)
        except zmq.Again:
            self.dropped += 1

    def receive(self, timeout: Optional[float]) -> Arrived:
        ready = self.ready(timeout)
        if self.door in ready:
            self._answer()
        out: Arrived = []
        if self.pull in ready:
            try:
                while len(out) < BATCH:
                    frame: Any = self.pull.recv(zmq.NOBLOCK, copy=False)
                    if frame.more:
                        self.complain("parts", "a message of several parts is dropped")
                        while self.pull.rcvmore:
                            self.pull.recv(zmq.NOBLOCK, copy=False)
                        continue
                    out.append((int(frame.get("User-Id")) if self.by_key else None, frame.bytes))
            except zmq.Again:
                pass
        return out

    def _answer(self) -> None:
        """Who may come in (ZAP, RFC 27)."""
        parts = self.door.recv_multipart()
        version, request, _, address, _, mechanism = (parts + [b""] * 6)[:6]
        who = b"-" if self.by_key is None and mechanism == b"NULL" else None
        if self.by_key is not None and mechanism == b"CURVE" and len(parts) == 7:
            who = self.by_key.get(parts[6])
        if who is None:
            self.complain("key", f"{address.decode(errors='replace')}: no known key; refused")
            self.door.send_multipart([version, request, b"400", b"unknown", b"", b""])
        else:
            self.door.send_multipart([version, request, b"200", b"", who, b""])

    def close(self) -> None:
        for socket in [self.pull, self.door, *self.push.values()]:
            socket.close(0)
        self.context.term()
        super().close()


class LossyRoad:
    """A road for tests: each message is lost, sent twice, kept back after the next one, or late, as
    the words of a seed say."""

    def __init__(self, road: Any, seed: int, loss: float = 0.0, duplicates: float = 0.0, reorder: float = 0.0,
                 delay: float = 0.0):
        self.road, self.random = road, random.Random(seed)
        self.loss, self.duplicates, self.reorder, self.delay = loss, duplicates, reorder, delay
        self.kept: Dict[int, bytes] = {}
        self.late: List[Tuple[float, int, int, bytes]] = []
        self.count = 0

    def send(self, to: int, message: bytes) -> None:
        draw = self.random.random
        if draw() < self.loss:
            return
        for _ in range(2 if draw() < self.duplicates else 1):
            if draw() < self.reorder and to not in self.kept:
                self.kept[to] = message
                continue
            self._go(to, message)
            if to in self.kept:
                self._go(to, self.kept.pop(to))

    def _go(self, to: int, message: bytes) -> None:
        if self.delay:
            self.count += 1
            due = time.monotonic() + self.random.expovariate(1 / self.delay)
            heapq.heappush(self.late, (due, self.count, to, message))
        else:
            self.road.send(to, message)

    def pump(self, now: float) -> Optional[float]:
        while self.late and self.late[0][0] <= now:
            _, _, to, message = heapq.heappop(self.late)
            self.road.send(to, message)
        return self.late[0][0] if self.late else None

    def __getattr__(self, name: str) -> Any:
        return getattr(self.road, name)
