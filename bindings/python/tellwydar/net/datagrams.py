"""A road of UDP datagrams. The process below wants no order and no repetition from a network, so where many packets are
lost nothing waits behind a lost one, as it does with TCP.

With keys each datagram is a NaCl box, made with the same keys as ZeroMQ's CURVE: so it is read by its receiver
alone, and comes from the process whose key opens it. A datagram that is recorded and sent again is a repeated
message, which changes nothing.
"""
import select
import socket
from typing import Any, Dict, Optional, Sequence, Tuple, Union

from .road import BATCH, Arrived, Bell, Complaints, Keys, LossyRoad, Road, RoadFault, check_keys, of_z85

MOST_BYTES = 1200  # of a message, so that a datagram fits into one packet of most networks
_MOST_READ = 2048
FEW = 16  # datagrams of strangers that are opened at once


def _place_of(address: str) -> Tuple[str, int]:
    host, _, port = address.removeprefix("udp://").rpartition(":")
    if not port.isdecimal() or int(port) >= 2**16:
        raise RoadFault(f"{address}: no port")
    return host.strip("[]"), int(port)


def _share(bound: socket.socket, other: socket.socket) -> None:
    """Lets another socket have the address of one that is bound. Before it was bound, one that
    somebody else has was refused."""
    for one in (bound, other):
        one.setsockopt(socket.SOL_SOCKET, socket.SO_REUSEADDR, 1)


class DatagramRoad(Bell):
    """The road of UDP.

    Each peer has a socket of its own, to which the system brings what comes from the peer's address. All else comes to
    the socket for strangers, of which few datagrams are opened before the peers are heard again: a flood from elsewhere
    takes no peer's room, and little of its time."""

    most_bytes = MOST_BYTES

    def __init__(self, me: int, addresses: Sequence[str], keys: Optional[Keys], complain: Complaints):
        self.me = me
        check_keys(me, addresses, keys)
        self.boxes: Optional[Dict[int, Any]] = None
        if keys is not None:
            try:
                from nacl.public import Box, PrivateKey, PublicKey
            except ImportError:
                raise RoadFault("datagrams with keys need PyNaCl: python3-nacl") from None

            secret = PrivateKey(of_z85(keys.secret))
            self.boxes = {p: Box(secret, PublicKey(of_z85(key))) for p, key in enumerate(keys.known) if p != me}
        places = [_place_of(it) for it in addresses]
        family = socket.AF_INET6 if any(":" in host for host, _ in places) else socket.AF_INET
        self.strangers = socket.socket(family, socket.SOCK_DGRAM)
        self.peers = {p: socket.socket(family, socket.SOCK_DGRAM) for p in range(len(places)) if p != me}
        try:
            self.strangers.bind(places[me])
            for p, peer in self.peers.items():
                _share(self.strangers, peer)
                peer.bind(places[me])
                peer.connect(socket.getaddrinfo(*places[p], family, socket.SOCK_DGRAM)[0][4])
        except OSError as why:
            self._shut()
            raise RoadFault(f"{addresses[me]}: {why}") from None
        sockets = [*self.peers.values(), self.strangers]
        for one in sockets:
            one.setblocking(False)
        super().__init__(complain, select.poll(), [it.fileno() for it in sockets])

    def send(self, to: int, message: bytes) -> None:
        if self.boxes is not None:
            message = bytes([self.me]) + bytes(self.boxes[to].encrypt(message))
        try:
            self.peers[to].send(message)
        except OSError:  # no room, or nobody there: a tick puts it again
            self.dropped += 1

    def receive(self, timeout: Optional[float]) -> Arrived:
        ready, found = self.ready(timeout), []  # type: Dict[Any, int], Arrived
        for peer in self.peers.values():
            if peer.fileno() in ready:
                self._take(peer, BATCH, found)
        if self.strangers.fileno() in ready:
            self._take(self.strangers, FEW, found)
        return found

    def _take(self, source: socket.socket, most: int, found: Arrived) -> None:
        """Opens some of what has come to a socket."""
        for _ in range(most):
            try:
                data, place = source.recvfrom(_MOST_READ)
            except BlockingIOError:
                return
            except OSError:  # what a datagram of ours met at a port where nobody is
                continue
            opened = self._opened(data)
            if opened is None:
                self.complain("key", f"{place[0]}: a datagram that no known key opens; dropped")
            else:
                found.append(opened)

    def _opened(self, data: bytes) -> Optional[Tuple[Optional[int], bytes]]:
        if self.boxes is None:
            return None, data
        box = self.boxes.get(data[0]) if data else None
        if box is None:
            return None
        from nacl.exceptions import CryptoError

        try:
            return data[0], bytes(box.decrypt(data[1:]))
        except (CryptoError, ValueError, TypeError):
            return None

    def close(self) -> None:
        self._shut()
        super().close()

    def _shut(self) -> None:
        for one in [*self.peers.values(), self.strangers]:
            one.close()


AnyRoad = Union[Road, DatagramRoad, LossyRoad]
