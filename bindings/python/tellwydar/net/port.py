"""The port of a node: a Unix socket, at which programs on its machine call it.

A program sends lines. Each is a call, as words or as an object of JSON (`calls`), or asks how the node is: `health`,
`status`, `metrics`. It is answered by one line: how the call ended, or what was asked for. Only metrics are several
lines, of which the last is `# EOF` (https://prometheus.io/docs/instrumenting/exposition_formats). Programs take turns,
since a process has one operation at a time.
"""
import contextlib
import fcntl
import os
import socket
import socketserver
import stat
import threading
import time
from typing import Any, BinaryIO, Iterable, Iterator, Tuple

from .. import Op
from .calls import WORDS, End, form_of
from .core import Busy, Closed, NodeFailed
from .node import Node
from .status import Status

_LONGEST = 4096  # bytes of a line
_PAUSE = 0.1  # seconds, before it is looked again whether there is room for a program, or a folder is free
_TURN = 5.0  # seconds, for which others are waited for who open a port in the same folder
_STATUS = {"status": Status.json, "metrics": Status.metrics, "health": Status.health}


def _words_of(why: Exception) -> str:
    """Why a call isn't answered."""
    known = {Busy: "another operation goes on", Closed: "the node ends"}
    return known.get(type(why)) or str(why) or repr(why)


class _Session(socketserver.StreamRequestHandler):
    """A program that calls the node."""

    server: "Port"

    def handle(self) -> None:
        while line := self.rfile.readline(_LONGEST + 1):
            text = line.strip(b" \t\r\n").decode("utf-8", "replace")
            if len(line) > _LONGEST:
                self._tell(form_of(text).refusal("a line is too long"))
                return
            if not line.endswith(b"\n") or self.server.is_closed:
                return  # (a last line that isn't ended may be a part of one: it is no call)
            if text:
                self._tell(self._status(text) if text in _STATUS else self._answer(text))

    def _tell(self, line: str) -> None:
        self.wfile.write(line.encode() + b"\n")

    def _status(self, word: str) -> str:
        try:
            return _STATUS[word](self.server.node.status())
        except (Closed, NodeFailed) as why:
            return WORDS.refusal(_words_of(why))

    def _answer(self, text: str) -> str:
        form, names = form_of(text), self.server.node.registers
        try:
            op = form.call(text, names)
        except ValueError as why:
            return form.refusal(str(why))
        return form.answer(op, names, self.server.end_of(op))


@contextlib.contextmanager
def _turn_in(folder: str) -> Iterator[None]:
    """Has others who open a port in this folder wait: a socket that isn't listened to yet would pass for one of a node
    that is gone."""
    turn, end = os.open(folder or ".", os.O_RDONLY), time.monotonic() + _TURN
    try:
        while True:
            try:
                fcntl.flock(turn, fcntl.LOCK_EX | fcntl.LOCK_NB)
                break
            except BlockingIOError:
                if time.monotonic() >= end:
                    raise OSError("another program has locked its folder") from None
                time.sleep(_PAUSE)
        yield
    finally:
        os.close(turn)


def _remove_stale(path: str) -> None:
    """Removes the socket of a node that is gone."""
    if os.path.exists(path) and stat.S_ISSOCK(os.stat(path).st_mode):
        with socket.socket(socket.AF_UNIX) as one, contextlib.suppress(BlockingIOError):
            one.setblocking(False)  # (one that has no room for more programs now isn't waited for)
            try:
                one.connect(path)
            except ConnectionRefusedError:
                os.unlink(path)


class Port(socketserver.ThreadingUnixStreamServer):
    """A port that is open until it is closed."""

    daemon_threads = True
    block_on_close = False
    request_queue_size = 128

    def __init__(self, node: Node, path: str):
        self.node, self._path, self._turn, self.is_closed = node, path, threading.Lock(), False
        self._goes_on = node.so_far()[1]  # an operation whose caller is gone, as where the node was resumed
        super().__init__(path, _Session, bind_and_activate=False)
        try:
            with _turn_in(os.path.dirname(path)):
                _remove_stale(path)
                self.server_bind()
                os.chmod(path, 0o600)  # nobody else calls: it listens only from here on
                self.server_activate()
        except OSError as why:
            self.server_close()
            raise OSError(f"{path}: {why.strerror or why}") from None
        threading.Thread(target=self.serve_forever, args=(0.05,), name="tellwydar port", daemon=True).start()

    def end_of(self, op: Op) -> End:
        """Makes a call when those before it have ended. Where it isn't answered it surely did nothing if the
        node counts no operation more: one that it counts is in its log, perhaps on the disk, and goes on
        where the node is resumed."""
        with self._turn:
            called = self.node.so_far()[0]
            try:
                self._end_earlier()
                return End("ok", self.node.perform(op))
            except Exception as why:  # (what nobody thought of may come behind the call too)
                is_called = type(why) is not Busy and self.node.so_far()[0] > called
                self._goes_on |= is_called
                return End("info" if is_called else "fail", error=_words_of(why))

    def _end_earlier(self) -> None:
        """Waits until the operation that goes on is answered, and drops its answer."""
        if self._goes_on:
            with contextlib.suppress(ValueError):  # (somebody else may have fetched it)
                self.node.wait()
            self._goes_on = False

    def get_request(self) -> Tuple[Any, Any]:
        try:
            return super().get_request()
        except OSError:  # there is no room for a program now
            time.sleep(_PAUSE)
            raise

    def handle_error(self, request: Any, client_address: Any) -> None:
        """A program that is gone isn't there to be told."""

    def __exit__(self, *_: object) -> None:
        self.close()

    def close(self) -> None:
        """Ends it. A call that goes on goes on, and no other one is made."""
        if not self.is_closed:
            self.is_closed = True
            self.shutdown()
            with contextlib.suppress(FileNotFoundError):
                os.unlink(self._path)  # (while it answers, nobody else takes the path)
            self.server_close()


def answers(path: str, lines: Iterable[bytes]) -> Iterator[bytes]:
    """What the node at this port answers to each of these lines, in the order in which they are sent."""
    with socket.socket(socket.AF_UNIX) as one:
        one.connect(path)
        file: BinaryIO = one.makefile("rb")
        for line in filter(None, map(bytes.strip, lines)):
            one.sendall(line + b"\n")
            told, is_last = b"", False
            while not is_last:
                part = file.readline()
                if not part.endswith(b"\n"):
                    raise OSError("the node ended")
                told += part
                is_last = line != b"metrics" or part == b"# EOF\n" or part.startswith(b"refused: ")
            yield told
