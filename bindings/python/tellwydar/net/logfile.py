"""The file of a log, and whose log it is.

A log is the text of docs/FORMATS.md, "Log". The library begins it, spells each entry and reads it again
(`tellwydar.Node`): nothing in this package spells or reads a step.
"""
import fcntl
import os
from typing import Callable, Optional, Tuple

from .. import LogHead, Node, Refused
from .core import name_of

HEAD_LINES = 9  # an entry stands on a line behind them
_WHY = {
    "damaged": "changed, or a line before it is missing", "no step": "no step of its process",
    "not a log": "no line of a log",
}


class LogFault(Exception):
    """Why a file is no log that can be used."""


def head_of(path: str, text: bytes) -> LogHead:
    """What the head of this log says."""
    head = Node.head(text)
    if head is None:
        raise LogFault(f"{path}: no head of a log")
    return head


def differs(found: LogHead, wanted: LogHead) -> Optional[Tuple[str, str]]:
    """The first of what two heads say that differs, but for what was drawn, in the words of their lines."""
    one, other = [(f"cluster {it.cluster}", f"process {it.process}", f"chapter {it.chapter}",
                   f"front {name_of(it.front)}", f"processes {it.processes}", f"registers {' '.join(it.names)}")
                  for it in (found, wanted)]
    return next((both for both in zip(one, other) if both[0] != both[1]), None)


def open_log(path: str, text: bytes, is_over: bool) -> Node:
    """The node that goes on after this log. Of one that is over no whole line may be lost; else what stands behind the
    first entry that isn't whole was left by a crash."""
    lines = text.rstrip(b"\0").count(b"\n")
    try:
        return Node.open(text, max(0, lines - HEAD_LINES) if is_over else 0, guarded=True)
    except Refused as why:
        place, _, what = str(why).partition(": ")
        if place.startswith("entry "):
            place = f"line {int(place[6:]) + HEAD_LINES + 1}"
        raise LogFault(f"{path}: {place}: {_WHY.get(what, what)}" if what else f"{path}: {why}") from None


def say_cut(path: str, text: bytes, node: Node, say: Callable[[str], None]) -> None:
    """Says what of a text isn't the log that a node goes on after, but for zeros, which are room that was made."""
    cut = len(text.rstrip(b"\0")) - node.whole
    if cut > 0:
        say(f"{path}: the last {cut} bytes are no whole entries; dropped")


def _sync_folder(path: str) -> None:
    """Has the name of this file on the disk."""
    folder = os.open(os.path.dirname(os.path.abspath(path)), os.O_RDONLY)
    try:
        os.fsync(folder)
    finally:
        os.close(folder)


def keep(path: str, data: bytes) -> None:
    """Has a file with these bytes alone, on the disk with its name."""
    with open(path, "wb") as file:
        file.write(data)
        file.flush()
        os.fsync(file.fileno())
    _sync_folder(path)


class LogFile:
    """The file of a log, in the hands of one program: a new one, or one that is there."""

    def __init__(self, path: str, is_new: bool):
        flags = os.O_RDWR | os.O_APPEND | os.O_CLOEXEC | (os.O_CREAT | os.O_EXCL if is_new else 0)
        self._file = os.open(path, flags, 0o600)
        self._path = path
        try:
            fcntl.flock(self._file, fcntl.LOCK_EX | fcntl.LOCK_NB)
        except BaseException as why:
            self.close()
            if isinstance(why, BlockingIOError):
                raise OSError(f"{path} is the log of a node that runs") from None
            raise

    def read(self) -> bytes:
        with open(self._file, "rb", closefd=False) as file:
            return file.read()

    def begin(self, text: bytes) -> None:
        """Has this text in place of all that was there, on the disk with its name."""
        self.cut(0)
        self.append(text, True)

    def cut(self, length: int) -> None:
        """Has the first bytes alone, on the disk with its name."""
        os.ftruncate(self._file, length)
        os.fsync(self._file)
        _sync_folder(self._path)

    def append(self, data: bytes, sync: bool) -> None:
        """Hands all of it to the system, and with `sync` to the disk."""
        while data:
            data = data[os.write(self._file, data) :]
        if sync:
            os.fdatasync(self._file)

    def close(self) -> None:
        if self._file >= 0:
            file, self._file = self._file, -1
            os.close(file)
