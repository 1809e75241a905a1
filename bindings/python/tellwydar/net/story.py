"""Where one node is: its proved node, the file of its log, and the chapters before. All that a chapter is, is in its
log, so a node that was killed goes on. It needs the logs of its last two chapters, and no others."""
import errno
import functools
import os
import re
import secrets
from typing import Any, Callable, Iterator, List, Tuple, TypeVar, cast

from .. import LogHead, Node, Op, Output, Read
from .core import NodeFailed
from .logfile import LogFault, LogFile, differs, head_of, keep, open_log, say_cut
from .room import Room


_Act = TypeVar("_Act", bound=Callable[..., Any])


def _on_disk(act: _Act) -> _Act:
    """What has to do with the disk, whose fault is that of the node, but where no file can be opened since there are
    too many: strangers who connect have some, and lose them soon. Then it can be done again."""

    @functools.wraps(act)
    def acting(*given: Any) -> Any:
        try:
            return act(*given)
        except OSError as why:
            if why.errno in (errno.EMFILE, errno.ENFILE):
                raise
            raise NodeFailed(f"the log can't be written: {why}") from None

    return cast(_Act, acting)


def _is_there(path: str) -> NodeFailed:
    return NodeFailed(f"{path} is there already: resume it, or take a new one for a new cluster")


class Story:
    """The chapters of a node up to the one that goes on.

    Threads share it under a lock of its owner. What has to do with the disk, `write`, `say_quiet` and `begin_next`, is
    for one thread alone, which holds no lock meanwhile: so nobody waits for the disk who doesn't want to."""

    def __init__(self, head: LogHead, path: str, room: Room, resume: bool, say: Callable[[str], None]):
        self._path, self._room, self._say = path, room, say
        self._called_before, self._ended_with = 0, []  # type: int, List[int]
        self.last_head, self.last_state = head, b""
        chapter = self._last_chapter()
        if chapter > 0 and not resume:
            raise _is_there(self.log_of(chapter))
        if chapter > 0:
            self._end_again(head._replace(chapter=chapter - 1))
        head = head._replace(chapter=chapter)
        text = self._open(head, not resume)
        try:
            self._go_on(head, text, False)
            if resume and os.path.exists(self._quiet_of(chapter)):
                self.node.end()
            self.file.cut(self.node.whole)
        except BaseException:
            self.file.close()
            raise
        say_cut(self.log_of(chapter), text, self.node, say)

    def log_of(self, chapter: int) -> str:
        """The path of a chapter's log."""
        return self._path if chapter == 0 else f"{self._path}.{chapter}"

    def _quiet_of(self, chapter: int) -> str:
        """The file that says that nothing more is called in a chapter, and how many operations were called up to its
        end."""
        return self.log_of(chapter) + ".quiet"

    def _last_chapter(self) -> int:
        """The last chapter that has a log. Those before the last two may have been put aside."""
        folder, name = os.path.split(os.path.abspath(self._path))
        ends = (it[len(name) + 1 :] for it in os.listdir(folder) if it.startswith(name + "."))
        return max((int(it) for it in ends if re.fullmatch("[1-9][0-9]{0,18}", it)), default=0)

    def _end_again(self, head: LogHead) -> None:
        """Ends the chapter before the one that goes on, as it was ended before the node was killed."""
        with open(self.log_of(head.chapter), "rb") as file:
            self._go_on(head, file.read(), True)
        self._end()
        self.node.close()
        path = self._quiet_of(head.chapter)
        with open(path, "rb") as file:
            count = re.fullmatch(rb"([0-9]{1,20})\n", file.read())
        if count is None:
            raise LogFault(f"{path}: no number of calls")
        self._called_before = int(count[1])

    def _open(self, head: LogHead, is_new: bool) -> bytes:
        """Has the file of a chapter's log, a new one or one that is there, and gives its text. One without a whole head
        never began, and is begun."""
        path = self.log_of(head.chapter)
        try:
            file = LogFile(path, is_new)
        except FileExistsError:
            raise _is_there(path) from None
        try:
            text = file.read()
            if Node.is_headless(text, cluster=head.cluster, process=head.process, chapter=head.chapter):
                text = Node.begin(**head._replace(begun=secrets.randbits(64))._asdict())
                file.begin(text)
        except BaseException as why:
            if is_new:
                os.unlink(path)
            file.close()
            if isinstance(why, OSError):
                raise OSError(why.errno, why.strerror, path) from None
            raise
        self.file = file
        return text

    def _go_on(self, head: LogHead, text: bytes, is_over: bool) -> None:
        """Goes on with the chapter of this log. In `head` all is known but what was drawn for the log."""
        path = self.log_of(head.chapter)
        node = open_log(path, text, is_over)
        self.head = head_of(path, text)
        if both := differs(self.head, head):
            node.close()
            raise LogFault(f"{path} is of {both[0]}, and this node of {both[1]}")
        node.follow(self._ended_with, **self._room._asdict())
        self.node, self.running, self.own_calls = node, node.busy, node.own_calls
        self.lines: List[bytes] = []
        self._queued, self._is_said_quiet = self._bodies(), False  # bodies that went out
        self.is_owed = False  # an entry isn't on the disk, or on its way there, before which nothing else goes out

    # --- steps

    def step(self, make: Callable[..., bytes], *given: object) -> None:
        """Makes a step of the node, whose entry is to be written."""
        self.lines.append(make(*given))
        self.is_owed = True

    def call(self, op: Op) -> None:
        was_owed = self.is_owed
        self.step(self.node.call, op)
        if isinstance(op, Read) and not self.node.busy:
            self.is_owed = was_owed  # it is answered and puts no frame, so nobody can miss its entry
        self.running, self.own_calls = True, self.node.own_calls

    def called(self) -> int:
        """How many operations its callers called, in earlier runs too."""
        return self._called_before + self.own_calls

    def _bodies(self) -> int:
        """How many bodies the node queued for each other one: as many for all."""
        return self.node.known(0 if self.head.process else 1).next

    def is_urgent(self) -> bool:
        """Whether more waits to go out than counts: a body, or a reply."""
        before, self._queued = self._queued, self._bodies()
        return self._queued > before or self.running and not self.node.busy

    def made(self, force: bool) -> Tuple[bytes, bool, int]:
        """The entries that were made and are to be written now; whether they are to be on the disk then, as with
        `force` all are but for a read that is answered at once, if nothing before it waits for that; and how many
        entries the log has with them."""
        lines, self.lines = self.lines, []
        force &= self.is_owed
        self.is_owed &= not force
        return b"".join(lines), force, self.node.logged

    @_on_disk
    def write(self, lines: bytes, force: bool) -> None:
        """Writes entries down, and with `force` has the log on the disk."""
        self.file.append(lines, force)

    def outputs(self, logged: int) -> Iterator[Output]:
        """What goes out now that so many entries are durable."""
        self.node.mark_durable(logged)
        while (output := self.node.hand_out()) is not None:
            self.running &= output.reply is None
            yield output

    # --- chapters

    def is_opening(self) -> bool:
        """Whether the values that the last chapter ended with aren't all written here: then nothing else is called."""
        return self.node.is_opening(self.running)

    def tell_state(self) -> bytes:
        """The bytes that tell the others how far this node has come in its chapter."""
        return self.node.tell_state(self.node.is_quiet(self.running))

    @_on_disk
    def say_quiet(self, called: int) -> None:
        """Before it is told that this node calls nothing more in this chapter, that is kept for when it is resumed, and
        how many operations were called."""
        if not self._is_said_quiet:
            keep(self._quiet_of(self.head.chapter), b"%d\n" % called)
            self._is_said_quiet = True

    def _end(self) -> None:
        """The chapter is over: what the next one begins with, and what is told to those who don't know it yet."""
        self._called_before = self.called()
        self.last_head, self.last_state = self.head, self.node.tell_state(True)
        self._ended_with = [self.node.register(r) for r in range(len(self.head.names))]

    @_on_disk
    def begin_next(self) -> Tuple[LogHead, bytes]:
        """The chapter is over, and the log of the next one begins."""
        last = self.file
        self.write(b"", True)  # before there is a log behind it, this one is on the disk
        head = self.head._replace(chapter=self.head.chapter + 1)
        text = self._open(head, True)
        last.close()
        return head, text

    def turn(self, head: LogHead, text: bytes) -> None:
        """Goes on in the next chapter, with its log that has begun."""
        last = self.node
        self._end()
        self._go_on(head, text, False)
        last.close()
        self._say(f"chapter {head.chapter} begins, in {self.log_of(head.chapter)}")

    def close(self) -> None:
        self.file.close()
        self.node.close()
