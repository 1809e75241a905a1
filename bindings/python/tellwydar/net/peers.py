"""The other processes in one chapter: who it is that a message is from, as the library tells it, and what is said of
those that aren't of this cluster (docs/FORMATS.md); what was seen of them, and what they are told beside frames."""
from typing import Dict, Optional

from .. import LogHead, Refused
from ..messages import Greeting, Meeting, Meets, Met, start_of
from .core import NodeFailed, name_of
from .datagrams import AnyRoad
from .road import Complaints
from .story import Story

FRAMES, STATE, GREETING = b"\0", b"\1", b"\2"  # what a message brings


class Post:
    """How one's own messages begin in a chapter, and who was heard in it."""

    def __init__(self, head: LogHead, complain: Complaints):
        self._head, self._complain = head, complain
        self.starts = {p: start_of(**head._asdict(), to=p) for p in range(head.processes) if p != head.process}
        self._meeting = Meeting(start_of(**head._asdict(), to=head.process), head.processes)

    def met(self, key: Optional[int], message: bytes) -> Optional[Meets]:
        """Who it is that a message is from, or None where it is dropped. `key` says by whose key it came, if there are
        keys."""
        it = self._meeting.meet(key, message)
        if it.met in (Met.PEER, Met.LATE):
            return it
        if it.met is not Met.ELSEWHERE:
            who = "somebody" if key is None else f"process {key}"
            self._complain(it.met.name, f"{who}: {self._said_of(it)}; dropped")
        return None

    def _said_of(self, it: Meets) -> str:
        """What is said of a message that is dropped."""
        head, only = self._head, "only the one that was heard first is in this cluster"
        return {
            Met.OTHER_FRONT: f"has the front end {name_of(it.front)}, not {name_of(head.front)}",
            Met.OTHER_PROCESSES: f"is of {it.processes} processes, not of {head.processes}",
            Met.OTHER_REGISTERS: f"has {it.registers} registers, or other names for them",
            Met.OTHER_CLUSTER: f"is of cluster {it.cluster}, not of {head.cluster}",
            Met.OTHER_RECEIVER: f"a message for process {it.receiver}",
            Met.OTHER_SENDER: f"says that it is process {it.sender}",
            Met.BEGUN_ANEW: f"process {it.sender} was begun anew, without its log; {only}",
        }.get(it.met, "no message of a node")


class Peers:
    """All but the own process, none of which was heard yet. They are greeted."""

    def __init__(self, story: Story, road: AnyRoad, complain: Complaints):
        self._story, self._road, self._complain = story, road, complain
        self.post = Post(story.head, complain)
        self.came_at: Dict[int, Optional[float]] = dict.fromkeys(self.post.starts)  # by time.monotonic()
        for p in self.came_at:
            self._greet(p)

    def came(self, sender: int, now: float) -> bool:
        """What came from another node was taken. Tells whether there is to be a tick at once."""
        self.came_at[sender] = now
        return self._story.node.came(sender)

    def _greet(self, to: int) -> None:
        node = self._story.node
        greeting = Greeting(not node.has_heard(to) or node.is_long_silent(to), node.accepted(to))
        self._road.send(to, self.post.starts[to] + GREETING + greeting.data())

    def greeted(self, sender: int, told: bytes) -> None:
        """Another node says how many bodies it accepted from this one, which is to have them in its log."""
        greeting = Greeting.of(told)
        if greeting is None:
            self._complain(f"greeting {sender}", f"process {sender}: no greeting of a node")
            return
        try:
            self._story.node.hear(sender, greeting.accepted)
        except Refused:
            had = self._story.node.known(sender).next
            why = f"process {sender} accepted {greeting.accepted} bodies, and it has {had}"
            raise NodeFailed(f"the log was lost: {why}") from None
        if greeting.wants_one:
            self._greet(sender)

    def heard_state(self, sender: int, told: bytes) -> None:
        """Another node says how far it has come in a chapter that ends."""
        try:
            self._story.node.hear_state(sender, told)
            self._story.node.end()  # somebody has little room left
        except Refused:
            self._complain(f"state {sender}", f"process {sender}: no state of a node")

    def look(self) -> bool:
        """What the pacer does for a cluster: whether there is to be a tick, since a link goes without an answer, with
        growing pauses. So are those greeted that weren't heard, or not for long."""
        tick = False
        for p in self.came_at:
            look = self._story.node.watch(p)
            tick |= look.ticks
            if look.greets:
                self._greet(p)
        return tick

    def tell_own(self) -> None:
        """Tells all how far this node has come."""
        state = self._story.tell_state()
        for to, start in self.post.starts.items():
            self._road.send(to, start + STATE + state)

    def tell_last(self, to: int) -> None:
        """Tells one that is still in the last chapter how far this node came there."""
        self._road.send(to, start_of(**self._story.last_head._asdict(), to=to) + STATE + self._story.last_state)
