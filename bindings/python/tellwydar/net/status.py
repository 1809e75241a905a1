"""How a node is, for people and programs that watch over it."""
import json
from typing import Dict, List, NamedTuple, Optional, Tuple

from .core import name_of
from .story import Story


class Peer(NamedTuple):
    """What a node knows of another one."""

    process: int
    heard: bool  # in this run of its program and in this chapter
    silent: Optional[float]  # for how many seconds; None where nothing came in this chapter
    unacknowledged: int  # bodies that it hasn't acknowledged
    is_missing: bool  # something waits for it, and it is silent for long


class Status(NamedTuple):
    """How far a node has come, and what it knows of the others."""

    process: int
    front: str
    chapter: int
    operations: int  # that its callers called, in earlier runs and chapters too
    entries: int  # of this chapter's log, those too that are on their way to the disk
    running: bool  # whether an operation goes on
    peers: List[Peer]

    def json(self) -> str:
        """It as an object of JSON."""
        peers = [{key: value for key, value in it._asdict().items() if key != "is_missing"} for it in self.peers]
        return json.dumps({**self._asdict(), "peers": peers})

    def health(self) -> str:
        """`ok`, or for which processes the node waits."""
        missing = [str(it.process) for it in self.peers if it.is_missing or not it.heard]
        return f"waits for {', '.join(missing)}" if missing else "ok"

    def metrics(self) -> str:
        """It in the text form of Prometheus (https://prometheus.io/docs/instrumenting/exposition_formats)."""
        whole = (("operations_total", "counter", self.operations), ("chapter", "gauge", self.chapter),
                 ("entries", "gauge", self.entries), ("running", "gauge", int(self.running)))
        lines = []
        for name, kind, value in whole:
            lines += [f"# TYPE tellwydar_{name} {kind}", f"tellwydar_{name} {value}"]
        of_peers: Tuple[Tuple[str, List[object]], ...] = (
            ("heard", [int(it.heard) for it in self.peers]),
            ("silent_seconds", ["NaN" if it.silent is None else f"{it.silent:.3f}" for it in self.peers]),
            ("unacknowledged", [it.unacknowledged for it in self.peers]),
        )
        for name, values in of_peers:
            lines.append(f"# TYPE tellwydar_{name} gauge")
            lines += [f'tellwydar_{name}{{process="{it.process}"}} {value}' for it, value in zip(self.peers, values)]
        return "\n".join([*lines, "# EOF"])


def status_of(story: Story, came_at: Dict[int, Optional[float]], now: float) -> Status:
    """The status at this time, by time.monotonic(), as are the times at which something came last."""
    node, head, peers = story.node, story.head, []
    for process, at in came_at.items():
        known = node.known(process)
        silent = None if at is None else round(now - at, 3)
        waiting = known.next - known.first
        peers.append(Peer(process, node.has_heard(process), silent, waiting, node.is_long_silent(process)))
    front = name_of(head.front)
    return Status(head.process, front, head.chapter, story.called(), node.logged, story.running, peers)
