"""What the modules of a node share: exceptions, names of front ends, answers as texts, and where odd lines go."""
import contextlib
import select
import sys

from .. import UNEQUAL, Answer, Front

FRONTS = ("linear", "local-read", "local-write")
# (after these a node has stopped for good)
STOPS = ("failed", "out of memory", "clock full", "stopped", "unspelled", "log lost", "log full")


class Busy(Exception):
    """Another operation goes on, or its answer wasn't fetched by `wait`. This one was not made."""


class TimedOut(Exception):
    """No answer yet. The operation goes on; `wait` gives its answer."""


class Paused(Exception):
    """Nothing was called in time: a chapter ended meanwhile, not all other nodes were heard, or they were too far
    behind with what this node cast. With `asyncio` also: a call before it went on."""


class Closed(Exception):
    """The node was closed."""


class NodeFailed(Exception):
    """The node stopped: its process stopped for good, its log was lost, or can't be written."""


def front_of(name: str) -> Front:
    """The front end of this name."""
    if name not in FRONTS:
        raise ValueError(f"{name!r} is no front end: {', '.join(FRONTS)}")
    return Front(FRONTS.index(name))


def name_of(front: int) -> str:
    """The name of the front end of this number."""
    return FRONTS[front] if front < len(FRONTS) else "unknown"


def answer_text(answer: Answer) -> str:
    """The answer as a report has it."""
    return "done" if answer is None else "unequal" if answer is UNEQUAL else f"value {answer}"


def _is_full() -> bool:
    """Whether a line on the error stream would wait for somebody to read what stands there."""
    try:
        poll = select.poll()
        poll.register(sys.stderr, select.POLLOUT)
    except (ValueError, TypeError, OSError):  # it is no file
        return False
    return not poll.poll(0)


def say(text: str) -> None:
    """Says a line on the error stream, if anybody reads that: where it is full nothing waits for it."""
    if sys.stderr is not None and not _is_full():  # (else `print` takes the stream of the answers)
        with contextlib.suppress(OSError):
            print(text, file=sys.stderr, flush=True)
