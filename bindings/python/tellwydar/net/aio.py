"""A node for programs with `asyncio`."""
import asyncio
import contextlib
import threading
import time
from typing import Any, Callable, Optional, Union

from .. import Answer
from .core import Paused
from .node import Node


def _settle(work: "asyncio.Future[Any]", value: Any, why: Optional[BaseException]) -> None:
    if why is not None:
        work.set_exception(why)
    else:
        work.set_result(value)


def _run(work: "asyncio.Future[Any]", function: Callable[..., Any], *given: object) -> None:
    """Has the future of a loop what a function gives or raises."""
    value, fault = None, None  # type: Any, Optional[BaseException]
    try:
        value = function(*given)
    except BaseException as why:
        fault = why
    with contextlib.suppress(RuntimeError):  # (the loop is closed: nobody waits any more)
        work.get_loop().call_soon_threadsafe(_settle, work, value, fault)


class AsyncNode:
    """Calls of a node that wait in threads, in the order in which they were made.

        node = AsyncNode(Node(..))
        await node.write("x", 5)

    Where a task is cancelled that waits for an answer, its operation goes on, and the calls behind it wait until it is
    answered. One whose time is up by then is told `Paused`, and wasn't made. What `Node` raises is raised here. The
    node itself stays its owner's, who closes it. Nothing waits at the end of a loop for a call that still goes on.
    """

    def __init__(self, node: Node):
        self.node, self._turn = node, asyncio.Lock()

    async def _call(self, timeout: Optional[float], function: Callable[..., Any], *given: object) -> Any:
        end = None if timeout is None else time.monotonic() + timeout
        try:
            async with asyncio.timeout(timeout):
                await self._turn.acquire()
        except TimeoutError:
            raise Paused() from None
        left = None if end is None else max(0.0, end - time.monotonic())
        work = asyncio.get_running_loop().create_future()
        work.add_done_callback(self._ended)
        try:
            threading.Thread(target=_run, args=(work, function, *given, left), daemon=True).start()
        except BaseException:
            work.cancel()
            raise
        return await asyncio.shield(work)

    def _ended(self, work: "asyncio.Future[Any]") -> None:
        self._turn.release()
        if not work.cancelled():
            work.exception()  # (where nobody waits any more, nobody is told)

    async def read(self, register: Union[str, int], timeout: Optional[float] = None) -> int:
        value: int = await self._call(timeout, self.node.read, register)
        return value

    async def write(self, register: Union[str, int], value: int, timeout: Optional[float] = None) -> None:
        await self._call(timeout, self.node.write, register, value)

    async def swap(self, register: Union[str, int], value: int, timeout: Optional[float] = None) -> int:
        old: int = await self._call(timeout, self.node.swap, register, value)
        return old

    async def compare_and_swap(
        self, register: Union[str, int], expected: int, value: int, timeout: Optional[float] = None
    ) -> bool:
        """Writes the value where the expected one is there, and tells whether it was."""
        was: bool = await self._call(timeout, self.node.compare_and_swap, register, expected, value)
        return was

    async def wait(self, timeout: Optional[float] = None) -> Answer:
        """The answer of the operation whose caller's time was up."""
        answer: Answer = await self._call(timeout, self.node.wait)
        return answer
