"""Tests of nodes whose disk hangs: python3 -m unittest, with TELLWYDAR_LIB set."""
import asyncio
import contextlib
import json
import os
import signal
import tempfile
import threading
import time
import unittest
from concurrent.futures import ThreadPoolExecutor
from unittest import mock

from tellwydar.net import Busy, Closed, Node, NodeFailed, Paused, TimedOut, core, judge, node, story
from tellwydar.net.aio import AsyncNode
from tellwydar.net.logfile import LogFile
from tellwydar.net.peers import FRAMES
from tellwydar.net.port import Port
from test_net import CLUSTER, entries_of, free_addresses
from test_port import told

LONG = 6  # seconds after which a disk goes on in any case, so that who waits for it is late, and not there for ever
SOON = LONG / 2


class Disk:
    """A disk that hangs from the first thing on that it is to do, until it is told to go on."""

    def __init__(self, fault=None):
        self.fault, self.hangs, self._goes_on = fault, threading.Event(), threading.Event()

    def go_on(self):
        self._goes_on.set()

    def around(self, function, is_of_interest=lambda *_: True):
        """The function, which waits for the disk where it is of interest."""

        def hanging(*given):
            if is_of_interest(*given):
                self.hangs.set()
                self._goes_on.wait(LONG)
                if self.fault:
                    raise self.fault
            return function(*given)

        return hanging


class Hanging:
    """Nodes, and what makes their disks hang."""

    def setUp(self):
        self.folder, self.nodes, self.said = tempfile.TemporaryDirectory(), [], []
        self.addCleanup(self.folder.cleanup)
        self.programs = ThreadPoolExecutor()
        self.addCleanup(self.programs.shutdown)

    def path(self, p):
        return os.path.join(self.folder.name, f"{p}.log")

    def start(self, p, front="linear", **more):
        of = {"cluster": CLUSTER, "say": self.said.append, "look": 0.02, "sync": True, **more}
        node = Node(front, ["x"], p, self.addresses, None, self.path(p), **of)
        self.addCleanup(node.close)
        self.nodes.append(node)
        return node

    def begin(self, count, *given, **more):
        self.addresses = free_addresses(count)
        return [self.start(p, *given, **more) for p in range(count)]

    def pair(self, *given, **more):
        """Two nodes, the first of which wrote 1, where nothing is on its way."""
        a, b = self.begin(2, *given, **more)
        a.write("x", 1, 5)
        self.rest()
        return a, b

    def hang(self, node, fault=None):
        """Has the disk of a node hang from here on, before anything is written."""
        disk = Disk(fault)
        self.addCleanup(disk.go_on)
        node._story.file.append = disk.around(node._story.file.append)
        return disk

    def hang_in_force(self, node):
        """Has the disk of a node hang from here on, after it was written and before that is sure."""
        disk, log = Disk(), node._story.file._file
        self.addCleanup(disk.go_on)
        patch = mock.patch("os.fdatasync", disk.around(os.fdatasync, lambda file: file == log))
        patch.start()
        self.addCleanup(patch.stop)
        return disk

    def sent(self, node):
        """What goes out of a node from here on and has frames."""
        found, send = [], node._road.send

        def sending(to, message):
            if message[33:34] == FRAMES:
                found.append(message)
            send(to, message)

        node._road.send = sending
        return found

    def clear(self):
        """Ends all nodes, and forgets them."""
        for node in self.nodes:
            node.close()
        self.nodes.clear()
        for name in os.listdir(self.folder.name):
            os.unlink(os.path.join(self.folder.name, name))

    def until(self, holds):
        """Waits until it holds, which it does soon."""
        end = time.monotonic() + SOON
        while not holds():
            self.assertLess(time.monotonic(), end)
            time.sleep(0.01)

    def rest(self):
        """Waits until nothing is on its way, and the last counts are on the disks."""
        is_at_rest = lambda: not any(it.pending() or it._story.lines or it._held_till for it in self.nodes)
        self.until(is_at_rest)
        time.sleep(0.1)
        self.until(is_at_rest)

    def merged(self):
        for node in self.nodes:
            node.close()
        return judge.judge([self.path(p) for p in range(len(self.addresses))], self.said.append).decode()

    @contextlib.contextmanager
    def soon(self):
        """What is done here doesn't wait for the disk."""
        before = time.monotonic()
        yield
        self.assertLess(time.monotonic() - before, SOON)

    def late(self, why, call, *given):
        """A call's time is up soon."""
        with self.soon(), self.assertRaises(why):
            call(*given)


class Calls(Hanging, unittest.TestCase):
    def test_a_calls_time_is_up_though_the_disk_hangs(self):
        for front in core.FRONTS:
            for sync in (True, False):
                with self.subTest(front=front, sync=sync):
                    a, _ = self.pair(front, sync=sync)
                    sent, before = self.sent(a), entries_of(self.path(0))
                    disk = self.hang_in_force(a) if sync else self.hang(a)
                    self.late(TimedOut, a.swap, "x", 2, 0.2)
                    self.assertTrue(disk.hangs.is_set())
                    with self.soon():
                        self.assertEqual((a.so_far(), a.status().running), ((2, True), True))
                        self.assertGreater(a.pending(), 0)
                    self.late(Busy, a.read, "x")
                    self.late(TimedOut, a.wait, 0.2)
                    entries = before + ["0 call swap x 2"] * sync
                    self.assertEqual((sent, entries_of(self.path(0))), ([], entries))
                    disk.go_on()
                    self.assertEqual(a.wait(5), 1)
                    self.assertEqual(a.read("x", 5), 2)
                    self.assertIn("swap x 2", self.merged())
                self.clear()

    def test_what_is_answered_at_once_waits_for_the_disk_alone(self):
        a, = self.begin(1, "local-write")
        disk = self.hang(a)
        for call in (lambda: a.write("x", 5, 0), lambda: a.wait(0)):
            self.late(TimedOut, call)
        disk.go_on()
        self.assertIsNone(a.wait(5))
        # (a moment is given to a disk that doesn't hang)
        a.write("x", 6, 0)
        self.assertEqual(a.read("x", 0), 6)

    def test_a_read_waits_for_the_entries_before_its_own(self):
        for front in core.FRONTS[1:]:
            with self.subTest(front=front):
                a, b = self.pair(front)
                sent, disk = self.sent(a), self.hang_in_force(a)
                # it needs nobody else, and what it saw is on the disk
                self.assertEqual((a.read("x", 0.2), disk.hangs.is_set()), (1, False))
                before = len(entries_of(self.path(0)))
                write = self.programs.submit(b.swap, "x", 2, 20)
                self.assertTrue(disk.hangs.wait(5))
                # what it sees came by an entry that isn't there yet
                self.late(TimedOut, a.read, "x", 0.2)
                with self.soon():
                    self.assertEqual((a.so_far()[1], a.status().peers[0].heard), (True, True))
                self.assertEqual((sent, write.done()), ([], False))
                disk.go_on()
                self.assertEqual((a.wait(5), write.result(5)), (2, 1))
                took, read = entries_of(self.path(0))[before : before + 2]
                self.assertRegex(took, "^0 take 1 ")
                self.assertRegex(read, "^0 call read x = value 2 ")
                self.merged()
            self.clear()

    def test_a_read_waits_for_counts_that_are_held(self):
        with mock.patch.object(node, "_HOLD", 2 * LONG):
            a, b = self.begin(2, "local-read")
            self.assertEqual(b.swap("x", 1, 5), 0)
            self.until(lambda: a._held_till and not a.pending() and not b.pending())
            disk = self.hang_in_force(a)
            self.late(TimedOut, a.read, "x", 0.2)
            self.assertTrue(disk.hangs.is_set())
            disk.go_on()
            self.assertEqual(a.wait(5), 1)
            self.merged()

    def test_a_read_waits_for_no_entry_behind_its_own(self):
        a, b = self.pair("local-read")
        receive, came, goes_on = a._road.receive, threading.Event(), threading.Event()

        def receiving(timeout):
            messages = receive(timeout)
            if any(it[33:34] == FRAMES for _, it in messages):
                came.set()
                goes_on.wait(LONG)  # (so that a read is called before they are taken)
            return messages

        a._road.receive = receiving
        a._road.wake()
        time.sleep(0.1)  # (it is there)
        disk = self.hang_in_force(a)
        write = self.programs.submit(b.swap, "x", 2, 20)
        self.assertTrue(came.wait(5))
        before, read = a.so_far()[0], self.programs.submit(a.read, "x")
        self.until(lambda: a.so_far()[0] == before + 1)
        goes_on.set()
        with self.soon():
            self.assertEqual(read.result(), 1)
            self.assertTrue(disk.hangs.wait(SOON))
        disk.go_on()
        self.assertEqual(write.result(5), 1)
        self.merged()

    def test_a_signal_ends_a_wait_and_loses_no_step(self):
        class Alarm(Exception):
            pass

        def ring(*_):
            raise Alarm()

        a, b = self.pair()
        disk = self.hang(a)
        self.addCleanup(signal.signal, signal.SIGALRM, signal.signal(signal.SIGALRM, ring))
        signal.setitimer(signal.ITIMER_REAL, 0.3)
        self.late(Alarm, a.write, "x", 2)
        disk.go_on()
        self.assertIsNone(a.wait(5))
        self.assertEqual(b.read("x", 5), 2)
        self.merged()

    def test_a_disk_that_is_full_at_last_stops_the_node_before_anything_goes_out(self):
        a, _ = self.pair()
        sent, disk = self.sent(a), self.hang(a, fault=OSError(28, "No space left on device"))
        self.late(TimedOut, a.write, "x", 2, 0.2)
        disk.go_on()
        why = r"^the log can't be written: \[Errno 28\] No space left on device$"
        with self.assertRaisesRegex(NodeFailed, why):
            a.wait(5)
        with self.assertRaisesRegex(NodeFailed, why):
            a.read("x", 5)
        self.assertEqual((sent, a.so_far()), ([], (2, True)))
        self.assertNotIn("write x 2", self.merged())

    def test_the_end_of_a_node_waits_for_the_disk_and_no_caller_does(self):
        a, b = self.pair()
        disk = self.hang(a)
        call = self.programs.submit(a.write, "x", 2)
        self.assertTrue(disk.hangs.wait(5))
        end = self.programs.submit(a.close)
        with self.soon():
            self.assertIsInstance(call.exception(), Closed)
        self.late(Closed, a.read, "x")
        time.sleep(0.2)
        self.assertFalse(end.done())
        disk.go_on()
        end.result(5)
        self.assertEqual(entries_of(self.path(0))[-1], "0 call write x 2")
        a = self.start(0, resume=True)
        self.assertEqual(a.so_far(), (2, True))
        self.assertIsNone(a.wait(5))
        self.assertEqual(b.read("x", 5), 2)
        self.merged()

    def behind(self):
        """A node whose disk hangs, with the entry of a call behind another one; how many are before both; what goes out
        of it; and the disk."""
        a, b = self.pair("local-write")
        before, sent, disk = len(entries_of(self.path(0))), self.sent(a), self.hang(a)
        b.write("x", 2, 5)
        self.assertTrue(disk.hangs.wait(5))
        self.late(TimedOut, a.write, "x", 3, 0.2)
        return a, before, sent, disk

    def test_an_entry_is_not_on_the_disk_since_the_one_before_it_is(self):
        a, before, sent, first = self.behind()
        second = self.hang(a)
        first.go_on()
        self.assertTrue(second.hangs.wait(5))
        took, = entries_of(self.path(0))[before:]
        self.assertRegex(took, "^0 take 1 ")
        self.late(TimedOut, a.wait, 0.2)
        cast = b"\2\0\0" + (3).to_bytes(8, "big")  # (of a write of x)
        self.assertEqual((len(sent), cast in b"".join(sent)), (1, False))
        second.go_on()
        self.assertIsNone(a.wait(5))
        self.rest()
        self.assertIn(cast, b"".join(sent))
        self.merged()

    def test_an_entry_behind_another_one_is_in_the_log_of_a_node_that_ends(self):
        a, before, _, disk = self.behind()
        end = self.programs.submit(a.close)
        self.until(lambda: a._closed)
        disk.go_on()
        end.result(5)
        took, *others = entries_of(self.path(0))[before:]
        self.assertRegex(took, "^0 take 1 ")
        self.assertEqual([it.partition(" = ")[0] for it in others if " call " in it], ["0 call write x 3"])

    def test_nothing_goes_out_of_a_node_that_has_stopped_while_the_disk_hung(self):
        a, b = self.pair("local-write")
        sent, disk = self.sent(a), self.hang(a)
        b.write("x", 2, 5)
        self.assertTrue(disk.hangs.wait(5))
        with mock.patch.object(a._road, "wake", side_effect=KeyboardInterrupt):
            self.late(KeyboardInterrupt, a.write, "x", 3)
        self.late(NodeFailed, a.read, "x")
        disk.go_on()
        a._thread.join(5)
        self.assertEqual((a._thread.is_alive(), sent), (False, []))

    def test_calls_are_paused_while_a_chapter_turns_and_the_disk_hangs(self):
        in_log = lambda disk, *given: mock.patch.object(LogFile, "append", disk.around(LogFile.append, *given))
        places = {
            "that nothing more is called": lambda disk: mock.patch.object(story, "keep", disk.around(story.keep)),
            "the last log": lambda disk: in_log(disk, lambda _, data, force: force and not data),
            "the next log": lambda disk: mock.patch.object(LogFile, "begin", disk.around(LogFile.begin)),
            "what it begins with": lambda disk: in_log(disk, lambda _, data, force: b" write x 3" in data),
        }
        for place, patched in places.items():
            with self.subTest(place):
                (a,), disk = self.begin(1, chapter_operations=3), Disk()
                a.write("x", 1, 5), a.write("x", 2, 5)
                with patched(disk):
                    self.assertEqual(a.swap("x", 3, 5), 2)
                    self.assertTrue(disk.hangs.wait(5))
                    self.late(Paused, a.write, "x", 4, 0.2)
                    with self.soon():
                        self.assertEqual((a.so_far(), a.status().operations), ((3, False), 3))
                    disk.go_on()
                    self.assertEqual(a.swap("x", 5, 5), 3)
            self.clear()

    def test_programs_at_a_port_are_told_how_the_node_is(self):
        a, = self.begin(1)
        path = os.path.join(self.folder.name, "0.socket")
        with Port(a, path):
            disk = self.hang(a)
            call = self.programs.submit(told, path, "write x 2")
            self.assertTrue(disk.hangs.wait(5))
            with self.soon():
                health, status = told(path, "health", "status")
            self.assertEqual((health, json.loads(status)["running"]), ("ok", True))
            disk.go_on()
            self.assertEqual(call.result(5), ["done"])


class Tasks(Hanging, unittest.IsolatedAsyncioTestCase):
    async def test_the_time_of_a_call_is_up_though_the_disk_hangs(self):
        a, = self.begin(1)
        tasks = AsyncNode(a)
        await tasks.write("x", 1, 5)
        disk = self.hang(a)
        with self.soon():
            with self.assertRaises(TimedOut):
                await tasks.write("x", 2, 0.2)
            waiting = asyncio.ensure_future(tasks.wait())
            await asyncio.sleep(0)
            # (behind it)
            with self.assertRaises(Paused):
                await tasks.swap("x", 3, 0.2)
        disk.go_on()
        self.assertIsNone(await waiting)
        self.assertEqual(await tasks.read("x", 5), 2)
        self.assertEqual(a.so_far(), (3, False))


if __name__ == "__main__":
    unittest.main()
