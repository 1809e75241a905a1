"""Tests of what goes wrong around nodes: python3 -m unittest, with TELLWYDAR_LIB set."""
import asyncio
import contextlib
import ctypes
import io
import os
import signal
import subprocess
import socket
import sys
import tempfile
import time
import unittest
from unittest import mock

from tellwydar import CompareAndSwap, Front, Read, Swap, Write
from tellwydar import Node as CoreNode
from tellwydar.net import Busy, Closed, Keys, Node, NodeFailed, Refused, TimedOut, road, story
from tellwydar.net.aio import AsyncNode
from tellwydar.net.calls import End
from tellwydar.net.core import say
from tellwydar.net.datagrams import DatagramRoad
from tellwydar.net.logfile import LogFile
from tellwydar.net.port import Port
from tellwydar.net.road import RoadFault
from test_disk import Disk, Hanging
from test_net import CLUSTER, entries_of, free_addresses


class Alarm(Exception):
    """What a handler of a signal raises."""


def ring(*_):
    raise Alarm()


class Calls(Hanging, unittest.TestCase):
    """What a caller does leaves its node up."""

    def hear_alarms(self):
        self.addCleanup(signal.signal, signal.SIGALRM, signal.signal(signal.SIGALRM, ring))

    def test_a_loop_ends_though_a_call_goes_on(self):
        a, b = self.pair()
        b.close()

        async def call():
            with self.assertRaises(TimeoutError):
                async with asyncio.timeout(0.3):
                    await AsyncNode(a).write("x", 2)

        began = time.monotonic()
        asyncio.run(call())
        self.assertLess(time.monotonic() - began, 5)
        self.assertTrue(a.so_far()[1])

    def test_what_is_no_operation_is_refused_and_nothing_has_changed(self):
        a, = self.begin(1)
        for op in (Read("x"), Read(True), Read(-1), Read(2**16), Write("x", 1), Swap(None, 1),
                   CompareAndSwap(0.0, 1, 2), "read x", None, 5):
            with self.subTest(op), self.assertRaises((Refused, TypeError)):
                a.perform(op, 5)
        a.write("x", 5, 5)
        a.close()
        self.assertEqual(entries_of(self.path(0)), ["0 call write x 5 = done 0"])

    def test_a_time_may_have_no_end(self):
        a, = self.begin(1)
        for time_ in (1e10, float("inf")):
            a.write("x", 5, time_)
        self.assertEqual(a.so_far(), (2, False))

    def test_a_disk_that_is_full_where_a_chapter_ends_is_told(self):
        full = OSError(28, "No space left on device")
        for patched in (mock.patch.object(story, "keep", side_effect=full),
                        mock.patch.object(LogFile, "begin", side_effect=full)):
            a, = self.begin(1, chapter_operations=3)
            with patched:
                for value in range(1, 4):
                    a.write("x", value, 5)
                with self.assertRaisesRegex(NodeFailed, "^the log can't be written: .*No space left on device"):
                    a.write("x", 4, 5)
            self.clear()

    def test_a_call_that_is_held_back_goes_on_whatever_others_ask_for(self):
        a, = self.begin(1)
        with mock.patch.object(CoreNode, "is_far_ahead", new_callable=mock.PropertyMock,
                               return_value=True) as is_far_ahead:
            call = self.programs.submit(a.write, "x", 1, 20)
            self.until(lambda: a._is_held_back)
            with self.assertRaises(Refused):
                a.read(5, 1)
            is_far_ahead.return_value = False
            a._road.wake()  # (as where something comes)
            with self.soon():
                self.assertIsNone(call.result())

    def test_a_new_log_is_none_beside_those_of_later_chapters(self):
        a, = self.begin(1, chapter_operations=3)
        for value in range(1, 5):
            a.write("x", value, 5)
        a.close()
        os.unlink(self.path(0))
        why = r"0\.log\.1 is there already: resume it, or take a new one for a new cluster$"
        with self.assertRaisesRegex(NodeFailed, why):
            self.start(0)
        self.assertFalse(os.path.exists(self.path(0)))

    def test_what_is_left_beside_a_new_log_ends_no_chapter(self):
        with open(self.path(0) + ".quiet", "w") as file:
            file.write("3\n")
        a, = self.begin(1)
        a.write("x", 5, 5)
        self.assertEqual((a.status().chapter, a.so_far()), (0, (1, False)))

    def test_nobody_waits_for_what_a_chapter_begins_with(self):
        (a,), disk = self.begin(1, chapter_operations=3), Disk()
        append = disk.around(LogFile.append, lambda _, data, force: b" write x 3" in data)
        for value in (1, 2):
            a.write("x", value, 5)
        with mock.patch.object(LogFile, "append", append):
            self.assertEqual(a.swap("x", 3, 5), 2)
            self.assertTrue(disk.hangs.wait(5))
            self.late(ValueError, a.wait, 0.2)
            disk.go_on()
            self.assertEqual(a.swap("x", 5, 5), 3)

    def test_what_two_signals_raise_takes_no_lock_from_another_thread(self):
        self.hear_alarms()
        a, = self.begin(1)
        disk = self.hang(a)

        def hold():
            self.until(lambda: a.so_far()[1])
            time.sleep(0.1)  # (its caller waits)
            with a._lock:
                for _ in range(2):
                    os.kill(os.getpid(), signal.SIGALRM)
                    time.sleep(0.2)

        holder = self.programs.submit(hold)
        self.late(Alarm, a.write, "x", 2)
        self.assertIsNone(holder.result(5))
        disk.go_on()
        self.assertIsNone(a.wait(5))

    def test_a_handler_of_a_signal_may_end_the_node_in_the_midst_of_a_call(self):
        a, = self.begin(1)
        ended = []

        def end(*_):
            a.close()
            ended.append(a._is_in_call())

        self.addCleanup(signal.signal, signal.SIGALRM, signal.signal(signal.SIGALRM, end))
        call = a._story.call

        def calling(op):
            call(op)
            os.kill(os.getpid(), signal.SIGALRM)

        with mock.patch.object(a._story, "call", calling), self.assertRaises(Closed):
            a.write("x", 5, 5)
        self.assertEqual(ended, [True])
        a.join()
        self.assertEqual(entries_of(self.path(0)), ["0 call write x 5 = done 0"])

    def test_a_step_whose_bytes_are_lost_stops_the_node(self):
        self.hear_alarms()
        log = CoreNode.begin(cluster=5, process=0, front=Front.LINEAR, processes=1, names=["x"], begun=7)
        node = CoreNode.open(log, 0)
        told = ctypes.string_at

        def ringing(*given):
            os.kill(os.getpid(), signal.SIGALRM)
            return told(*given)

        with mock.patch.object(ctypes, "string_at", ringing), self.assertRaises(Alarm):
            node.call(Write(0, 5))
        for ask in (node.tick, lambda: node.logged, lambda: node.mark_durable(1), node.hand_out):
            with self.assertRaisesRegex(Refused, "^failed$"):
                ask()
        node.close()

    def test_an_end_that_a_signal_interrupts_is_gone_on_with(self):
        self.hear_alarms()
        a, = self.begin(1)
        disk = self.hang(a)
        self.late(TimedOut, a.write, "x", 2, 0.2)
        signal.setitimer(signal.ITIMER_REAL, 0.2)
        self.late(Alarm, a.close)
        end = self.programs.submit(a.close)
        time.sleep(0.2)
        self.assertFalse(end.done())
        disk.go_on()
        end.result(5)
        a.close()
        # (nobody has the log in hands any more)
        LogFile(self.path(0), False).close()
        self.assertEqual(entries_of(self.path(0)), ["0 call write x 2 = done 0"])


class Ports(unittest.TestCase):
    def setUp(self):
        self.folder = tempfile.TemporaryDirectory()
        self.addCleanup(self.folder.cleanup)
        self.path = os.path.join(self.folder.name, "0.socket")
        log = os.path.join(self.folder.name, "0.log")
        self.node = Node("linear", ["x"], 0, free_addresses(1), None, log, cluster=CLUSTER, say=lambda _: None)
        self.addCleanup(self.node.close)

    def test_a_port_is_closed_once(self):
        port = Port(self.node, self.path)
        with socket.socket(socket.AF_UNIX) as program:
            program.connect(self.path)
            program.sendall(b"read x\n")
            self.assertEqual(program.recv(20), b"value 0\n")
            port.close()
            program.sendall(b"write x 5\n")
            program.settimeout(5)
            self.assertEqual(program.recv(20), b"")
        self.assertEqual(self.node.read("x", 5), 0)
        other = socket.socket(socket.AF_UNIX)
        self.addCleanup(other.close)
        other.bind(self.path)
        port.close()
        self.assertTrue(os.path.exists(self.path))

    def test_a_call_that_another_one_keeps_from_being_made_did_nothing(self):
        perform = self.node.perform

        def performing(op):
            perform(Write(0, 5), 5)
            raise Busy()

        with Port(self.node, self.path) as port, mock.patch.object(self.node, "perform", performing):
            self.assertEqual(port.end_of(Write(0, 6)), End("fail", error="another operation goes on"))
        self.assertFalse(port._goes_on)

    def test_the_socket_is_removed_while_it_is_its_own(self):
        port, found = Port(self.node, self.path), []
        close = port.server_close

        def closing():
            found.append(os.path.exists(self.path))  # (from here on another node may have the path)
            close()

        port.server_close = closing
        port.close()
        self.assertEqual(found, [False])

    def test_where_no_program_can_be_let_in_for_now_the_port_waits_and_goes_on(self):
        with Port(self.node, self.path), socket.socket(socket.AF_UNIX) as program:
            full = OSError(24, "Too many open files")
            with mock.patch.object(socket.socket, "accept", side_effect=full) as accept:
                program.connect(self.path)
                time.sleep(0.5)
                self.assertLess(accept.call_count, 50)
            program.sendall(b"health\n")
            program.settimeout(5)
            self.assertEqual(program.recv(10), b"ok\n")


class Streams(unittest.TestCase):
    def test_a_line_that_nobody_reads_is_waited_for_by_nobody(self):
        # (100,000 bytes are more than a pipe takes)
        words = [sys.executable, "-c", "from tellwydar.net.core import say\nfor _ in range(1000): say('x' * 99)"]
        with subprocess.Popen(words, stderr=subprocess.PIPE) as program:
            self.assertEqual(program.wait(20), 0)
            self.assertGreater(program.stderr.read().count(b"\n"), 100)

    def test_a_line_is_said_to_a_stream_that_is_no_file(self):
        with contextlib.redirect_stderr(io.StringIO()) as told:
            say("a line")
        self.assertEqual(told.getvalue(), "a line\n")


class Roads(unittest.TestCase):
    def test_what_the_road_needs_and_is_not_there_is_told(self):
        pairs = [road.new_keys() for _ in range(2)]
        keys = Keys(pairs[0][1], tuple(key for key, _ in pairs))
        with mock.patch.dict(sys.modules, {"nacl.public": None}), self.assertRaisesRegex(RoadFault, "python3-nacl"):
            DatagramRoad(0, free_addresses(2, "udp"), keys, print).close()

    def test_a_port_that_is_none_is_refused(self):
        for addresses in (["udp://127.0.0.1:99999", "udp://127.0.0.1:7102"],
                          ["udp://127.0.0.1:7101", "udp://127.0.0.1:99999"]):
            with self.assertRaises(RoadFault):
                DatagramRoad(0, addresses, None, print).close()
        for address in ("tcp://127.0.0.1:x", "udp://127.0.0.1:7102"):
            with self.assertRaisesRegex(RoadFault, f"^{address}: "):
                road.Road(0, [*free_addresses(1), address], None, print).close()


if __name__ == "__main__":
    unittest.main()
