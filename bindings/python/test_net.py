"""Tests of nodes: python3 -m unittest, with TELLWYDAR_LIB set."""
import asyncio
import contextlib
import importlib.util
import linecache
import os
import random
import re
import socket
import subprocess
import sys
import tempfile
import threading
import time
import unittest
import zlib

import zmq

from tellwydar import CompareAndSwap, Front, LogHead, Read, Swap, Write, check, merge_logs
from tellwydar import Node as CoreNode
from tellwydar.messages import Greeting, Met, start_of
from tellwydar.net import (
    Busy, Closed, Keys, LogFault, LossyRoad, Node, NodeFailed, Paused, Refused, TimedOut, core, judge, road,
)
from tellwydar.net.aio import AsyncNode
from tellwydar.net.datagrams import DatagramRoad
from tellwydar.net.logfile import LogFile, open_log
from tellwydar.net.peers import FRAMES, GREETING, STATE, Post
from tellwydar.net.road import RoadFault

if importlib.util.find_spec("nacl"):
    from nacl.public import Box, PrivateKey, PublicKey

CLUSTER = 7


def free_addresses(count, scheme="tcp"):
    held = [socket.socket(type=socket.SOCK_DGRAM if scheme == "udp" else socket.SOCK_STREAM) for _ in range(count)]
    for s in held:
        s.bind(("127.0.0.1", 0))
    addresses = [f"{scheme}://127.0.0.1:{s.getsockname()[1]}" for s in held]
    for s in held:
        s.close()
    return addresses


def data(number, time_, body=b"\1"):
    rest = b"\2\0\0" + bytes(8) if body == b"\1" else b""
    frame = b"\1\1" + number.to_bytes(8, "big") + body + time_.to_bytes(8, "big") + rest
    return len(frame).to_bytes(2, "big") + frame


def got(count):
    return b"\0\x0a\1\2" + count.to_bytes(8, "big")


def sealed(*lines):
    """The log of these lines: before each the CRC-32 of all lines up to it."""
    text, log = "", ""
    for line in lines:
        text += line
        log += f"{zlib.crc32(text.encode()):08x} {line}\n"
        text += "\n"
    return log.encode()


def lines_of(log):
    """The lines of a log without their seals."""
    return [line[9:] for line in log.decode().split("\n")[:-1]]


def entries_of(path):
    with open(path, "rb") as file:
        return lines_of(file.read())[9:]


def head(process, processes=2, **other):
    of = {"cluster": CLUSTER, "process": process, "chapter": 0, "begun": 12, "front": "linear", "processes": processes,
          "registers": "x", **other}
    lines = [f"{name} {value}" for name, value in of.items()]
    return ["tellwydar log 1", *lines[:4], "tellwydar record 1", *lines[4:]]


class Logs(unittest.TestCase):
    """The log of a writer in docs/FORMATS.md, and that of the other process."""

    cast = data(0, 1)[:-1] + b"\5"
    own = ["0 call write x 5", f"0 take 1 {got(1).hex()}", f"0 take 1 {data(0, 2, bytes([2])).hex()} = done 0"]
    other = [f"1 take 0 {cast.hex()}"]

    def setUp(self):
        self.folder, self.said = tempfile.TemporaryDirectory(), []
        self.addCleanup(self.folder.cleanup)

    def put(self, name, text):
        path = os.path.join(self.folder.name, name)
        with open(path, "wb") as file:
            file.write(text)
        return path

    def logs(self, *lists, **other):
        return [self.put(f"{p}.log", sealed(*head(p, len(lists), **other), *it)) for p, it in enumerate(lists)]

    def judged(self, *lists, cut=False, **other):
        return judge.judge(self.logs(*lists, **other), self.said.append, cut)

    def merged(self, *lists, **other):
        """The entries in the order that is found."""
        logs = [judge.read(path, self.said.append).text for path in self.logs(*lists, **other)]
        return merge_logs(logs).decode().splitlines()[4:]

    def refused(self, why, *lists, **other):
        with self.assertRaises(LogFault) as told:
            self.judged(*lists, **other)
        self.assertEqual(str(told.exception).replace(self.folder.name + os.sep, ""), why)

    def test_a_run_has_its_report(self):
        report = self.judged(self.own, self.other)
        lines = [" ".join(line.split()) for line in report.decode().splitlines()]
        self.assertEqual(lines[:6], ["awreg report 2", "front linear", "processes 2", "registers 1", "x", "history 2"])
        self.assertEqual(lines[6:10], ["0 p0 #0 call write x 5", "3 p0 #0 answer done", "order 1", "p0 #0"])
        self.assertEqual(check(report).answer, b"serial yes\npoints yes\n")
        self.assertEqual(self.said, [])

    def test_the_record_is_one_text(self):
        logs = [judge.read(path, self.said.append).text for path in self.logs(self.own, self.other)]
        self.assertEqual(merge_logs(logs), (
            b"tellwydar record 1\nfront linear\nprocesses 2\nregisters x\n0 call write x 5\n"
            b"1 take 0 001e010100000000000000000100000000000000010200000000000000000005\n"
            b"0 take 1 000a01020000000000000001\n0 take 1 001301010000000000000000020000000000000002 = done 0\n"))

    def test_another_reply_is_refused_at_its_entry(self):
        call, count, answer = self.own
        for reply in (" = done 1", " = value 5 0", " = unequal 0", ""):
            changed = answer.replace(" = done 0", reply)
            self.refused("0.log: line 12: no step of its process", [call, count, changed], self.other)
        self.refused("0.log: line 10: no step of its process", [call + " = done 0", count, answer], self.other)

    def test_another_value_or_operation_is_refused(self):
        call, count, answer = self.own
        # (where the one process waits for the other, the first step that is left of the first of them is told)
        self.refused("0.log: line 11: unfaithful", [call.replace("5", "6"), count, answer], self.other)
        self.refused("0.log: line 10: no line of a log", ["0 call write y 5", count, answer], self.other)
        self.refused("0.log: line 11: no step of its process", [call, call, count, answer], self.other)
        self.refused("1.log: line 10: of another process", self.own, ["0 tick"])

    def test_a_frame_that_was_not_put_is_refused_at_its_entry(self):
        call, count, answer = self.own
        self.refused("0.log: line 11: unfaithful", self.own, [f"1 take 0 {data(0, 1).hex()}"])
        self.refused("0.log: line 12: unfaithful", [call, count, answer.replace("02 =", "03 =")], self.other)
        self.refused("0.log: line 12: no line of a log", [call, count, answer.replace("02 = ", "02= ")], self.other)
        self.refused("0.log: line 11: unfaithful", self.own, [])

    def test_a_circle(self):
        # (each of two takes before it puts)
        first = f"take {{}} {data(0, 1).hex()}".format
        self.refused("0.log: line 10: unfaithful", [f"0 {first(1)}", "0 call write x 0"],
                     [f"1 {first(0)}", "1 call write x 0"])

    def test_stuck_names_the_entry_whose_sender_never_put_it(self):
        call, _, answer = self.own
        never = f"0 take 1 {data(1, 9, bytes([2])).hex()}"
        self.refused("0.log: line 11: unfaithful", [call, never], self.other)

    def test_a_take_comes_behind_its_put(self):
        wrote = ["1 call write x 0", f"1 take 0 {data(0, 2, bytes([2])).hex()} = done 0"]
        took = f"0 take 1 {data(0, 1).hex()}"
        self.assertEqual(self.merged([took], wrote), [wrote[0], took, wrote[1]])

    def test_counts(self):
        # (the frame that was early is answered with the count 0)
        first = ["0 call write x 0 = done 0"] * 2 + [f"0 take 1 {got(count).hex()}" for count in (2, 0, 1)]
        second = [f"1 take 0 {data(number, time_).hex()}" for number, time_ in ((1, 2), (0, 1), (1, 2))]
        order = self.merged(first, second, front="local-write")
        self.assertEqual((sorted(order), order[0]), (sorted(first + second), first[0]))

    def test_the_count_0_is_put_by_an_early_frame_alone(self):
        first, second = [self.own[0], f"0 take 1 {got(0).hex()}"], f"1 take 0 {self.cast.hex()}"
        self.refused("0.log: line 11: unfaithful", first, [second])
        early = f"1 take 0 {data(1, 2).hex()}"
        wrote = ["0 call write x 0 = done 0"] * 2
        self.assertEqual(self.merged([*wrote, first[1]], [early], front="local-write"), [*wrote, early, first[1]])

    def test_what_is_in_no_run_can_be_left_out(self):
        report = self.judged(self.own, [], cut=True)
        self.assertIn("history 1\n", report.decode())
        self.assertEqual(len(self.said), 1)
        self.assertRegex(self.said[0], "^cut: .*0.log: line 11: ")

    def test_reads_are_cast_by_linear_alone(self):
        of_a_read = "1 take 0 001601010000000000000000010000000000000001010000"
        self.assertEqual(len(self.merged(["0 call read x"], [of_a_read])), 2)
        self.refused("1.log: line 10: unfaithful", ["0 call read x = value 0 0"], [of_a_read], front="local-read")

    def test_logs_of_other_clusters(self):
        name = lambda p, **other: self.put(f"{p}{''.join(map(str, other.values()))}.log", sealed(*head(p, **other)))
        for paths, why in (
            ([name(0)], "no log of process 1"), ([name(0), name(0)], "0.log and .*0.log are both of process 0"),
            ([name(0), name(1, cluster=8)], "18.log is of cluster 8, and .*0.log of cluster 7"),
            ([name(0), name(1, chapter=2)], "12.log is of chapter 2, and .*0.log of chapter 0"),
            ([name(0), name(1, front="local-read")], "1.*.log is of front local-read, and .*0.log of front linear"),
            ([name(0), name(1, registers="y")], "1y.log is of registers y, and .*0.log of registers x"),
            ([name(0), name(1, processes=3)], "13.log is of processes 3, and .*0.log of processes 2"),
        ):
            with self.assertRaisesRegex(LogFault, why):
                judge.judge(paths, self.said.append)

    def test_each_changed_bit_and_dropped_line_is_told_at_its_line(self):
        log = sealed(*head(0), *self.own)
        for place in range(len(log) - 1):
            for bit in (1, 0x10, 0x80):
                changed = bytearray(log)
                changed[place] ^= bit
                line = log[:place].count(b"\n") + 1
                why = "no line of a log" if line < 10 else "changed, or a line before it is missing"
                with self.assertRaisesRegex(LogFault, f": line {line}: {why}$"):
                    judge.read(self.put("0.log", changed), self.said.append)
        lines = log.split(b"\n")
        for line in (10, 11):
            with self.assertRaisesRegex(LogFault, f": line {line}: changed, or a line before it is missing$"):
                judge.read(self.put("0.log", b"\n".join(lines[: line - 1] + lines[line:])), self.said.append)

    def test_a_cut_entry_is_dropped_with_a_word(self):
        log = sealed(*head(0), *self.own)
        last = len(log.split(b"\n")[-2]) + 1
        for short in range(1, last + 1):
            for zeros in (b"", bytes(5)):
                self.said.clear()
                path = self.put("0.log", log[:-short] + zeros)
                self.assertEqual(lines_of(judge.read(path, self.said.append).text)[9:], self.own[:2])
                dropped = f"{path}: the last {last - short} bytes are no whole entries; dropped"
                self.assertEqual(self.said, [] if short == last else [dropped])


class Spellings(unittest.TestCase):
    """The log of a process that is alone, as worked by hand."""

    head = LogHead(CLUSTER, 0, Front.LINEAR, 1, ("x",), begun=12, chapter=0)
    acts = [Write(0, 5), Swap(0, 2**64 - 1), CompareAndSwap(0, 4, 9), Read(0)]
    steps = ["0 call write x 5 = done 0", f"0 call swap x {2**64 - 1} = value 5 1", "0 call cas x 4 9 = unequal 2",
             f"0 call read x = value {2**64 - 1} 3", "0 tick"]

    def setUp(self):
        folder = tempfile.TemporaryDirectory()
        self.addCleanup(folder.cleanup)
        self.path, self.said = os.path.join(folder.name, "0.log"), []
        self.whole = sealed(*head(0, 1), *self.steps)

    def read(self, data):
        with open(self.path, "wb") as file:
            file.write(data)
        return lines_of(judge.read(self.path, self.said.append).text)[9:]

    def test_is_read_as_it_was_written(self):
        text = CoreNode.begin(**self.head._asdict())
        with CoreNode.open(text, 0) as node:
            text += b"".join(node.call(act) for act in self.acts) + node.tick()
        self.assertEqual(text, self.whole)
        self.assertEqual((self.read(text), self.said), (self.steps, []))

    def test_it_goes_on_where_it_was_cut(self):
        self.assertEqual(self.read(self.whole[:-3]), self.steps[:-1])
        file = LogFile(self.path, False)
        self.addCleanup(file.close)
        with self.assertRaisesRegex(OSError, "is the log of a node that runs"):
            LogFile(self.path, False)
        with open_log(self.path, file.read(), False) as node:
            file.cut(node.whole)
            file.append(node.tick(), True)
        with open(self.path, "rb") as written:
            self.assertEqual(written.read(), self.whole)

    def test_other_spellings_are_refused(self):
        count = got(1).hex()
        for text in (
            "0 call write x 05", "0 call read x 1", "0 call write x", "0 tick ", "0 take 1 00",
            f"0 take 1 {count.upper()}", "0 call read x = value 1", "0 call read x =", "0 call read x  = done 1",
            "0 call read x = done 1 2", "", "0 call add x 1", "0 call write X 1", "0 call write x +5",
            f"0 call write x {2**64}", f"0 take 1 {count} = value 7", f"0 take 064 {count}",
        ):
            with self.assertRaisesRegex(LogFault, ": line 10: no line of a log$", msg=text):
                self.read(sealed(*head(0), text))
        with self.assertRaisesRegex(LogFault, ": line 10: no step of its process$"):
            self.read(sealed(*head(0), f"0 take 64 {count}"))


class Messages(unittest.TestCase):
    """Of process 1 in chapter 4 of cluster 5, whose log was begun as 9."""

    head = LogHead(5, 1, Front.LINEAR, 3, ("x", "y"), begun=9, chapter=4)

    def setUp(self):
        self.said = []
        self.post = Post(self.head._replace(process=2, begun=1), road.Complaints(self.said.append))

    def met(self, key=None, brings=b"\0", **other):
        it = self.post.met(key, start_of(**self.head._replace(**other)._asdict(), to=2) + brings + b"rest")
        return it and (it.met, it.sender, it.brings)

    def test_they_begin_as_worked_by_hand(self):
        # (zlib.crc32(b"x y") is 0x19fe0dc0)
        of = "545703 00 03 0002 19fe0dc0 0000000000000005 01 02 0000000000000009 00000004"
        self.assertEqual(start_of(**self.head._asdict(), to=2), bytes.fromhex(of))
        self.assertEqual((STATE, GREETING), (b"\1", b"\2"))
        for greeting, wanted in ((Greeting(True, 258), "01 0000000000000102"), (Greeting(False, 0), "00" * 9)):
            self.assertEqual(greeting.data(), bytes.fromhex(wanted))
            self.assertEqual(Greeting.of(greeting.data()), greeting)
        for odd in (b"", bytes(8), bytes(10), b"\2" + bytes(8)):
            self.assertIsNone(Greeting.of(odd))

    def test_who_was_heard_first_is_the_process(self):
        self.assertEqual(self.met(), (Met.PEER, 1, 0))
        self.assertEqual(self.met(1, b"\2"), (Met.PEER, 1, 2))
        self.assertEqual(self.met(chapter=3)[:2], (Met.LATE, 1))
        self.assertIsNone(self.met(chapter=5) or self.met(chapter=2))
        self.assertEqual(self.said, [])
        self.assertIsNone(self.met(begun=8))
        self.assertEqual(len(self.said), 1)
        self.assertIn("process 1 was begun anew", self.said[0])

    def test_other_messages_are_dropped_with_a_word(self):
        for other, why in (
            ({"front": Front.LOCAL_READ}, "has the front end local-read, not linear"),
            ({"processes": 4}, "is of 4 processes, not of 3"),
            ({"names": ("x",)}, "has 1 registers, or other names for them"),
            ({"names": ("x", "z")}, "has 2 registers, or other names for them"),
            ({"cluster": 6}, "is of cluster 6, not of 5"),
            ({"process": 2}, "says that it is process 2"),
            ({"brings": b"\3"}, "no message of a node"),
            ({"key": 0}, "says that it is process 1"),
        ):
            self.said.clear()
            self.setUp()
            self.assertIsNone(self.met(**other))
            who = "process 0" if "key" in other else "somebody"
            self.assertEqual(self.said, [f"{who}: {why}; dropped"])
        # (there is no process 9)
        self.setUp()
        mine = start_of(**self.head._asdict(), to=2)
        self.assertIsNone(self.post.met(None, mine[:19] + b"\x09" + mine[20:] + b"\0"))
        self.assertEqual(self.said[-1], "somebody: says that it is process 9; dropped")
        start = start_of(**self.head._asdict(), to=0) + b"\0"
        for message in (b"", start[:-2], b"TW\2" + start[3:], start):
            self.assertIsNone(self.post.met(None, message))
        self.assertEqual(self.said[-1], "somebody: a message for process 0; dropped")


class Roads(unittest.TestCase):
    def test_loopback(self):
        for address in ("tcp://127.0.0.1:1", "tcp://127.9.9.9:1", "tcp://[::1]:1", "ipc://x"):
            self.assertTrue(road.is_loopback(address), address)
        for address in ("udp://0.0.0.0:1", "tcp://0.0.0.0:1", "tcp://*:1", "tcp://10.0.0.1:1",
                        "tcp://localhost.example:1", "tcp://[::]:1"):
            self.assertFalse(road.is_loopback(address), address)

    def test_no_keys_no_network(self):
        with self.assertRaises(road.RoadFault):
            road.Road(0, ["tcp://0.0.0.0:7101", "tcp://127.0.0.1:7102"], None, print)

    def test_keys(self):
        (a, secret), (b, _) = road.new_keys(), road.new_keys()
        for keys in (Keys(secret, (b, a)), Keys(secret, (a, a)), Keys(secret, (a,))):
            with self.assertRaises(road.RoadFault):
                road.Road(0, free_addresses(2), keys, print)


@unittest.skipUnless(importlib.util.find_spec("nacl"), "install python3-nacl")
class Datagrams(unittest.TestCase):
    def setUp(self):
        self.pairs = [road.new_keys() for _ in range(2)]
        self.known = tuple(key for key, _ in self.pairs)
        self.addresses, self.said = free_addresses(2, "udp"), []

    def road(self, me, keys):
        one = DatagramRoad(me, self.addresses, keys, road.Complaints(self.said.append))
        self.addCleanup(one.close)
        return one

    def test_a_message_comes_from_the_process_whose_key_opens_it(self):
        one, other = (self.road(p, Keys(self.pairs[p][1], self.known)) for p in range(2))
        one.send(1, b"a message")
        self.assertEqual(other.receive(5), [(0, b"a message")])
        stranger = socket.socket(type=socket.SOCK_DGRAM)
        self.addCleanup(stranger.close)
        place = ("127.0.0.1", int(self.addresses[1].rpartition(":")[2]))
        key, secret = road.new_keys()
        box = Box(PrivateKey(road.of_z85(secret)), PublicKey(road.of_z85(self.known[1])))
        hostile = [b"", b"\0", b"\1", b"\0" + bytes(60), b"\0" + bytes(box.encrypt(b"a message")), b"\x3f" + bytes(60)]
        for data in hostile:
            stranger.sendto(data, place)
        one.send(1, b"another")
        self.assertEqual(other.receive(5)[-1:] or other.receive(5), [(0, b"another")])
        self.assertTrue(any("no known key opens" in line for line in self.said))

    def test_strangers_take_no_peers_room(self):
        one, other = (self.road(p, Keys(self.pairs[p][1], self.known)) for p in range(2))
        stranger = socket.socket(type=socket.SOCK_DGRAM)
        self.addCleanup(stranger.close)
        for _ in range(2000):  # more than the system keeps for a socket, and no longer than a message
            stranger.sendto(bytes(60), ("127.0.0.1", int(self.addresses[1].rpartition(":")[2])))
        one.send(1, b"a message")
        self.assertEqual(other.receive(5), [(0, b"a message")])

    def test_a_port_in_use_is_refused(self):
        self.road(0, Keys(self.pairs[0][1], self.known))
        with self.assertRaises(road.RoadFault):
            self.road(0, Keys(self.pairs[0][1], self.known))

    def test_keys_are_needed_between_machines(self):
        self.addresses = ["udp://0.0.0.0:7101", "udp://127.0.0.1:7102"]
        with self.assertRaises(road.RoadFault):
            self.road(0, None)


class Nodes(unittest.TestCase):
    def setUp(self):
        self.folder, self.nodes, self.said = tempfile.TemporaryDirectory(), [], []

    def tearDown(self):
        for node in self.nodes:
            node.close()
        self.folder.cleanup()

    def path(self, p):
        return os.path.join(self.folder.name, f"{p}.log")

    def start(self, p, front="linear", keys=None, cluster=CLUSTER, **more):
        of = {"cluster": cluster, "say": self.said.append, **more}
        node = Node(front, ["x", "y"], p, self.addresses, keys, self.path(p), **of)
        self.nodes.append(node)
        return node

    def merged(self, count):
        for node in self.nodes:
            node.close()
        return judge.judge([self.path(p) for p in range(count)], self.said.append).decode()

    def test_three(self):
        pairs = [road.new_keys() for _ in range(3)]
        known = tuple(a for a, _ in pairs)
        for front in core.FRONTS:
            self.addresses = free_addresses(3)
            a, b, c = (self.start(p, front, Keys(pairs[p][1], known), look=0.02) for p in range(3))
            a.write("x", 5, 5)
            self.assertEqual(b.swap("x", 6, 5), 5)
            self.assertEqual(c.swap("x", 7, 5), 6)
            self.assertEqual(c.read("x", 5), 7)
            self.assertTrue(a.compare_and_swap("x", 7, 8, 5))
            self.assertFalse(b.compare_and_swap("x", 7, 9, 5))
            self.assertEqual(c.swap("x", 10, 5), 8)
            report = self.merged(3)
            self.assertTrue(report.startswith("awreg report 3\n"))
            for it in ("swap x 7", "cas x 7 9", "unequal"):
                self.assertIn(it, report)
            self.nodes.clear()
            for p in range(3):
                os.unlink(self.path(p))

    def test_three_over_datagrams(self):
        pairs = [road.new_keys() for _ in range(3)] if importlib.util.find_spec("nacl") else None
        known = tuple(a for a, _ in pairs) if pairs else ()
        self.addresses = free_addresses(3, "udp")
        lossy = lambda r: LossyRoad(r, 5, 0.2, 0.1, 0.2, 0.001)
        a, b, c = (self.start(p, "linear", Keys(pairs[p][1], known) if pairs else None, lossy=lossy) for p in range(3))
        a.write("x", 5, 30)
        self.assertEqual(b.swap("x", 6, 30), 5)
        self.assertEqual(c.read("x", 30), 6)
        self.merged(3)

    def test_timeouts(self):
        self.addresses = free_addresses(2)
        a, b = self.start(0, look=0.02), self.start(1, look=0.02)
        a.write("x", 4, 5)
        b.close()
        with self.assertRaises(ValueError):
            a.wait()
        with self.assertRaises(TimedOut):
            a.write("x", 5, 0.05)
        with self.assertRaises(Busy):
            a.read("x")
        with self.assertRaises(TimedOut):
            a.wait(0.05)
        self.start(1, look=0.02, resume=True)
        self.assertIsNone(a.wait(5))
        self.assertEqual(a.read("x", 5), 5)
        for register in (2, -1, 2**16, "z"):
            with self.assertRaises(Refused):
                a.read(register)
        for value in (2**64, -1, "5"):
            with self.assertRaises(ValueError):
                a.write("x", value)
        self.merged(2)
        with self.assertRaises(Closed):
            a.read("x")

    def test_a_node_is_ahead_by_so_many_casts_at_most(self):
        self.addresses = free_addresses(2)
        # (5 entries an operation: there is room for three of each process to come to rest)
        more = {"look": 0.02, "chapter_entries": 1_048_576 - 30}
        a, b = (self.start(p, "local-write", **more) for p in range(2))
        a.write("x", 1, 5)
        self.assertEqual(b.swap("x", 2, 5), 1)
        b.close()
        for value in range(3, 6):
            a.write("x", value, 5)
        for call in (lambda: a.write("x", 6, 0.05), lambda: a.swap("x", 6, 0)):
            with self.assertRaises(Paused):
                call()
        self.assertEqual(a.so_far(), (4, False))
        b = self.start(1, "local-write", resume=True, **more)
        a.write("x", 6, 5)
        self.assertEqual(a.read("x", 5), 6)
        self.merged(2)

    def test_one_that_is_gone_costs_no_entries(self):
        self.addresses = free_addresses(2)
        a, b = (self.start(p, look=0.001) for p in range(2))
        a.write("x", 1, 5)
        b.close()
        with self.assertRaises(TimedOut):
            a.write("x", 2, 0.5)
        size = os.path.getsize(self.path(0))
        with self.assertRaises(TimedOut):
            a.wait(0.5)
        self.assertEqual(os.path.getsize(self.path(0)), size)
        self.start(1, look=0.001, resume=True)
        self.assertIsNone(a.wait(5))
        self.merged(2)

    def test_nothing_is_cast_before_all_were_heard(self):
        for front in core.FRONTS:
            self.addresses = free_addresses(2)
            a = self.start(0, front)
            for call in (lambda: a.write("x", 5, 0.05), lambda: a.swap("x", 5, 0)):
                with self.assertRaises(Paused):
                    call()
            self.assertEqual((a.so_far(), entries_of(self.path(0))), ((0, False), []))
            told = []
            caller = threading.Thread(target=lambda: told.append(a.swap("x", 6, 20)))
            caller.start()
            self.start(1, front)
            caller.join()
            self.assertEqual(told, [0])
            self.assertEqual(self.merged(2).count(" call "), 1)
            self.nodes.clear()
            for p in range(2):
                os.unlink(self.path(p))

    def test_local_reads_go_on_alone(self):
        self.addresses = free_addresses(2)
        a = self.start(0, "local-read")
        self.assertEqual(a.read("x", 0), 0)

    def test_what_no_log_can_hold_is_refused(self):
        self.addresses = free_addresses(1)
        given = 0, self.addresses, None, self.path(0)
        begin = lambda names, cluster=1: Node("linear", names, *given, cluster=cluster)
        for names in (["x1"], ["a b"], [""], ["x", "x"], ["a" * 17]):
            with self.assertRaises(ValueError):
                begin(names)
        for cluster in (0, -1, 2**63, True, "1", None):
            with self.assertRaises(ValueError):
                begin(["x"], cluster=cluster)
        with self.assertRaises(TypeError):  # it has to be said
            Node("linear", ["x"], *given)
        with self.assertRaises(Refused):
            begin([])
        self.assertFalse(os.path.exists(self.path(0)))
        node = self.start(0)
        for register, value in (("x", True), ("x", -1), ("x", 2**64), ("x", "5")):
            with self.assertRaises(ValueError):
                node.write(register, value, 5)
        for register in (True, "z", 2**16):
            with self.assertRaises(Refused):
                node.write(register, 5, 5)
        node.write("x", 5, 5)
        node.close()
        self.assertEqual(entries_of(self.path(0)), ["0 call write x 5 = done 0"])

    def test_each_caller_has_its_own_answer(self):
        self.addresses = free_addresses(2)
        a, _ = self.start(0), self.start(1)
        told, until = {}, time.monotonic() + 2

        def call(first):
            for value in range(first, first + 1_000_000):
                if time.monotonic() > until:
                    return
                try:
                    told[value] = a.swap("x", value, 5)
                except Busy:
                    pass

        def wait():
            while time.monotonic() < until:
                try:
                    a.wait(0.01)
                except (Busy, ValueError):
                    pass

        threads = [threading.Thread(target=call, args=(1,)), threading.Thread(target=call, args=(10**6,)),
                   threading.Thread(target=wait)]
        for it in threads:
            it.start()
        for it in threads:
            it.join()
        a.close()
        logged, called = {}, None
        for entry in entries_of(self.path(0)):
            step, _, reply = entry.partition(" = value ")
            called = int(step.split()[-1]) if " call " in step else called
            if reply:
                logged[called] = int(reply.split()[0])
        self.assertTrue(told)
        self.assertEqual(told, logged)

    def test_resume(self):
        self.addresses = free_addresses(2)
        a, b = self.start(0, look=0.02), self.start(1, look=0.02)
        a.write("x", 5, 5)
        b.close()
        with self.assertRaises(TimedOut):
            a.write("x", 6, 0.05)
        with self.assertRaises(NodeFailed):
            self.start(1)
        with self.assertRaises(RoadFault):  # another node has the address
            self.start(0, resume=True)
        b = self.start(1, resume=True, look=0.02)
        self.assertIsNone(a.wait(5))
        self.assertEqual(b.read("x", 5), 6)
        self.merged(2)

    def test_a_process_begun_anew_is_not_let_in(self):
        self.addresses = free_addresses(2)
        a, b = self.start(0, look=0.02), self.start(1, look=0.02)
        a.write("x", 5, 5)
        b.close()
        os.rename(self.path(1), self.path(9))
        self.start(1, look=0.02)
        with self.assertRaises(TimedOut):
            a.write("x", 6, 0.5)
        self.assertTrue(any("was begun anew" in line for line in self.said), self.said)

    def test_a_log_that_cannot_be_written_stops_the_node_before_a_frame_goes_out(self):
        self.addresses = free_addresses(2)
        a, b = self.start(0, look=0.02), self.start(1, look=0.02)
        a.write("x", 5, 5)

        def full(data, sync):
            raise OSError("no space")

        a._story.file.append = full
        with self.assertRaises(NodeFailed):
            a.write("x", 6, 5)
        self.assertEqual(self.merged(2).count(" call "), 1)

    def test_lossy_and_hostile(self):
        self.addresses = free_addresses(3)
        lossy = lambda r: LossyRoad(r, 1, 0.3, 0.2, 0.3, 0.001)
        a, b, c = (self.start(p, look=0.01, lossy=lossy) for p in range(3))
        context, words = zmq.Context(), random.Random(2)
        push = context.socket(zmq.PUSH)
        push.connect(self.addresses[0])
        start = b._peers.post.starts[0]
        for k in range(5000):
            begin = words.choice([b"", start, start + FRAMES, start[:-1], words.randbytes(30) + got(1)])
            push.send(begin + words.randbytes(words.randrange(80)))
        for k in range(20):
            a.swap("x", k, 30)
        push.close(0)
        context.term()
        self.assertEqual(b.read("x", 30), 19)
        self.merged(3)
        self.assertLess(len(self.said), 150)

    def cut(self, p, entries):
        """Puts an older copy of a log back: the one that had so many entries."""
        with open(self.path(p), "rb") as file:
            lines = file.read().splitlines(True)
        with open(self.path(p), "wb") as file:
            file.writelines(lines[: 9 + entries])

    def test_a_log_that_lost_its_end_is_found_out(self):
        for front in core.FRONTS:
            self.addresses = free_addresses(2)
            a, b = self.start(0, front), self.start(1, front)
            b.swap("x", 5, 5)
            b.close()
            self.cut(1, 0)
            b = self.start(1, front, resume=True)
            with self.assertRaisesRegex(NodeFailed, "^the log was lost: process 0 accepted 1 bodies, and it has 0$"):
                b.write("x", 9, 20)
            self.assertIn("process 1 stopped: the log was lost: process 0 accepted 1 bodies, and it has 0", self.said)
            a.close()
            for p in range(2):
                os.unlink(self.path(p))

    def test_a_log_that_is_gone_is_found_out_by_those_that_start_anew(self):
        for front in core.FRONTS:
            self.addresses = free_addresses(2)
            a, b = self.start(0, front), self.start(1, front)
            a.swap("x", 4, 5)
            b.swap("x", 5, 5)
            a.close(), b.close()
            os.unlink(self.path(1))
            a, b = self.start(0, front, resume=True), self.start(1, front)
            why = "^the log was lost: process 0 accepted [1-9] bodies, and it has 0$"
            with self.assertRaisesRegex(NodeFailed, why):
                b.write("x", 9, 20)
            a.close()
            for p in range(2):
                os.unlink(self.path(p))

    def test_the_log_of_another_cluster_is_refused_and_let_go(self):
        self.addresses = free_addresses(2)
        self.start(0).close()
        with open(self.path(0), "rb") as file:
            log = file.read()
        other = {"cluster": 8, "front": "local-read", "registers": "y x", "processes": 3, "process": 1, "chapter": 1}
        for word, value in other.items():
            lines = [f"{word} {value}" if it.startswith(f"{word} ") else it for it in lines_of(log)]
            changed = sealed(*lines)
            with open(self.path(0), "wb") as file:
                file.write(changed)
            before = next(it for it in lines_of(log) if it.startswith(f"{word} "))
            with self.assertRaisesRegex(LogFault, f"0.log is of {word} {value}, and this node of {before}$"):
                self.start(0, resume=True)
            LogFile(self.path(0), False).close()
            with open(self.path(0), "rb") as file:
                self.assertEqual(file.read(), changed)
        for damaged in (b"all else\n", log[:9] + b"T" + log[10:]):
            with open(self.path(0), "wb") as file:
                file.write(damaged)
            with self.assertRaisesRegex(LogFault, "line 1: no line of a log"):
                self.start(0, resume=True)
            with open(self.path(0), "rb") as file:
                self.assertEqual(file.read(), damaged)
        with open(self.path(0), "wb") as file:
            file.write(log)
        self.start(0, resume=True)

    def test_nodes_of_other_clusters_are_not_heard(self):
        self.addresses = free_addresses(2)
        a, _ = self.start(0), self.start(1, cluster=8)
        with self.assertRaises(Paused):
            a.write("x", 5, 0.3)
        self.assertIn("somebody: is of cluster 8, not of 7; dropped", self.said)

    def test_what_never_began_is_begun_anew(self):
        self.addresses = free_addresses(1)
        self.start(0, chapter_operations=3).close()
        with open(self.path(0), "rb") as file:
            head = file.read()
        for left in (b"", bytes(300), head[:-1], head[:50], head[:50] + bytes(9)):
            with open(self.path(0), "wb") as file:
                file.write(left)
            with self.assertRaises(NodeFailed):
                self.start(0)
            node = self.start(0, resume=True)
            node.write("x", 5, 5)
            self.merged(1)
        node = self.start(0, resume=True, chapter_operations=3)
        for value in range(6, 9):
            node.write("x", value, 5)
        self.assertEqual(node.read("x", 5), 8)
        last = f"{self.path(0)}.2"
        while not os.path.exists(last):
            time.sleep(0.01)
        node.close()
        with open(last, "wb"):
            pass
        node = self.start(0, resume=True, chapter_operations=3)
        self.assertEqual(node.read("x", 5), 8)

    def last_chapter(self):
        logs = [it for it in os.listdir(self.folder.name) if not it.endswith(".quiet")]
        return max(int(it.removeprefix("0.log.")) for it in logs if it != "0.log")

    def test_chapters_before_the_last_two_may_be_put_aside(self):
        self.addresses = free_addresses(1)
        node = self.start(0, chapter_operations=3)
        for value in range(1, 13):
            node.write("x", value, 5)
        node.close()
        last = self.last_chapter()
        self.assertGreater(last, 3)
        for name in ["0.log", *(f"0.log.{chapter}" for chapter in range(1, last - 1))]:
            os.remove(os.path.join(self.folder.name, name))
            os.remove(os.path.join(self.folder.name, name + ".quiet"))
        node = self.start(0, resume=True, chapter_operations=3)
        self.assertEqual(node.so_far(), (12, False))
        self.assertEqual(node.read("x", 5), 12)
        self.assertEqual(node.so_far(), (13, False))
        node.close()
        before = f"{self.path(0)}.{self.last_chapter() - 1}"
        with open(before + ".quiet", "w"):
            pass
        with self.assertRaisesRegex(LogFault, f"^{re.escape(before)}.quiet: no number of calls$"):
            self.start(0, resume=True)
        os.remove(before)
        with self.assertRaises(FileNotFoundError):
            self.start(0, resume=True)

    def test_what_a_crash_left_behind_the_entries_is_cut(self):
        self.addresses = free_addresses(1)
        node = self.start(0)
        node.write("x", 5, 5)
        node.close()
        with open(self.path(0), "rb") as file:
            log = file.read()
        for left, bytes_ in ((b"1234", 4), (bytes(5000), 0), (bytes(20) + log[-20:], 40), (b"12" + bytes(99), 2)):
            self.said.clear()
            with open(self.path(0), "ab") as file:
                file.write(left)
            self.start(0, resume=True).close()
            with open(self.path(0), "rb") as file:
                self.assertEqual(file.read(), log)
            word = f"{self.path(0)}: the last {bytes_} bytes are no whole entries; dropped"
            self.assertEqual(self.said, [word] if bytes_ else [])

    def test_nothing_goes_out_before_it_is_on_the_disk(self):
        self.addresses = free_addresses(2)
        a, b = self.start(0, sync=True), self.start(1, sync=True)
        a.write("x", 4, 5)
        while a.pending() or b.pending() or a._held_till:
            time.sleep(0.01)
        sent, append, send = [], a._story.file.append, a._road.send
        synced = len(entries_of(self.path(0)))

        def watched(data, sync):
            nonlocal synced
            append(data, sync)
            synced = len(entries_of(self.path(0))) if sync else synced

        def sending(to, message):
            if message[33:34] == FRAMES:
                sent.append((a._story.node.durable, synced))
            send(to, message)

        a._story.file.append, a._road.send = watched, sending
        for value in range(20):
            a.write("x", value, 5)
            self.assertEqual(b.swap("x", 100, 5), value)
        self.assertTrue(sent)
        self.assertTrue(all(durable == on_disk for durable, on_disk in sent), sent)
        self.merged(2)

    def test_what_is_raised_in_a_call_leaves_a_log_to_go_on_with(self):
        class Alarm(Exception):
            pass

        def raising(place):
            """Raises at the line of the package that is run as the `place`-th."""
            left = [place]

            def local(frame, event, _):
                line = linecache.getline(frame.f_code.co_filename, frame.f_lineno)
                # (what is raised at a `with` by a trace, but not by a signal, leaves its lock locked)
                if event == "line" and not line.lstrip().startswith("with "):
                    left[0] -= 1
                    if left[0] == 0:
                        sys.settrace(None)
                        raise Alarm()
                return local

            return lambda frame, event, _: local if f"{os.sep}tellwydar{os.sep}" in frame.f_code.co_filename else None

        self.addresses = free_addresses(1)
        self.start(0).close()
        place, ended, trace = 0, False, sys.gettrace()
        while not ended:
            place += 1
            node = self.start(0, resume=True)
            sys.settrace(raising(place))
            try:
                node.swap("x", place, 5)
                ended = True
            except Alarm:
                pass
            finally:
                sys.settrace(trace)
            for value in (place + 1_000_000, place + 2_000_000):  # (it goes on, or has stopped for good)
                try:
                    node.swap("x", value, 5)
                except Busy:
                    with contextlib.suppress(Busy, ValueError):
                        node.wait(5)
                except NodeFailed:
                    break
            node.close()
        self.assertGreater(place, 30)
        self.merged(1)


class Tasks(unittest.IsolatedAsyncioTestCase):
    """Tasks of `asyncio` call a node of a cluster of two."""

    def setUp(self):
        self.folder = tempfile.TemporaryDirectory()
        self.addCleanup(self.folder.cleanup)
        self.addresses = free_addresses(2)
        self.here, self.other = self.start(0), self.start(1)

    def start(self, p, **more):
        path = os.path.join(self.folder.name, f"{p}.log")
        of = {"cluster": CLUSTER, "say": lambda _: None, "look": 0.02, **more}
        node = Node("linear", ["x"], p, self.addresses, None, path, **of)
        self.addCleanup(node.close)
        return node

    async def test_calls_of_tasks_take_turns(self):
        node = AsyncNode(self.here)
        told = await asyncio.gather(*(node.swap("x", value, 20) for value in range(1, 21)))
        self.assertEqual(told, list(range(20)))
        self.assertTrue(await node.compare_and_swap("x", 20, 21, 20))
        await node.write("x", 22, 20)
        self.assertEqual(await node.read("x", 20), 22)
        with self.assertRaises(Refused):
            await node.read("z")

    async def test_a_task_that_is_cancelled_has_its_operation_go_on(self):
        node = AsyncNode(self.here)
        await node.write("x", 1, 20)
        self.other.close()
        task = asyncio.ensure_future(node.swap("x", 2))
        await asyncio.sleep(0.2)
        task.cancel()
        with self.assertRaises(asyncio.CancelledError):
            await task
        later = asyncio.ensure_future(node.swap("x", 3))
        self.start(1, resume=True)
        self.assertEqual(await later, 2)


class Commands(unittest.TestCase):
    """`python3 -m tellwydar.net` ends with a line that says why, and with status 1."""

    def setUp(self):
        self.folder = tempfile.TemporaryDirectory()
        self.addCleanup(self.folder.cleanup)
        self.address, = free_addresses(1)

    def run_node(self, script="", config="", shell='exec "$@"', log="0.log", more=()):
        path = lambda name: os.path.join(self.folder.name, name)
        with open(path("script"), "w") as file:
            file.write(script)
        of = {"cluster": "3", "front": '"linear"', "registers": '["x"]'}
        of.update(it.split(" = ") for it in config.splitlines())
        with open(path("c.toml"), "w") as file:
            file.writelines(f"{key} = {value}\n" for key, value in of.items() if value)
            file.write(f'[[node]]\naddress = "{self.address}"\n')
        words = [sys.executable, "-m", "tellwydar.net", "node", "--me", "0", "--config", path("c.toml"),
                 "--log", path(log), "--script", path("script"), *more]
        streams = {"stdout": subprocess.PIPE, "stderr": subprocess.PIPE, "text": True}
        with subprocess.Popen(["bash", "-c", shell, "bash", *words], **streams) as node:
            timer = threading.Timer(60, node.kill)
            timer.start()
            out = ""
            for line in node.stdout:
                out += line
                if line == "end\n":
                    node.terminate()
            lines = [it for it in node.stderr.read().splitlines() if not it.startswith("without --sync")]
            timer.cancel()
        return node.returncode, out, [it.replace(self.folder.name + os.sep, "") for it in lines]

    def refused(self, why, *given, **more):
        status, out, lines = self.run_node(*given, **more)
        self.assertEqual((status, len(lines)), (1, 1), lines)
        self.assertRegex(lines[0], why)

    def test_what_is_wrong_is_told_in_one_line(self):
        self.refused("c.toml: no cluster", config="cluster = ")
        self.refused("0 is no number of a cluster: 1 to 2\\^63 - 1", config="cluster = 0")
        self.refused("'seq' is no front end", config='front = "seq"')
        self.refused("no process", more=["--me", "7"])
        self.refused("line 2: write z 1: no register", "write x 1\nwrite z 1\n", log="1.log")
        self.refused("line 1: write x: no call", "write x\n", log="2.log")
        self.refused("1.log is there already", log="1.log")
        why = "1.log is of cluster 3, and this node of cluster 4"
        self.refused(why, config="cluster = 4", log="1.log", more=["--resume"])
        with socket.socket() as taken:
            host, _, port = self.address.removeprefix("tcp://").rpartition(":")
            taken.setsockopt(socket.SOL_SOCKET, socket.SO_REUSEADDR, 1)
            taken.bind((host, int(port)))
            taken.listen()
            self.refused(f"{self.address}: Address already in use", log="3.log")
        many = "".join(f"write x {value}\n" for value in range(100))
        status, out, lines = self.run_node(many, log="4.log", shell='ulimit -f 1; trap "" XFSZ; exec "$@"')
        self.assertEqual((status, out.count("end")), (1, 0))
        self.assertIn("the log can't be written", lines[-1])

    def test_the_configuration_may_ask_for_sync_too(self):
        for config, said in (("sync = true", 0), ("sync = false", 1)):
            _, out, _ = self.run_node("write x 5\n", config, shell='exec "$@" 2>&1', log=f"{said}.sync.log")
            self.assertEqual(out.count("without --sync"), said, out)
            self.assertTrue(out.endswith("done\nend\n"), out)

    def test_answers_are_told_alone_also_where_nobody_reads_what_is_said(self):
        for shell in ('exec "$@" 2>&-', 'exec "$@" 2>/dev/full'):
            status, out, _ = self.run_node("write x 5\nread x\n", shell=shell, log=f"{len(shell)}.log")
            self.assertEqual((status, out), (0, "done\nvalue 5\nend\n"))


if __name__ == "__main__":
    unittest.main()
