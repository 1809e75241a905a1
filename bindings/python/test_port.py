"""Tests of the port of a node: python3 -m unittest, with TELLWYDAR_LIB set."""
import fcntl
import json
import os
import re
import socket
import tempfile
import threading
import time
import unittest
from concurrent.futures import ThreadPoolExecutor, TimeoutError
from unittest import mock

from tellwydar import judge
from tellwydar.net import Node, port
from tellwydar.net.port import Port, answers
from tellwydar.net.status import Peer, Status
from test_net import CLUSTER, free_addresses


def call(f, key, value, **more):
    return json.dumps({"f": f, "key": key, "value": value, **more})


def refusal(why):
    return json.dumps({"type": "fail", "error": why})


def nested(count):
    return "[" * count + "]" * count


# Calls of a register that is 0, one after another, and what nodes of both languages answer.
ANSWERED = {
    '{"f": "write", "key": "x", "value": 18446744073709551615}':
        '{"type": "ok", "f": "write", "key": "x", "value": 18446744073709551615}',
    ' {"process": "a  b", "type": "invoke", "f": "read", "key": "x", "value": null, "at": [1e400, {}]} ':
        '{"type": "ok", "f": "read", "key": "x", "value": 18446744073709551615}',
    '{"value":5,"\\u006bey":"x","f":"swap"}': '{"type": "ok", "f": "swap", "key": "x", "value": 18446744073709551615}',
    '{"f": "cas", "key": "x", "value": [5, 6]}': '{"type": "ok", "f": "cas", "key": "x", "value": [5, 6]}',
    '{"f": "cas", "key": "x", "value": [5, 7]}':
        '{"type": "fail", "f": "cas", "key": "x", "value": [5, 7], "error": "unequal"}',
    '{"f": "read", "key": "x"}': '{"type": "ok", "f": "read", "key": "x", "value": 6}',
    # (brackets as deep as they may be)
    '{"f": "write", "key": "x", "value": 0, "at": ' + nested(126) + "}":
        '{"type": "ok", "f": "write", "key": "x", "value": 0}',
}
F, KEY = "f, one of read, write, swap and cas", "key, the name of a register"
INTEGER = "an integer from 0 to 18446744073709551615"
PAIR = f"an array of two, each {INTEGER}"
# Objects that are no calls, and what is wanted.
WANTED = {
    "{": "a JSON object",
    "{}}": "a JSON object",
    '{"f": "write", "key": "x", "value": NaN}': "a JSON object",
    '{"f": "write", "key": "x", "value": -Infinity}': "a JSON object",
    '{"f": "write", "key": "x", "value": 01}': "a JSON object",
    call("write", "x", 1)[:-1] + ', "at": ' + nested(127) + "}": "a JSON object",
    call("write", "x", 1)[:-1] + ', "at": ' + nested(2000) + "}": "a JSON object",
    '{"f": "write", "f": "write", "key": "x", "value": 1}': "one f",
    '{"f": "write", "key": "x", "\\u006bey": "x", "value": 1}': "one key",
    '{"f": "write", "key": "x", "value": 1, "value": 2}': "one value",
    "{}": F,
    call("add", "x", 1): F,
    call(["read"], "x", None): F,
    '{"f": "read"}': KEY,
    call("read", "z", None): KEY,
    call("read", 0, None): KEY,
    call("read", ["x"], None): KEY,
    call("read", "x", 1): "value, null or nothing",
    call("read", "x", []): "value, null or nothing",
    '{"f": "write", "key": "x"}': f"value, {INTEGER}",
    call("write", "x", -1): f"value, {INTEGER}",
    '{"f": "write", "key": "x", "value": -0}': f"value, {INTEGER}",
    call("write", "x", 1.0): f"value, {INTEGER}",
    call("write", "x", True): f"value, {INTEGER}",
    call("write", "x", "1"): f"value, {INTEGER}",
    call("swap", "x", [1]): f"value, {INTEGER}",
    call("swap", "x", 2**64): f"value, {INTEGER}",
    call("cas", "x", 1): f"value, {PAIR}",
    call("cas", "x", [1]): f"value, {PAIR}",
    call("cas", "x", [0, 1, 2]): f"value, {PAIR}",
    call("cas", "x", [0, None]): f"value, {PAIR}",
    call("cas", "x", {"a": 0, "b": 1}): f"value, {PAIR}",
}
REFUSED = {
    **{line: refusal(f"wanted {what}") for line, what in WANTED.items()},
    call("write", "x", 1, at="1" * 4100): refusal("a line is too long"),
}


def told(path, *lines):
    return [it.decode()[:-1] for it in answers(path, [it.encode() for it in lines])]


class Ports(unittest.TestCase):
    """Programs call a node that is alone."""

    def setUp(self):
        self.folder = tempfile.TemporaryDirectory()
        self.addCleanup(self.folder.cleanup)
        self.path = os.path.join(self.folder.name, "0.socket")
        self.node = self.open("0.log")

    def open(self, log, **more):
        path = os.path.join(self.folder.name, log)
        node = Node("linear", ["x", "y"], 0, free_addresses(1), None, path, cluster=CLUSTER, say=lambda _: None, **more)
        self.addCleanup(node.close)
        return node

    def told(self, *lines):
        return told(self.path, *lines)

    def test_each_line_is_answered(self):
        calls = {
            "write x 5": "done", "read x": "value 5", "cas x 5 6": "done", "cas x 5 7": "unequal",
            " swap x  8 ": "value 6", "read z": "refused: no register", "write x": "refused: no call",
            "write x -1": "refused: -1 is no number of 64 bits", "write x -0": "refused: no number",
            "add x 1": "refused: no call", "health": "ok",
        }
        with Port(self.node, self.path):
            self.assertEqual(self.told(*calls), list(calls.values()))
            self.assertEqual(os.stat(self.path).st_mode & 0o777, 0o600)
            metrics, status = self.told("metrics", "status")
            self.assertIn("# TYPE tellwydar_operations_total counter\ntellwydar_operations_total 5\n", metrics)
            self.assertTrue(metrics.endswith("\n# EOF"))
            self.assertEqual(json.loads(status), {
                "process": 0, "front": "linear", "chapter": 0, "operations": 5, "entries": 5, "running": False,
                "peers": [],
            })
            long = self.told("write x " + "1" * 4100)
            self.assertEqual(long, ["refused: a line is too long"])
        self.assertFalse(os.path.exists(self.path))

    def test_a_call_that_is_an_object_is_answered_by_one(self):
        with Port(self.node, self.path):
            self.assertEqual(self.told(*ANSWERED), list(ANSWERED.values()))

    def test_an_object_that_is_no_call_is_refused(self):
        with Port(self.node, self.path):
            for line, answer in REFUSED.items():
                self.assertEqual(self.told(line), [answer], line)
            self.assertEqual(self.told(call("read", "x", None)),
                             ['{"type": "ok", "f": "read", "key": "x", "value": 0}'])
        self.assertEqual(self.node.so_far(), (1, False))

    def test_programs_take_turns(self):
        with Port(self.node, self.path):
            found = [[] for _ in range(4)]

            def swap(p):
                found[p] = self.told(*(f"swap x {100 * p + k + 1}" for k in range(50)))

            threads = [threading.Thread(target=swap, args=(p,)) for p in range(4)]
            for it in threads:
                it.start()
            for it in threads:
                it.join()
            last, = self.told("read x")
        # each value was there once, and was swapped away but for the last one
        values = [it for one in found for it in one] + [last]
        written = [f"value {100 * p + k + 1}" for p in range(4) for k in range(50)]
        self.assertEqual(sorted(values), sorted(["value 0", *written]))

    def test_a_socket_that_is_taken_is_refused_and_one_that_was_left_is_not(self):
        with Port(self.node, self.path):
            with self.assertRaisesRegex(OSError, f"^{re.escape(self.path)}: Address already in use$"):
                Port(self.open("1.log"), self.path)
        with socket.socket(socket.AF_UNIX) as left:
            left.bind(self.path)
        with Port(self.node, self.path):
            self.assertEqual(self.told("read x"), ["value 0"])
        with self.assertRaises(FileNotFoundError):
            self.told("read x")

    def test_a_socket_that_another_one_is_opening_is_not_taken_from_it(self):
        with socket.socket(socket.AF_UNIX) as other, ThreadPoolExecutor(1) as pool:
            turn = os.open(self.folder.name, os.O_RDONLY)
            fcntl.flock(turn, fcntl.LOCK_EX)
            other.bind(self.path)
            opening = pool.submit(Port, self.node, self.path)
            with self.assertRaises(TimeoutError):
                opening.result(0.3)
            other.listen()
            os.close(turn)
            with self.assertRaisesRegex(OSError, f"^{re.escape(self.path)}: Address already in use$"):
                opening.result(10)

    def test_a_folder_that_another_program_has_locked_is_not_waited_for_for_ever(self):
        turn = os.open(self.folder.name, os.O_RDONLY)
        self.addCleanup(os.close, turn)
        fcntl.flock(turn, fcntl.LOCK_EX)
        why = f"^{re.escape(self.path)}: another program has locked its folder$"
        with mock.patch.object(port, "_TURN", 0.2), self.assertRaisesRegex(OSError, why):
            Port(self.node, self.path)

    def test_a_line_that_is_not_ended_is_no_call(self):
        with Port(self.node, self.path), socket.socket(socket.AF_UNIX) as program:
            program.connect(self.path)
            program.sendall(b"write x 5\nwrite x 12")
            program.shutdown(socket.SHUT_WR)
            self.assertEqual(program.makefile("rb").read(), b"done\n")
            self.assertEqual(self.told("read x"), ["value 5"])

    def test_one_that_was_not_heard_is_waited_for(self):
        for heard, is_missing, told in (True, False, "ok"), (True, True, "waits for 1"), (False, False, "waits for 1"):
            peer = Peer(1, heard, None, 0, is_missing)
            self.assertEqual(Status(0, "linear", 0, 0, 0, False, [peer]).health(), told)

    def test_who_waits_is_told_of(self):
        node = Node("local-read", ["x"], 0, free_addresses(2), None, os.path.join(self.folder.name, "2.log"),
                    cluster=CLUSTER, say=lambda _: None, look=0.001)
        self.addCleanup(node.close)
        with Port(node, self.path):
            time.sleep(0.5)
            self.assertEqual(self.told("health"), ["waits for 1"])
            peer = {"process": 1, "heard": False, "silent": None, "unacknowledged": 0}
            self.assertEqual(json.loads(self.told("status")[0])["peers"], [peer])
            self.assertIn('\ntellwydar_silent_seconds{process="1"} NaN\n', self.told("metrics")[0])

    def test_of_a_call_whose_entry_is_not_written_nobody_knows(self):
        full, found = "the log can't be written: [Errno 28] No space left on device", []
        with Port(self.node, self.path):
            self.assertEqual(self.told("write x 1"), ["done"])
            with mock.patch.object(self.node._story.file, "append", side_effect=OSError(28, "No space left on device")):
                answer, = self.told(call("write", "x", 2))
            self.assertEqual(json.loads(answer), {"type": "info", "f": "write", "key": "x", "value": 2, "error": full})
            # (the node has stopped, and calls nothing more)
            answer, words = self.told(call("cas", "x", [1, 2]), "write x 3")
            self.assertEqual(json.loads(answer),
                             {"type": "fail", "f": "cas", "key": "x", "value": [1, 2], "error": full})
            self.assertEqual(words, f"refused: {full}")
            # (how it is, it doesn't tell either: that is one line too)
            asked = threading.Thread(target=lambda: found.extend(self.told("metrics", "health")), daemon=True)
            asked.start()
            asked.join(10)
            self.assertEqual(found, [f"refused: {full}"] * 2)


class Ends(unittest.TestCase):
    """Programs call the nodes of a cluster of two, which come and go."""

    def setUp(self):
        self.folder, self.programs = tempfile.TemporaryDirectory(), ThreadPoolExecutor()
        self.addCleanup(self.folder.cleanup)
        self.addCleanup(self.programs.shutdown)
        self.addresses, self.rows = free_addresses(2), []

    def path(self, p, end):
        return os.path.join(self.folder.name, f"{p}.{end}")

    def start(self, p, **more):
        """A node with a port."""
        of = {"cluster": CLUSTER, "say": lambda _: None, "look": 0.02, **more}
        node = Node("linear", ["x"], p, self.addresses, None, self.path(p, "log"), **of)
        self.addCleanup(node.close)
        port = Port(node, self.path(p, "socket"))
        self.addCleanup(port.close)
        return node, port

    def end(self, node, port, *programs):
        """Ends a node, and gives what programs are told that wait there."""
        node.close()
        results = [it.result(20) for it in programs]
        port.close()
        return results

    def asked(self, p, *lines):
        """What a program is told at a node, once it is answered."""
        return self.programs.submit(told, self.path(p, "socket"), *lines)

    def play(self, process, p, *calls):
        """Makes calls at a node, one after another, and writes down what goes over its port."""

        def lines():
            for it in calls:
                row = {"process": process, "type": "invoke", **dict(zip(("f", "key", "value"), it))}
                self.rows.append(row)
                yield json.dumps(row).encode()

        for answer in answers(self.path(p, "socket"), lines()):
            self.rows.append({"process": process, **json.loads(answer)})

    def wait_for_a_call(self, node):
        end = time.monotonic() + 20
        while not node.so_far()[1]:
            self.assertLess(time.monotonic(), end)
            time.sleep(0.01)

    def test_what_goes_over_the_ports_can_be_judged(self):
        self.start(0), self.start(1)

        def calls(p):
            for k in range(0, 40, 4):
                value = 100 * p + k
                yield from (("write", "x", value), ("read", "x", None), ("cas", "x", [value, value + 1]),
                            ("swap", "x", value + 2))

        for it in [self.programs.submit(self.play, p, p, *calls(p)) for p in (0, 1)]:
            it.result(60)
        self.assertEqual((len(self.rows), {it["type"] for it in self.rows} - {"fail"}), (160, {"invoke", "ok"}))
        judged = judge(self.rows)
        self.assertTrue(judged, judged.text)
        # (nobody wrote that)
        self.play(0, 0, ("read", "x", None))
        self.rows[-1]["value"] += 1000
        self.assertFalse(judge(self.rows))

    def test_of_a_call_that_goes_on_when_the_node_ends_nobody_knows(self):
        here, other = self.start(0), self.start(1)
        self.play(0, 0, ("write", "x", 1))
        self.end(*other)
        program = self.programs.submit(self.play, 0, 0, ("write", "x", 2))
        self.wait_for_a_call(here[0])
        # (one that comes behind it is never called)
        behind = self.asked(0, call("read", "x", None))
        _, refused = self.end(*here, program, behind)
        self.assertEqual(self.rows[-1], {
            "process": 0, "type": "info", "f": "write", "key": "x", "value": 2, "error": "the node ends",
        })
        self.assertEqual(
            refused, ['{"type": "fail", "f": "read", "key": "x", "value": null, "error": "the node ends"}'])
        # it goes on where the node is resumed, and the next call waits for it, and has an answer of its own
        self.start(0, resume=True), self.start(1, resume=True)
        self.play(0, 0, ("swap", "x", 3))
        self.assertEqual(self.rows[-1]["value"], 2)
        self.play(1, 1, ("read", "x", None))
        judged = judge(self.rows)
        self.assertTrue(judged, judged.text)
        # that it failed is no answer, since its value was read
        self.rows[3]["type"] = "fail"
        self.assertFalse(judge(self.rows))

    def test_a_call_that_waited_did_nothing(self):
        refused = json.dumps({"type": "fail", "f": "cas", "key": "x", "value": [2, 3], "error": "the node ends"})
        here = self.start(0)
        waiting = self.asked(0, call("cas", "x", [2, 3]))  # until the other node is heard
        time.sleep(0.3)
        self.assertEqual(self.end(*here, waiting), [[refused]])
        here, other = self.start(0, resume=True), self.start(1)
        self.assertEqual(self.asked(0, "write x 1").result(20), ["done"])
        self.end(*other)
        earlier = self.asked(0, "write x 2")
        self.wait_for_a_call(here[0])
        self.assertEqual(self.end(*here, earlier), [["unknown: the node ends"]])
        here = self.start(0, resume=True)
        waiting = self.asked(0, call("cas", "x", [2, 3]))  # for the earlier one, which goes on
        time.sleep(0.3)
        self.assertEqual(here[0].so_far(), (2, True))
        self.assertEqual(self.end(*here, waiting), [[refused]])
        self.start(0, resume=True), self.start(1, resume=True)
        self.assertEqual(self.asked(0, "read x").result(20), ["value 2"])

    def test_a_node_that_finds_its_log_lost_called_nothing(self):
        here, other = self.start(0), self.start(1)
        self.asked(0, "write x 1").result(20)
        with open(self.path(0, "log"), "rb") as file:
            copy = file.read()
        self.asked(0, "write x 2").result(20)
        self.end(*here)
        with open(self.path(0, "log"), "wb") as file:
            file.write(copy)
        self.end(*other)
        self.start(0, resume=True)
        waiting = self.asked(0, call("write", "x", 3))
        time.sleep(0.3)
        self.start(1, resume=True)
        why = "the log was lost: process 1 accepted 2 bodies, and it has 1"
        failed = {"type": "fail", "f": "write", "key": "x", "value": 3, "error": why}
        self.assertEqual(waiting.result(20), [json.dumps(failed)])


if __name__ == "__main__":
    unittest.main()
