"""Tests of the module: python3 -m unittest, with TELLWYDAR_LIB set."""
import contextlib
import copy
import os
import pickle
import random
import threading
import unittest

import tellwydar
from tellwydar import (
    UNEQUAL, Answered, Called, CompareAndSwap, Fault, Front, Known, Process, Read, Refused, Swap, World, Write,
)

EXAMPLES = os.path.join(os.path.dirname(os.path.abspath(__file__)), "../../examples")

# Of three processes under local reads: a write that is done, and behind it a read of another
# process that saw nothing of it.
STALE = [Called(0, 0, 0, Write(0, 5)), Answered(4, 0, 0, None), Called(5, 1, 0, Read(0)), Answered(5, 1, 0, 0)]


def fault_of(call, *given):
    try:
        call(*given)
    except Fault as fault:
        return str(fault)
    return None


class Tests(unittest.TestCase):
    def test_texts(self):
        with open(f"{EXAMPLES}/stale-read.sched", "rb") as file:
            told = tellwydar.replay(file.read())
        self.assertEqual((told.status, told.line), (0, b""))
        with open(f"{EXAMPLES}/stale-read.report", "rb") as file:
            self.assertEqual(tellwydar.check(file.read()), tellwydar.Told(0, b"serial yes\n", b""))
        self.assertEqual(tellwydar.check(told.answer), tellwydar.Told(0, b"serial yes\n", b""))
        self.assertEqual(tellwydar.play(b"").line, b"missing front\n")
        self.assertEqual(tellwydar.verify(b""), tellwydar.Told(1, b"", b"line 1: end\n"))
        self.assertRaises(TypeError, tellwydar.replay, "text")

    def test_a_record_is_put_into_order(self):
        head = b"tellwydar record 1\nfront linear\nprocesses 2\nregisters x\n"
        call, count = b"0 call write x 5\n", b"0 take 1 000a01020000000000000001\n"
        answer = b"0 take 1 001301010000000000000000020000000000000002 = done 0\n"
        other = b"1 take 0 001e010100000000000000000100000000000000010200000000000000000005\n"
        for steps in ([call, count, answer, other], [other, call, count, answer], [call, other, count, answer]):
            ordered = tellwydar.Told(0, head + call + other + count + answer, b"")
            self.assertEqual(tellwydar.merge(head + b"".join(steps)), ordered)
        self.assertEqual(tellwydar.merge(head + call + count), tellwydar.Told(1, b"", b"line 6: unfaithful\n"))
        self.assertEqual(tellwydar.merge(b""), tellwydar.Told(1, b"", b"line 1: end\n"))

    def test_handles_are_not_copied_and_threads_take_turns(self):
        with tellwydar.Process(tellwydar.Front.LOCAL_WRITE, 4, 1, 0) as one:
            for copied in (copy.copy, copy.deepcopy, pickle.dumps):
                self.assertRaises(TypeError, copied, one)
            told = []

            def work():
                for at in range(200):
                    one.call(tellwydar.Write(0, at))
                    told.extend(frame for _, frame in one.frames())
                    one.tick()

            threads = [threading.Thread(target=work) for _ in range(4)]
            for it in threads:
                it.start()
            for it in threads:
                it.join()
            self.assertEqual({len(frame) - 2 - int.from_bytes(frame[:2], "big") for frame in told}, {0})
        self.assertRaises(tellwydar.Refused, one.tick)

    def test_verdicts(self):
        serial = lambda *order: fault_of(tellwydar.check_serial, 3, 1, STALE, order)
        self.assertIsNone(serial((1, 0), (0, 0)))
        self.assertEqual(serial((0, 0), (1, 0)), "answer at 1")
        self.assertEqual(serial((1, 0)), "missing")
        self.assertEqual(serial((1, 0), (0, 0), (0, 0)), "twice")
        points = lambda *list: fault_of(tellwydar.check_points, 3, 1, STALE, list)
        self.assertEqual(points((1, 0, 5), (0, 0, 4)), "falling at 1")
        self.assertEqual(points((1, 0, 4), (0, 0, 4)), "outside at 0")
        self.assertEqual(points((0, 0, 4), (1, 0, 5)), "answer at 1")
        self.assertEqual(fault_of(tellwydar.check_serial, 1, 1, STALE, []), "out of place at 2")
        self.assertEqual(fault_of(tellwydar.check_serial, 0, 1, [], []), "no shape")
        self.assertRaises(ValueError, tellwydar.check_serial, 1, 1, [], [(256, 0)])

    def test_worlds(self):
        for front in Front:
            with World(front, 1, 1) as world:
                self.assertEqual(world.call(0, Swap(0, 2**64 - 1)).value, 0)
                self.assertEqual(world.call(0, Read(0)), tellwydar.Reply(2**64 - 1, 1))
                self.assertEqual(world.history()[3], Answered(1, 0, 1, 2**64 - 1))
                self.assertEqual(world.serial_order(), [(0, 0), (0, 1)])
                self.assertEqual(world.points(), [(0, 0, 0), (0, 1, 1)] if front == Front.LINEAR else [])
                with self.assertRaisesRegex(Refused, "no process"):
                    world.tick(1)
                self.assertEqual(world.events, 2)
            self.assertRaisesRegex(Refused, "closed", world.tick, 0)
        self.assertRaisesRegex(Refused, "no shape", World, Front.LINEAR, 65, 1)
        self.assertRaises(ValueError, World, 3, 1, 1)
        self.assertRaises(ValueError, World, Front.LINEAR, -1, 1)

    def test_comparisons(self):
        for front in Front:
            with World(front, 1, 1) as world:
                self.assertEqual(world.call(0, CompareAndSwap(0, 0, 5)), tellwydar.Reply(None, 0))
                self.assertEqual(world.call(0, CompareAndSwap(0, 0, 2**64 - 1)), tellwydar.Reply(UNEQUAL, 1))
                self.assertEqual(world.history()[2:], [Called(1, 0, 1, CompareAndSwap(0, 0, 2**64 - 1)),
                                                       Answered(1, 0, 1, UNEQUAL)])
                tellwydar.check_serial(1, 1, world.history(), world.serial_order())
                with self.assertRaisesRegex(Refused, "no register"):
                    world.call(0, CompareAndSwap(1, 0, 5))
        history = [Called(0, 0, 0, CompareAndSwap(0, 0, 5)), Answered(1, 0, 0, None),
                   Called(2, 1, 0, CompareAndSwap(0, 5, 6)), Answered(3, 1, 0, UNEQUAL)]
        self.assertEqual(fault_of(tellwydar.check_serial, 2, 1, history, [(0, 0), (1, 0)]), "answer at 1")
        self.assertEqual(fault_of(tellwydar.check_points, 2, 1, history, [(0, 0, 0), (1, 0, 2)]), "answer at 1")
        self.assertRaises(ValueError, tellwydar.check_serial, 2, 1, [Called(0, 0, 0, CompareAndSwap(0, -1, 5))], [])
        cast = bytes.fromhex(
            "00260401" + "0" * 16 + "01" + "0" * 14 + "01" + "04" + "0000" + "0" * 16 + "0" * 14 + "05")
        with Process(Front.LINEAR, 2, 1, 0) as writer:
            self.assertIsNone(writer.call(CompareAndSwap(0, 0, 5)))
            self.assertEqual(writer.frames(), [(1, cast)])

    def test_processes(self):
        # A write of the value 5 by the first of two processes: its cast, and what the other one
        # answers, as worked by hand.
        cast = bytes.fromhex("001e0101" + "0" * 16 + "01" + "0" * 14 + "01" + "02" + "0000" + "0" * 14 + "05")
        got = bytes.fromhex("000a0102" + "0" * 14 + "01")
        ack = bytes.fromhex("00130101" + "0" * 16 + "02" + "0" * 14 + "02")
        with Process(Front.LINEAR, 2, 1, 0) as writer, Process(Front.LINEAR, 2, 1, 1) as other:
            self.assertEqual(writer.frames(), [])
            self.assertIsNone(writer.call(Write(0, 5)))
            self.assertEqual(writer.frames(), [(1, cast)])
            self.assertEqual((writer.busy, writer.pending, writer.known(1)), (True, 1, Known(0, 1, 0, 0)))
            for bad in (b"", ack[:-1], ack + b"0", b"\xff" * 32):
                self.assertRaisesRegex(Refused, "not a frame", writer.take, 1, bad)
            self.assertEqual(writer.frames(), [(1, cast)])
            self.assertRaisesRegex(Refused, "busy", writer.call, Read(0))
            self.assertEqual(writer.frames(), [])
            writer.tick()
            self.assertEqual(writer.frames(), [(1, cast)])
            self.assertIsNone(other.take(0, cast))
            self.assertEqual(other.frames(), [(0, got), (0, ack)])
            self.assertEqual((other.register(0), other.clock, other.delivered), (5, 2, 1))
            self.assertIsNone(writer.take(1, got))
            self.assertEqual(writer.take(1, ack), tellwydar.Reply(None, 0))
            self.assertEqual(writer.frames(), [(1, got)])
            self.assertEqual((writer.busy, writer.pending, writer.clock, writer.unsettled), (False, 0, 3, 0))
            self.assertRaisesRegex(Refused, "no process", writer.take, 0, got)
        self.assertRaisesRegex(Refused, "closed", writer.tick)
        self.assertRaisesRegex(Refused, "no process", Process, Front.LINEAR, 2, 1, 2)
        self.assertRaisesRegex(Refused, "no shape", Process, Front.LINEAR, 65, 1, 0)

    def test_processes_are_a_world(self):
        """Processes that take what a world's take do what it does."""
        for front in Front:
            words, n = random.Random(front), 3
            with World(front, n, 2) as world, contextlib.ExitStack() as stack:
                processes = [stack.enter_context(Process(front, n, 2, me)) for me in range(n)]
                wires = [[[] for _ in range(n)] for _ in range(n)]
                for _ in range(2000):
                    me, sender, register = words.randrange(n), words.randrange(n), words.randrange(2)
                    event = words.choice(["call", "tick", "take", "take", "take"])
                    if event == "call":
                        op = words.choice([
                            Read(register), Write(register, words.getrandbits(64)),
                            Swap(register, words.getrandbits(64)),
                            CompareAndSwap(register, words.randrange(2), words.randrange(2)),
                        ])
                        steps = [lambda: world.call(me, op), lambda: processes[me].call(op)]
                    elif event == "tick":
                        steps = [lambda: world.tick(me), processes[me].tick]
                    elif wires[sender][me]:
                        place = words.randrange(max(0, len(wires[sender][me]) - 6), len(wires[sender][me]))
                        steps = [lambda: world.take(sender, me, place),
                                 lambda: processes[me].take(sender, wires[sender][me][place])]
                    else:
                        continue
                    told = []
                    for step in steps:
                        try:
                            told.append(step())
                        except Refused as refused:
                            told.append(str(refused))
                    self.assertEqual(*told)
                    for receiver, frame in processes[me].frames():
                        wires[me][receiver].append(frame)
                self.assertGreater(sum(it.delivered for it in processes), 20)


if __name__ == "__main__":
    unittest.main()
