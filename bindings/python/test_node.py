"""Tests of `tellwydar.Node`: python3 -m unittest, with TELLWYDAR_LIB set. TELLWYDAR_SEEDS says how many clusters are
simulated, 200 if it isn't set."""
import copy
import os
import pickle
import random
import string
import threading
import unittest

import tellwydar
from tellwydar import (
    UNEQUAL, CompareAndSwap, Front, LogHead, Look, Node, Process, Read, Refused, Swap, Write, first_entries,
)

SEEDS = int(os.environ.get("TELLWYDAR_SEEDS", "200"))
NAMES = ["x", "y"]

# The log of a writer, as docs/FORMATS.md has it: its head, and an entry for its call and for each of two takes.
HEAD = (
    b"e009c6ff tellwydar log 1\n69771c8e cluster 7\nded1c05f process 0\n91ba8d59 chapter 0\nb56a2825 begun 12\n"
    b"2f99698f tellwydar record 1\n95118964 front linear\nc2025397 processes 2\ndc21685e registers x\n"
)
CALLED = b"fbc16c9f 0 call write x 5\n"
COUNTED = b"92e249cb 0 take 1 000a01020000000000000001\n"
DONE = b"b9d266ce 0 take 1 001301010000000000000000020000000000000002 = done 0\n"
GOT = bytes.fromhex("000a01020000000000000001")
ACK = bytes.fromhex("001301010000000000000000020000000000000002")
CAST = bytes.fromhex("001e010100000000000000000100000000000000010200000000000000000005")
OF_WRITER = {"cluster": 7, "process": 0, "front": Front.LINEAR, "processes": 2, "names": ["x"], "begun": 12}


def refusal(call, *given):
    """Why a call is refused."""
    try:
        call(*given)
    except Refused as refused:
        return str(refused)
    return None


def looked(node, looks=500):
    """Of so many looks at process 1, those at which it is to be greeted, and those at which the node is to tick."""
    made = [(it, node.watch(1)) for it in range(1, looks + 1)]
    return [it for it, look in made if look.greets], [it for it, look in made if look.ticks]


def frames_of(node):
    """All frames that go out of its steps."""
    node.mark_durable(node.logged)
    return [frame for output in iter(node.hand_out, None) for _, frame in output.frames]


def exchange(one, other, lost=0):
    """Process 1 takes what process 0 put, but for the first frames, which are lost; and process
    0 what then comes back."""
    for frame in frames_of(one)[lost:]:
        other.take(0, frame)
    for frame in frames_of(other):
        one.take(1, frame)


class OneNode(unittest.TestCase):
    def test_the_head(self):
        for behind in (b"", CALLED, b"fb", b"\0\0"):
            self.assertEqual(Node.head(HEAD + behind), LogHead(7, 0, Front.LINEAR, 2, ("x",), 12, 0))
        for length in range(len(HEAD)):
            self.assertIsNone(Node.head(HEAD[:length]))
        # (more names than a short head has bytes)
        names = tuple(letter * 15 + end for letter in string.ascii_lowercase for end in "xy")
        other = LogHead((1 << 64) - 1, 63, Front.LOCAL_WRITE, 64, names, 0, 5)
        self.assertEqual(Node.head(Node.begin(**other._asdict())), other)

    def test_the_first_entries(self):
        log = HEAD + CALLED + COUNTED
        self.assertEqual([first_entries(log + DONE[:9], it) for it in range(3)], [HEAD, HEAD + CALLED, log])
        with self.assertRaises(ValueError):
            first_entries(log, -1)

    def test_the_beginning(self):
        self.assertEqual(Node.begin(**OF_WRITER), HEAD)
        for names, error in (
            ("x", TypeError), ([b"x"], TypeError), ([1], TypeError), ([""], ValueError), (["X"], ValueError),
            (["x y"], ValueError), (["x\n"], ValueError), (["x", "x"], ValueError), (["a" * 17], ValueError),
        ):
            with self.assertRaises(error):
                Node.begin(**{**OF_WRITER, "names": names})
        for key, value, error in (
            ("cluster", True, TypeError), ("cluster", -1, ValueError), ("begun", 1 << 64, ValueError),
            ("process", 256, ValueError), ("front", 3, ValueError),
        ):
            with self.assertRaises(error):
                Node.begin(**{**OF_WRITER, key: value})
        for key, value, why in (
            ("process", 2, "no process"), ("processes", 65, "no shape"), ("names", [], "bad names"),
        ):
            self.assertEqual(refusal(lambda: Node.begin(**{**OF_WRITER, key: value})), why)

    def test_nothing_goes_out_before_it_is_durable(self):
        node = Node.open(HEAD, 0)
        self.assertEqual((node.logged, node.whole, node.has_heard_all), (0, len(HEAD), False))
        self.assertEqual(refusal(node.call, Write(0, 5)), "unheard")
        node.hear(1, 0)
        self.assertEqual(node.call(Write(0, 5)), CALLED)
        self.assertEqual((node.logged, node.durable, node.hand_out()), (1, 0, None))
        self.assertEqual(refusal(node.mark_durable, 2), "not logged")
        node.mark_durable(1)
        self.assertEqual(node.hand_out(), tellwydar.Output([(1, CAST)], None))
        self.assertIsNone(node.hand_out())
        self.assertEqual(refusal(node.call, Read(0)), "busy")
        self.assertEqual(refusal(node.take, 1, b"no frame"), "not a frame")
        self.assertEqual((node.take(1, GOT), node.take(1, ACK), node.hand_out()), (COUNTED, DONE, None))
        node.mark_durable(3)
        self.assertEqual(node.hand_out(), tellwydar.Output([], None))
        self.assertEqual(node.hand_out(), tellwydar.Output([(1, GOT)], tellwydar.Reply(None, 0)))
        self.assertEqual((node.register(0), node.accepted(1), node.busy, node.is_stopped), (5, 1, False, False))

    def test_a_log_that_was_torn_or_damaged(self):
        log = HEAD + CALLED + COUNTED + DONE
        torn = log[:-5]
        node = Node.open(torn, 2)
        self.assertEqual((node.logged, torn[: node.whole]), (2, HEAD + CALLED + COUNTED))
        self.assertEqual(refusal(Node.open, torn, 3), "entry 2: damaged")
        changed = log.replace(b"write x 5", b"write x 6")
        self.assertEqual(refusal(Node.open, changed, 1), "entry 0: damaged")
        self.assertEqual(Node.open(changed, 0).logged, 0)
        self.assertEqual(refusal(Node.open, b"", 0), "line 1: not a log")
        self.assertEqual(refusal(Node.open, HEAD + b"ea782da5 1 call read x\n", 0), "entry 0: of another process")
        twice = HEAD + b"37eef420 0 call read x\nbee94b51 0 call read x\n"
        self.assertEqual(refusal(Node.open, twice, 0), "entry 1: no step")

    def test_a_log_that_was_lost(self):
        node = Node.open(HEAD, 0)
        self.assertEqual(refusal(node.hear, 1, 1), "log lost")
        self.assertTrue(node.is_stopped)
        self.assertEqual([refusal(node.tick), refusal(node.hear, 1, 0)], ["log lost"] * 2)

    def test_pauses_grow(self):
        node = Node.open(HEAD, 0)
        self.assertEqual(looked(node), ([1, 3, 7, 15, 31, 63, 127, 227, 327, 427], []))
        self.assertEqual((node.has_heard(1), node.is_long_silent(1)), (False, True))
        node.hear(1, 0)
        self.assertEqual(looked(node), ([], []))
        self.assertEqual((node.has_heard(1), node.is_long_silent(1)), (True, False))
        node.call(Write(0, 5))
        self.assertEqual(looked(node), ([128, 228, 328, 428], [2, 4, 8, 16, 32, 64]))
        # The first frame is acknowledged, and another one waits.
        node.take(1, GOT)
        node.take(1, ACK)
        node.call(Write(0, 5))
        self.assertEqual(looked(node), ([128, 228, 328, 428], [2, 4, 8, 16, 32, 64]))
        # Of the own process and of one that isn't there nothing is due.
        self.assertEqual({node.watch(peer) for peer in (0, 2, 255) for _ in range(500)}, {Look(False, False)})
        self.assertEqual([node.is_long_silent(peer) for peer in (0, 2)], [False, False])

    def test_who_was_silent_for_long_is_looked_at_anew_once_something_came(self):
        node = Node.open(HEAD, 0)
        node.hear(1, 0)
        node.call(Write(0, 5))
        self.assertEqual(looked(node)[0], [128, 228, 328, 428])
        self.assertFalse(node.came(1))
        self.assertEqual(looked(node, 126), ([], [1, 3, 7, 15, 31, 63]))
        self.assertFalse(node.came(1))  # it isn't silent for long yet
        self.assertEqual(looked(node, 1), ([1], []))
        node.take(1, GOT)
        self.assertEqual(looked(node), ([], []))

    def test_what_was_dropped_behind_a_lost_frame_is_put_again_as_it_is_acknowledged(self):
        about = {**OF_WRITER, "front": Front.LOCAL_WRITE}
        writer, other = (Node.open(Node.begin(**{**about, "process": it}), 0) for it in range(2))
        writer.hear(1, 0)
        other.hear(0, 0)
        for value in range(50):
            writer.call(Write(0, value))
        exchange(writer, other, lost=1)
        self.assertEqual((writer.came(1), writer.pending), (False, 50))
        self.assertEqual(looked(writer, 2), ([], [2]))
        left, is_due = [], True
        while is_due:
            writer.tick()
            exchange(writer, other)
            is_due = writer.came(1)
            left.append(writer.pending)
        self.assertEqual(left, [34, 18, 2, 0])

    def test_a_node_has_one_owner(self):
        node = Node.open(HEAD, 0)
        for way in (copy.copy, copy.deepcopy, pickle.dumps):
            self.assertRaises(TypeError, way, node)
        said = []

        def ask():
            try:
                node.tick()
            except RuntimeError as error:
                said.append(str(error))

        other = threading.Thread(target=ask)
        other.start()
        other.join()
        self.assertEqual((said, node.logged), (["a node is used by the thread that opened it alone"], 0))
        self.assertRaises(TypeError, node.mark_durable, True)
        self.assertRaises(TypeError, node.call, Write(0, True))
        self.assertRaises(ValueError, node.call, Write(0, -1))
        self.assertRaises(TypeError, node.take, 1, "frame")
        node.close()
        self.assertEqual(refusal(node.tick), "closed")

    def test_a_node_that_is_guarded_is_shared(self):
        node = Node.open(HEAD, 0, guarded=True)
        other = threading.Thread(target=node.tick)
        other.start()
        other.join()
        self.assertEqual((node.logged, node.delivered), (1, 0))


class Disk:
    """A log as a crash leaves it: what was synced, and of the rest a random part."""

    def __init__(self, text):
        self.text, self.synced, self.told = text, len(text), 0

    def crash(self, chance):
        self.text = self.text[: chance.randint(self.synced, len(self.text))]


class Cluster:
    """Three nodes in memory, whose frames are lost, repeated and reordered, and which crash."""

    def __init__(self, seed):
        self.chance, self.wire, self.replies = random.Random(seed), [], []
        self.front = Front(seed % 3)
        about = {"cluster": seed, "front": self.front, "processes": 3, "names": NAMES, "begun": seed}
        self.disks = [Disk(Node.begin(process=me, **about)) for me in range(3)]
        self.nodes = [Node.open(disk.text, 0) for disk in self.disks]

    def meet(self, one, other):
        """Two nodes say how many bodies they accepted from each other."""
        self.nodes[one].hear(other, self.nodes[other].accepted(one))
        self.nodes[other].hear(one, self.nodes[one].accepted(other))

    def step(self, me, make, *given):
        """A step of a node, whose bytes are written but not yet durable; or why there is none."""
        try:
            self.disks[me].text += make(*given)
        except Refused as refused:
            return str(refused)
        return None

    def call(self, me):
        register, value = self.chance.randrange(2), self.chance.randrange(4)
        expected = self.chance.randrange(4)
        ops = Read(register), Write(register, value), Swap(register, value), CompareAndSwap(register, expected, value)
        return self.step(me, self.nodes[me].call, self.chance.choice(ops))

    def deliver(self):
        """One frame is taken, and maybe lost or kept to be taken again."""
        if not self.wire:
            return
        place, fate = self.chance.randrange(len(self.wire)), self.chance.random()
        sender, receiver, frame = self.wire[place] if fate < 0.2 else self.wire.pop(place)
        if fate < 0.8:
            self.step(receiver, self.nodes[receiver].take, sender, frame)

    def sync(self, me):
        disk, node = self.disks[me], self.nodes[me]
        disk.synced, disk.told = len(disk.text), node.logged
        node.mark_durable(disk.told)

    def hand_out(self, me):
        output = self.nodes[me].hand_out()
        if output is not None:
            self.wire += [(me, receiver, frame) for receiver, frame in output.frames]
            self.replies += [(me, output.reply)] if output.reply else []
        return output is not None

    def crash(self, me):
        disk = self.disks[me]
        disk.crash(self.chance)
        self.nodes[me].close()
        self.nodes[me] = Node.open(disk.text, disk.told)
        disk.text = disk.text[: self.nodes[me].whole]
        self.sync(me)

    def event(self):
        kind, me, other = self.chance.random(), self.chance.randrange(3), self.chance.randrange(3)
        if kind < 0.15:
            self.call(me)
        elif kind < 0.45:
            self.deliver()
        elif kind < 0.55:
            self.step(me, self.nodes[me].tick)
        elif kind < 0.7:
            self.sync(me)
        elif kind < 0.9:
            self.hand_out(me)
        elif kind < 0.97:
            if me != other:
                self.meet(me, other)
        else:
            self.crash(me)

    def is_at_rest(self):
        return not self.wire and not any(
            node.busy or node.pending or node.durable < node.logged for node in self.nodes
        )

    def settle(self):
        """All meet, and all frames arrive in the end."""
        for one, other in ((0, 1), (0, 2), (1, 2)):
            self.meet(one, other)
        for _ in range(100):
            if self.is_at_rest():
                return
            for me, node in enumerate(self.nodes):
                if node.pending:
                    self.step(me, node.tick)
                self.sync(me)
                while self.hand_out(me):
                    pass
            for sender, receiver, frame in self.wire:
                self.step(receiver, self.nodes[receiver].take, sender, frame)
            self.wire = []
        raise AssertionError("the cluster doesn't come to rest")


def entries_of(log):
    """The lines of a log's entries, without their seals."""
    return [line[9:] for line in log.split(b"\n")[9:-1]]


def merged(cluster):
    """The steps of all logs in one order, in which no frame is taken before it was put."""
    processes = [Process(cluster.front, 3, 2, me) for me in range(3)]
    left = [entries_of(disk.text) for disk in cluster.disks]
    put, order, goes_on = set(), [], True
    while goes_on:
        goes_on = False
        for me, process in enumerate(processes):
            while left[me]:
                words = left[me][0].decode().split(" = ")[0].split(" ")
                if words[1] == "take" and (int(words[2]), me, words[3]) not in put:
                    break
                redo(process, words)
                put |= {(me, receiver, frame.hex()) for receiver, frame in process.frames()}
                order.append(left[me].pop(0))
                goes_on = True
    return order, left


def redo(process, words):
    """Makes the step that an entry's words say."""
    if words[1] == "take":
        process.take(int(words[2]), bytes.fromhex(words[3]))
    elif words[1] == "tick":
        process.tick()
    else:
        kinds = {"read": Read, "write": Write, "swap": Swap, "cas": CompareAndSwap}
        process.call(kinds[words[2]](NAMES.index(words[3]), *map(int, words[4:])))


def told_text(reply):
    answer = "done" if reply.value is None else "unequal" if reply.value is UNEQUAL else f"value {reply.value}"
    return f" = {answer} {reply.place}".encode()


class Clusters(unittest.TestCase):
    def judge(self, cluster):
        order, left = merged(cluster)
        self.assertEqual(left, [[], [], []], "a frame was taken that no step put")
        front = ("linear", "local-read", "local-write")[cluster.front]
        head = f"tellwydar record 1\nfront {front}\nprocesses 3\nregisters x y\n".encode()
        report = tellwydar.verify(head + b"".join(line + b"\n" for line in order))
        self.assertEqual((report.status, report.line), (0, b""))
        self.assertEqual(tellwydar.check(report.answer).status, 0)
        for me in range(3):
            told = [told_text(reply) for sender, reply in cluster.replies if sender == me]
            logged = [line[line.index(b" = "):] for line in entries_of(cluster.disks[me].text) if b" = " in line]
            rest = iter(logged)
            self.assertTrue(all(any(reply == line for line in rest) for reply in told), "a reply is in no log")

    def test_clusters_that_lose_frames_and_crash(self):
        replies = 0
        for seed in range(SEEDS):
            with self.subTest(seed=seed):
                cluster = Cluster(seed)
                for _ in range(cluster.chance.choice((60, 200, 600))):
                    cluster.event()
                cluster.settle()
                self.assertFalse(any(node.is_stopped for node in cluster.nodes))
                self.judge(cluster)
                replies += len(cluster.replies)
        self.assertGreater(replies, SEEDS)


if __name__ == "__main__":
    unittest.main()
