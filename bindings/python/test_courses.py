"""Tests of the course of a chapter, as `tellwydar.Node` tells it: python3 -m unittest, with TELLWYDAR_LIB set."""
import unittest

from tellwydar import Front, Node, Read, Refused, Write

GOT = bytes.fromhex("000a01020000000000000001")
ACK = bytes.fromhex("001301010000000000000000020000000000000002")


def node_of(process, processes=2):
    head = {"cluster": 7, "front": Front.LINEAR, "names": ["x", "y"], "begun": 12}
    node = Node.open(Node.begin(process=process, processes=processes, **head), 0)
    for other in range(processes):
        if other != process:
            node.hear(other, 0)
    return node


class Courses(unittest.TestCase):
    def test_a_chapter_behind_another_one(self):
        """The writer of an opening of one write, whose frame the other process acknowledges."""
        with node_of(0) as node:
            node.follow([0, 7], operations=3, entries=20, ahead=1)
            self.assertEqual((node.next_opening, node.is_opening(False), node.is_far_ahead), (Write(1, 7), True, False))
            node.call(node.next_opening)
            self.assertEqual((node.next_opening, node.calls, node.own_calls), (None, 1, 0))
            self.assertEqual((node.is_opening(True), node.is_far_ahead, node.is_ending), (True, True, False))
            node.take(1, GOT)
            node.take(1, ACK)
            self.assertEqual((node.is_opening(True), node.is_opening(False), node.is_far_ahead), (True, False, False))
            node.call(Read(1))
            self.assertEqual((node.calls, node.own_calls, node.is_opening(True)), (2, 1, False))
            self.assertEqual((node.is_ending, node.is_quiet(False)), (False, False))
            node.end()
            self.assertEqual((node.is_ending, node.is_quiet(True), node.is_quiet(False)), (True, False, True))

    def test_another_process_waits_for_the_opening(self):
        with node_of(1) as node:
            node.follow([0, 7], operations=3, entries=20, ahead=1)
            self.assertEqual((node.next_opening, node.is_opening(False), node.own_calls), (None, True, 0))

    def test_the_first_chapter_has_no_opening(self):
        with node_of(0) as node:
            node.follow([], operations=3, entries=20, ahead=1)
            self.assertEqual((node.next_opening, node.is_opening(False)), (None, False))
            node.call(Write(0, 5))
            self.assertEqual((node.own_calls, node.is_opening(True)), (1, False))

    def test_a_chapter_ends_with_its_room(self):
        for room, ending in (
            ({"operations": 2, "entries": 9}, (False, True, True)),
            ({"operations": 9, "entries": 3}, (False, False, True)),
        ):
            with node_of(0, 1) as node:
                node.follow([], ahead=5, **room)
                told = []
                for step in (lambda: node.call(Write(0, 5)), lambda: node.call(Write(0, 6)), node.tick):
                    step()
                    told.append(node.is_ending)
                self.assertEqual((tuple(told), node.is_quiet(False)), (ending, True))

    def test_what_is_refused(self):
        with node_of(0) as node:
            self.assertEqual((node.is_ending, node.own_calls, node.next_opening), (False, 0, None))
            with self.assertRaisesRegex(Refused, "closed"):
                node.end()
            with self.assertRaisesRegex(Refused, "no shape"):
                node.follow([0] * 4097, operations=3, entries=20, ahead=1)
            for values in ([-1], [1 << 64], [True]):
                with self.assertRaises((TypeError, ValueError)):
                    node.follow(values, operations=3, entries=20, ahead=1)


if __name__ == "__main__":
    unittest.main()
