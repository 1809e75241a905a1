"""Tests of clusters that go on in chapters: python3 -m unittest, with TELLWYDAR_LIB set."""
import os
import tempfile
import threading
import unittest

from tellwydar import Front, Node as LoggedNode, Refused, check, story
from tellwydar.net import LossyRoad, Node, core, judge
from tellwydar.net.room import Room, room_of
from test_net import free_addresses
from test_node_programs import COUNT, CALLS, RUST, YES, Cluster, wait_until

REPORT = """awreg report 2
front linear
processes 1
registers 2
x
y
history {count}
{history}order {order}
{ids}points {order}
{points}end
"""


def report(*operations):
    """The report of one process that writes these values to registers, one after another."""
    history = "".join(
        f"{at:>8}  p0    #{at:<6}  call    write {name} {value}\n{at:>8}  p0    #{at:<6}  answer  done\n"
        for at, (name, value) in enumerate(operations)
    )
    ids = "".join(f"p0 #{at}\n" for at in range(len(operations)))
    points = "".join(f"p0 #{at} at {at}\n" for at in range(len(operations)))
    text = REPORT.format(count=2 * len(operations), history=history, order=len(operations), ids=ids, points=points)
    return text.encode()


def state(quiet, at_rest, put, accepted):
    """The bytes of a state, by hand."""
    return bytes([quiet + 2 * at_rest]) + b"".join(it.to_bytes(8, "big") for it in (put, *accepted))


class States(unittest.TestCase):
    def node(self, processes):
        log = LoggedNode.begin(cluster=7, process=0, front=Front.LINEAR, processes=processes, names=["x"], begun=12)
        node = LoggedNode.open(log, 0)
        self.addCleanup(node.close)
        return node

    def test_they_are_read_as_they_were_told(self):
        node = self.node(3)
        self.assertEqual(node.tell_state(False), state(False, True, 0, (0, 0, 0)))
        self.assertEqual(node.tell_state(True), state(True, True, 0, (0, 0, 0)))
        for told in (state(True, False, 2**48, (0, 7, 2**40)), state(False, True, 0, (1, 2, 3))):
            node.hear_state(1, told)
            for bad in (told[:-8], told[:-1], b"\4" + told[1:], b""):
                with self.assertRaisesRegex(Refused, "no state"):
                    node.hear_state(1, bad)
        with self.assertRaisesRegex(Refused, "no process"):
            node.hear_state(3, state(True, True, 0, (0, 0, 0)))

    def test_a_chapter_is_over_only_where_each_number_is_read_as_it_was_told(self):
        put = [2**48, 7, 2**40 + 1]
        numbers = [[0, 7, 2**40 + 1], [2**48, 0, 2**40 + 1], [2**48, 7, 0]]

        def is_over():
            node = self.node(3)
            for it in range(3):
                node.hear_state(it, state(True, True, put[it], numbers[it]))
            return node.is_over

        self.assertTrue(is_over())
        for process, of in ((0, 1), (0, 2), (1, 0), (1, 2), (2, 0), (2, 1)):
            was = numbers[process][of]
            for other in (0, 1, was + 1, int.from_bytes(was.to_bytes(8, "little"), "big")):
                numbers[process][of] = other
                self.assertFalse(is_over(), (process, of, other))
            numbers[process][of] = was
        for process in range(3):
            put[process] += 1
            self.assertFalse(is_over(), process)
            put[process] -= 1

    def test_the_later_one_counts_in_whatever_order_they_come(self):
        last = state(True, True, 1, (0, 1))
        for earlier in (state(False, True, 0, (0, 0)), state(False, False, 1, (0, 0)), state(True, False, 1, (0, 1))):
            for told in ((earlier, last), (last, earlier)):
                node = self.node(2)
                node.hear_state(1, state(True, True, 1, (1, 0)))
                for it in told:
                    node.hear_state(0, it)
                self.assertTrue(node.is_over, told)

    def test_a_chapter_is_over_where_all_is_accepted(self):
        first, second = state(True, True, 2, (0, 1)), state(True, True, 1, (2, 0))
        node = self.node(2)
        node.hear_state(0, first)
        self.assertFalse(node.is_over)
        node.hear_state(1, second)
        self.assertTrue(node.is_over)
        for other in (state(False, True, 1, (2, 0)), state(True, False, 1, (2, 0)), state(True, True, 1, (1, 0)),
                      state(True, True, 2, (2, 0))):
            node = self.node(2)
            node.hear_state(0, first)
            node.hear_state(1, other)
            self.assertFalse(node.is_over, other)


class Rooms(unittest.TestCase):
    def refused(self, why, *given):
        with self.assertRaises(ValueError) as told:
            room_of(*given)
        self.assertEqual(str(told.exception), why)

    def test_they_are_as_worked_by_hand(self):
        # 13 entries an operation, so 39 for one of each process; 262,144 / 39 = 6,721
        self.assertEqual(room_of(3, 2, None, None), Room(65_000, 262_144, 6_721))
        self.assertEqual(room_of(1, 1, None, None), Room(65_000, 786_432, 262_144))
        # 8,065 entries an operation, and 516,160 for one of each process
        self.assertEqual(room_of(64, 2, None, None), Room(65_000, 8_319, 1))
        self.refused("with 64 processes and 66 registers a chapter needs 540355 entries to begin, and has 532416",
                     64, 66, None, None)
        for entries in (39, 1_048_537):
            self.assertEqual(room_of(3, 2, None, entries).entries, entries // 3)
        for entries in (38, 1_048_538):
            self.refused(f"chapter_entries is {entries}; with 3 processes and 2 registers it can be 39 to 1048537",
                         3, 2, None, entries)
        for operations in (3, 65_535):
            self.assertEqual(room_of(3, 2, operations, None).operations, operations)
        for operations in (2, 65_536):
            self.refused(f"chapter_operations is {operations}; with 2 registers it can be 3 to 65535",
                         3, 2, operations, None)


def told_of(reports):
    """What the library tells of these reports, one behind another."""
    told = story(b"".join(reports))
    return told.status, (told.answer + told.line).decode()


def one_story(reports):
    """What it tells where they are one story."""
    return 0, f"one story of {len(reports)} chapters\n"


class Stories(unittest.TestCase):
    def accepted(self, *reports):
        self.assertEqual(told_of(reports), one_story(reports))

    def refused(self, why, *reports):
        self.assertEqual(told_of(reports), (1, why + "\n"))

    def unopened(self, number, id, wanted, *reports):
        self.refused(f"report {number}: {id} should be {wanted}, with which the chapter before ended", *reports)

    def test_a_comparison_counts_where_it_found_its_value(self):
        history = "".join(f"{at:>8}  p0    #{at // 2:<6}  {what}\n" for at, what in enumerate([
            "call    cas x 0 5", "answer  done", "call    cas x 0 6", "answer  unequal",
            "call    swap y 3", "answer  value 0", "call    cas y 3 4", "answer  done",
            "call    read x", "answer  value 5"]))
        order = "".join(f"p0 #{at}\n" for at in range(5))
        text = REPORT.format(count=10, history=history, order=5, ids=order, points="")
        first = text.replace("awreg report 2", "awreg report 3").replace("points 5\n", "").encode()
        self.accepted(first, report(("x", 5), ("y", 4)))
        self.unopened(1, "p0 #0", "write x 5", first, report(("x", 6), ("y", 4)))

    def test_reports_by_hand_are_accepted_by_check(self):
        self.assertEqual(check(report(("x", 5), ("y", 6))).answer, b"serial yes\npoints yes\n")

    def test_what_a_chapter_ends_with_is_written_first_in_the_next(self):
        first = report(("x", 5), ("y", 6), ("x", 7))
        self.accepted(first, report(("x", 7), ("y", 6), ("x", 8)), report(("x", 8), ("y", 6)))
        self.unopened(1, "p0 #0", "write x 7", first, report(("x", 5), ("y", 6)))
        self.unopened(1, "p0 #1", "write y 6", first, report(("x", 7), ("x", 6)))
        self.unopened(2, "p0 #0", "write x 7", first, report(("x", 7), ("y", 6)), report(("y", 6), ("x", 7)))
        other = report(("x", 7), ("y", 6)).replace(b"\ny\n", b"\nz\n").replace(b" y ", b" z ")
        self.refused("report 1: other registers", first, other)

    def test_a_chapter_that_ended_while_it_was_opened_has_nothing_else(self):
        first = report(("x", 5), ("y", 6))
        self.accepted(first, report(("x", 5)))
        self.accepted(first, report())
        called = report(("x", 5)).replace(b"history 2", b"history 1")
        called = called.replace(b"       0  p0    #0       answer  done\n", b"")
        called = called.replace(b"order 1\np0 #0\npoints 1\np0 #0 at 0\n", b"order 0\npoints 0\n")
        self.assertEqual(check(called).answer, b"serial yes\npoints yes\n")
        self.accepted(first, called)
        self.unopened(1, "p0 #0", "write x 5", first, report(("y", 6)))

    def test_only_the_last_chapter_may_have_a_part_of_its_opening(self):
        first, part = report(("x", 5), ("y", 6)), report(("x", 5))
        self.unopened(1, "p0 #1", "write y 6", first, part, part)
        self.unopened(1, "p0 #0", "write x 5", first, report(), first)

    def test_a_register_that_is_0_is_not_written(self):
        self.accepted(report(("x", 5), ("x", 0), ("y", 6)), report(("y", 6)))

    def test_what_comes_before_the_opening_is_refused(self):
        history = "       0  p0    #0       call    write x 5\n       1  p0    #0       answer  done\n"
        other = "       2  p1    #0       call    write y 1\n       3  p1    #0       answer  done\n"

        def of_two(count, history, order, ids):
            text = REPORT.format(count=count, history=history, order=order, ids=ids, points="")
            return text.replace("processes 1", "processes 2").replace(f"points {order}\n", "").encode()

        first = of_two(2, history, 1, "p0 #0\n")
        self.accepted(first, of_two(4, history + other, 2, "p0 #0\np1 #0\n"))
        text = of_two(4, history + other, 2, "p1 #0\np0 #0\n")
        self.assertEqual(check(text).answer, b"serial yes\n")
        self.refused("report 1: p0 #0 should be number 0 of the order", first, text)

    def test_what_check_refuses_is_no_chapter(self):
        text = report(("x", 5), ("y", 6)).replace(b"p0 #0\np0 #1\n", b"p0 #1\np0 #0\n")
        self.refused("report 1: serial no: own order", report(("x", 5)), text)

    def test_what_is_no_report_is_told_by_its_line(self):
        first = report(("x", 5))
        self.refused("line 1: end")
        self.refused(f"line {first.count(10) + 1}: end", first, b"no report\n")


class Clusters(unittest.TestCase):
    def setUp(self):
        self.folder, self.said = tempfile.TemporaryDirectory(), []

    def tearDown(self):
        self.folder.cleanup()

    def path(self, p, chapter):
        return os.path.join(self.folder.name, f"{p}.log" + (f".{chapter}" if chapter else ""))

    def reports(self, count):
        """The report of each chapter that all nodes have begun."""
        found, chapter = [], 0
        while all(os.path.exists(self.path(p, chapter)) for p in range(count)):
            found.append(judge.judge([self.path(p, chapter) for p in range(count)], self.said.append))
            chapter += 1
        return found

    def play(self, front, count, calls, lossy=None):
        addresses, answers = free_addresses(count), {}
        of = {"cluster": 7, "say": self.said.append, "lossy": lossy, "chapter_operations": 8}
        nodes = [Node(front, ["x", "y"], p, addresses, None, self.path(p, 0), **of) for p in range(count)]

        def perform(p):
            for k in range(calls):
                nodes[p].write("xy"[k % 2], p * 1000 + k + 1, 60)
                answers[p, k] = nodes[p].read("xy"[k % 2], 60)

        threads = [threading.Thread(target=perform, args=(p,)) for p in range(count)]
        for it in threads:
            it.start()
        for it in threads:
            it.join()
        for it in nodes:
            it.close()
        return answers

    def test_a_cluster_goes_on_in_chapters(self):
        for front in core.FRONTS:
            answers = self.play(front, 3, 20)
            self.assertEqual(len(answers), 60)
            reports = self.reports(3)
            # 120 operations, at most 9 of a process in a chapter
            self.assertGreaterEqual(len(reports), 5)
            self.assertEqual(told_of(reports), one_story(reports))
            for text in reports:
                self.assertEqual(check(text).answer, YES[front])
            self.tearDown()
            self.setUp()

    def test_one_node_alone(self):
        answers = self.play("linear", 1, 20)
        self.assertEqual([answers[0, k] for k in range(20)], list(range(1, 21)))
        reports = self.reports(1)
        self.assertEqual(told_of(reports), one_story(reports))

    def test_over_a_road_that_loses_repeats_and_reorders(self):
        self.play("local-read", 3, 12, lambda road: LossyRoad(road, 3, 0.2, 0.1, 0.2, 0.001))
        reports = self.reports(3)
        self.assertEqual(told_of(reports), one_story(reports))


class Programs(unittest.TestCase):
    def test_a_node_that_was_killed_resumes_in_its_chapter(self):
        self.play(())

    @unittest.skipUnless(RUST, "TELLWYDAR_NODE names no program")
    def test_nodes_of_both_languages_go_on_in_chapters(self):
        self.play({1})
        self.play({0, 2})

    def play(self, rust):
        for front in YES:
            with tempfile.TemporaryDirectory() as folder:
                cluster = Cluster(folder, front, 2, "chapter_operations = 3\n", rust)
                for me in range(COUNT):
                    cluster.start(me)
                wait_until(lambda: len(cluster.answers(1)) > 2)
                cluster.kill(1)
                cluster.start(1, "--resume")
                ended = wait_until(cluster.has_ended)
                cluster.close()
                self.assertTrue(ended)
                reports = []
                # (who was closed may not have begun the last chapter)
                while all(os.path.exists(cluster.log(me, len(reports))) for me in range(COUNT)):
                    told = cluster.merged(len(reports))
                    self.assertEqual((told.returncode, told.stderr), (0, b""))
                    self.assertEqual(check(told.stdout).answer, YES[front])
                    reports.append(told.stdout)
                self.assertGreater(len(reports), 1)
                self.assertEqual(told_of(reports), one_story(reports))
                openings = sum(len([it for it in (b"x", b"y") if b" call    write " + it in text])
                               for text in reports[1:])
                self.assertGreaterEqual(sum(it.count(b" call ") for it in reports), COUNT * CALLS)
                self.assertLessEqual(sum(it.count(b" call ") for it in reports), COUNT * CALLS + openings)


if __name__ == "__main__":
    unittest.main()
