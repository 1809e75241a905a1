"""Clusters of three programs on loopback, over a road that loses, repeats and reorders: python3 -m unittest, with
TELLWYDAR_LIB set. Where TELLWYDAR_NODE names the program in Rust, clusters of nodes of both languages too."""
import contextlib
import json
import os
import random
import re
import signal
import subprocess
import sys
import tempfile
import time
import unittest

from tellwydar import check, judge
from test_net import free_addresses, lines_of, sealed
from test_port import ANSWERED, REFUSED

HERE = os.path.dirname(os.path.abspath(__file__))
COUNT, CALLS = 3, 8
# 20 % lost, 10 % repeated, 20 % reordered, each up to 1 ms late
LOSSY = "20,10,20,1"
RUST = os.environ.get("TELLWYDAR_NODE")
YES = {"linear": b"serial yes\npoints yes\n", "local-read": b"serial yes\n", "local-write": b"serial yes\n"}


def wait_until(holds, seconds=60):
    """Whether it holds in time."""
    end = time.monotonic() + seconds
    while not holds() and time.monotonic() < end:
        time.sleep(0.05)
    return holds()


class Cluster:
    def __init__(self, folder, front, seed, more="", rust=()):
        self.folder, self.front, self.seed, self.nodes = folder, front, seed, [None] * COUNT
        self.rust = rust  # the processes whose nodes are in Rust
        shape = f'cluster = {seed + 1}\nfront = "{front}"\nregisters = ["x", "y"]\n'
        self.write("cluster.toml", f"{shape}{more}{self.places()}")
        words = random.Random(f"{front} {seed}")
        for me in range(COUNT):
            calls = []
            for k in range(CALLS):
                op, register = words.choice(["read", "write", "swap", "cas"]), words.choice("xy")
                expected = f" {words.choice([0, max(me * 100 + k - 1, 0)])}" if op == "cas" else ""
                calls.append(f"{op} {register}\n" if op == "read" else f"{op} {register}{expected} {me * 100 + k}\n")
            self.write(f"{me}.txt", "".join(calls))

    def places(self):
        """Where the nodes are, as the configuration says it."""
        return "".join(f'[[node]]\naddress = "{address}"\n' for address in free_addresses(COUNT))

    def around(self, me):
        """The words before a node's program, and those behind its own."""
        return [], ["--lossy", f"{self.seed},{LOSSY}"]

    def path(self, name):
        return os.path.join(self.folder, name)

    def write(self, name, text):
        with open(self.path(name), "w") as file:
            file.write(text)

    def program(self, *words):
        return [sys.executable, "-m", "tellwydar.net", *words]

    def start(self, me, *more):
        given = ["--config", self.path("cluster.toml"), "--log", self.log(me), "--script", self.path(f"{me}.txt")]
        before, behind = self.around(me)
        program = [RUST] if me in self.rust else self.program()
        words = [*before, *program, "node", "--me", str(me), *given, *behind, *more]
        with open(self.path(f"{me}.out"), "ab") as out:
            self.nodes[me] = subprocess.Popen(words, cwd=HERE, stdout=out, stderr=subprocess.DEVNULL)

    def kill(self, me):
        self.nodes[me].send_signal(signal.SIGKILL)
        self.nodes[me].wait()

    def answers(self, me):
        with open(self.path(f"{me}.out")) as file:
            return file.read().splitlines()

    def has_ended(self):
        return all(self.answers(me)[-1:] == ["end"] for me in range(COUNT))

    def close(self):
        for node in self.nodes:
            node.terminate()
            node.wait()

    def log(self, me, chapter=0):
        return self.path(f"{me}.log" + (f".{chapter}" if chapter else ""))

    def merged(self, chapter=0):
        logs = [self.log(me, chapter) for me in range(COUNT)]
        return subprocess.run(self.program("merge", *logs), cwd=HERE, capture_output=True)


class Changed(unittest.TestCase):
    """What is changed in a log of a run is refused at its place, also where the words for accidents are made anew."""

    @classmethod
    def setUpClass(cls):
        cls.folder = tempfile.TemporaryDirectory()
        cls.cluster = Cluster(cls.folder.name, "linear", 7)
        for me in range(COUNT):
            cls.cluster.start(me)
        cls.has_ended = wait_until(cls.cluster.has_ended)
        cls.cluster.close()
        with open(cls.cluster.log(1), "rb") as file:
            cls.data = file.read()
        cls.lines = lines_of(cls.data)

    @classmethod
    def tearDownClass(cls):
        cls.folder.cleanup()

    def refused(self):
        """What `merge` says of the logs; then the log that was changed is as it was."""
        self.assertTrue(self.has_ended)
        told = [self.cluster.merged()]
        if RUST:
            logs = [self.cluster.log(me) for me in range(COUNT)]
            told.append(subprocess.run([RUST, "merge", *logs], capture_output=True))
        with open(self.cluster.log(1), "wb") as file:
            file.write(self.data)
        for it in told:
            self.assertEqual((it.returncode, it.stdout), (1, b""))
        self.assertEqual(len({it.stderr for it in told}), 1)
        return told[0].stderr.decode()

    def changed(self, lines):
        with open(self.cluster.log(1), "wb") as file:
            file.write(sealed(*lines))
        return self.refused()

    def test_a_byte(self):
        line = self.data.count(b"\n") // 2
        at = len(b"\n".join(self.data.split(b"\n")[:line])) + 3
        with open(self.cluster.log(1), "r+b") as file:
            file.seek(at)
            file.write(bytes([self.data[at] ^ 1]))
        self.assertEqual(
            self.refused(), f"{self.cluster.log(1)}: line {line + 1}: changed, or a line before it is missing\n")

    def test_a_reply_that_was_invented(self):
        place, line = next((at, it) for at, it in enumerate(self.lines) if " = value " in it)
        step, value, order = re.fullmatch(r"(.* = value )(\d+)( \d+)", line).groups()
        told = self.changed([*self.lines[:place], f"{step}{int(value) + 1}{order}", *self.lines[place + 1 :]])
        self.assertEqual(told, f"{self.cluster.log(1)}: line {place + 1}: no step of its process\n")

    def test_an_entry_that_is_gone(self):
        place = next(at for at, it in enumerate(self.lines) if it.startswith("1 call "))
        told = self.changed(self.lines[:place] + self.lines[place + 1 :])
        self.assertRegex(told, r"line \d+: (no step of its process|unfaithful)\n")


class Programs(unittest.TestCase):
    def play(self, front, killed, rust=()):
        with tempfile.TemporaryDirectory() as folder:
            cluster = Cluster(folder, front, int(killed), rust=rust)
            for me in range(COUNT):
                cluster.start(me)
            if killed:
                # (once it has answered there is a log to go on with)
                wait_until(lambda: cluster.answers(1))
                cluster.kill(1)
                cluster.start(1, "--resume")
            ended = wait_until(cluster.has_ended)
            cluster.close()
            told = cluster.merged()
            self.assertTrue(ended)
            self.assertEqual((told.returncode, told.stderr), (0, b""))
            self.assertEqual(check(told.stdout).answer, YES[front])
            self.assertEqual(told.stdout.count(b" call "), COUNT * CALLS)

    def test_all_scripts_end_and_their_logs_are_a_run(self):
        for front in YES:
            self.play(front, killed=False)

    def test_a_killed_node_resumes(self):
        for front in YES:
            self.play(front, killed=True)

    @unittest.skipUnless(RUST, "TELLWYDAR_NODE names no program")
    def test_nodes_of_both_languages_are_in_one_cluster(self):
        for front in YES:
            for rust in ({1}, {0, 2}, {0, 1, 2}):
                self.play(front, killed=False, rust=rust)

    @unittest.skipUnless(RUST, "TELLWYDAR_NODE names no program")
    def test_a_killed_node_of_either_language_resumes(self):
        for front in YES:
            for rust in ({1}, {0, 2}):
                self.play(front, killed=True, rust=rust)


PROGRAMS = [[sys.executable, "-m", "tellwydar.net"], *([[RUST]] if RUST else [])]


class Words(unittest.TestCase):
    """Words that the programs of each language take, or don't."""

    def run_program(self, *words):
        told = subprocess.run(words, cwd=HERE, stdin=subprocess.DEVNULL, capture_output=True, text=True, timeout=60)
        return told.returncode, told.stdout, told.stderr

    def test_words_that_ask_for_nothing_end_with_status_2(self):
        node = ["node", "--me", "0", "--config", "c.toml", "--log", "0.log"]
        for program in PROGRAMS:
            for words in (
                [], ["nodes"], ["node"], node[:-2], node[:-1], [*node, "more"], [*node, "--fast"], [*node, "--secret"],
                [*node, "--script", "a", "--socket", "b"], ["node", "--me", "x", *node[3:]], ["client"],
                ["client", "a", "b"], ["merge"], ["merge", "--cut"], ["keys"], ["keys", "a", "b"],
            ):
                status, out, err = self.run_program(*program, *words)
                self.assertEqual((status, out), (2, ""), words)
                self.assertRegex(err, "(?i)usage: |--help")
            status, out, err = self.run_program(*program, "node", "--help")
            self.assertEqual((status, err), (0, ""))
            self.assertIn("--resume", out)

    def test_a_secret_key_is_made_in_a_new_file_alone(self):
        for program in PROGRAMS:
            with tempfile.TemporaryDirectory() as folder:
                path = os.path.join(folder, "0.key")
                status, out, err = self.run_program(*program, "keys", path)
                self.assertEqual((status, err), (0, ""))
                self.assertRegex(out, '^key = "[!-~]{40}"\n$')
                with open(path) as file:
                    secret = file.read()
                self.assertEqual((len(secret), os.stat(path).st_mode & 0o777), (41, 0o600))
                status, out, err = self.run_program(*program, "keys", path)
                self.assertEqual((status, out, err.count("\n")), (1, "", 1), err)
                self.assertIn("File exists", err)
                with open(path) as file:
                    self.assertEqual(file.read(), secret)


class Sockets(unittest.TestCase):
    """A node that programs call, of each language by the client of each."""

    def run_client(self, program, path, lines):
        words = [*program, "client", path]
        told = subprocess.run(words, cwd=HERE, input="".join(f"{it}\n" for it in lines), capture_output=True,
                              text=True, timeout=60)
        return told.returncode, told.stdout.splitlines(), told.stderr

    def setUp(self):
        self.folder = tempfile.TemporaryDirectory()
        self.addCleanup(self.folder.cleanup)
        self.socket, (self.address,) = self.at("0.socket"), free_addresses(1)
        with open(self.at("c.toml"), "w") as file:
            file.write(f'cluster = 5\nfront = "linear"\nregisters = ["x"]\n[[node]]\naddress = "{self.address}"\n')

    def at(self, name):
        return os.path.join(self.folder.name, name)

    @contextlib.contextmanager
    def node(self, program, log, *more, shell='exec "$@"'):
        words = [*program, "node", "--me", "0", "--config", self.at("c.toml"), "--log", self.at(log),
                 "--socket", self.socket, *more]
        with subprocess.Popen(["bash", "-c", shell, "bash", *words], cwd=HERE, stderr=subprocess.DEVNULL) as node:
            try:
                self.assertTrue(wait_until(lambda: os.path.exists(self.socket)))
                yield
            finally:
                node.terminate()
                node.wait(60)
        self.status = node.returncode

    def test_a_program_has_its_calls_answered(self):
        for k, program in enumerate(PROGRAMS):
            with self.node(program, f"{k}.log"):
                for client in PROGRAMS:
                    lines = ["swap x 5", "", "cas x 5 6", "cas x 5 7", "read x", "write x 0", "read y",
                             "health", "metrics"]
                    status, out, err = self.run_client(client, self.socket, lines)
                    self.assertEqual((status, err), (0, ""))
                    self.assertEqual(out[:5], ["value 0", "done", "unequal", "value 6", "done"])
                    self.assertRegex(out[5], "^refused: no ")
                    self.assertEqual((out[6], out[7], out[-1]),
                                     ("ok", "# TYPE tellwydar_operations_total counter", "# EOF"))
            self.assertEqual(self.status, 0)
            self.assertFalse(os.path.exists(self.socket))
            for client in PROGRAMS:
                status, out, err = self.run_client(client, self.socket, ["read x"])
                self.assertEqual((status, out, err.count("\n")), (1, [], 1))
                self.assertTrue(err.startswith(self.socket + ": No such file or directory"), err)
            told = subprocess.run([*program, "merge", self.at(f"{k}.log")], cwd=HERE, capture_output=True)
            self.assertEqual(check(told.stdout).answer, YES["linear"])

    def test_objects_are_answered_alike(self):
        for k, program in enumerate(PROGRAMS):
            with self.node(program, f"{k}.log"):
                for client in PROGRAMS:
                    told = self.run_client(client, self.socket, [*ANSWERED, *REFUSED])
                    self.assertEqual(told, (0, [*ANSWERED.values(), *REFUSED.values()], ""))

    def test_of_a_call_whose_entry_is_not_written_nobody_knows(self):
        calls = [{"process": 0, "type": "invoke", "f": "write", "key": "x", "value": value} for value in range(1, 51)]
        for k, program in enumerate(PROGRAMS):
            # (the log has no more than 1,024 bytes)
            with self.node(program, f"{k}.log", shell='ulimit -f 1; trap "" XFSZ; exec "$@"'):
                _, out, _ = self.run_client(PROGRAMS[0], self.socket, map(json.dumps, calls))
            told = [json.loads(it) for it in out]
            last = [it["type"] for it in told].index("info")
            self.assertIn("File too large", told[last]["error"])
            # (a node in Rust ends then; one in Python answers on, and calls nothing)
            self.assertEqual({it["type"] for it in told[:last]}, {"ok"})
            self.assertLessEqual({it["type"] for it in told[last + 1 :]}, {"fail"})
            with self.node(program, f"{k}.log", "--resume"):
                _, (read,), _ = self.run_client(PROGRAMS[0], self.socket, [json.dumps({"f": "read", "key": "x"})])
            rows = [row for call, end in zip(calls, told) for row in (call, {"process": 0, **end})]
            rows += [{"process": 1, "type": "invoke", "f": "read", "key": "x"}, {"process": 1, **json.loads(read)}]
            self.assertIn(rows[-1]["value"], (last, last + 1))
            judged = judge(rows)
            self.assertTrue(judged, judged.text)


if __name__ == "__main__":
    unittest.main()
