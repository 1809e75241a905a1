"""Tests of what the program of a node says and ends with where something is wrong: python3 -m unittest, with
TELLWYDAR_LIB set. Where TELLWYDAR_NODE names the program in Rust, of that one too."""
import os
import shutil
import signal
import socket
import subprocess
import sys
import tempfile
import textwrap
import threading
import time
import unittest

from tellwydar.net import road
from test_net import free_addresses
from test_node_programs import HERE, PROGRAMS, wait_until
from test_port import told

# (as a program has it whose streams are files and pipes)
ENVIRONMENT = {name: value for name, value in os.environ.items() if name != "PYTHONUNBUFFERED"}
TRACES = ("Traceback", "Exception ignored", "panicked")


def hear_interrupts():
    """In a program to be: a shell has those that it starts behind itself hear none."""
    signal.signal(signal.SIGINT, signal.SIG_DFL)


def is_open(path):
    """Whether a node answers at this socket."""
    with socket.socket(socket.AF_UNIX) as one:
        return one.connect_ex(path) == 0


class Programs(unittest.TestCase):
    """The program of each language ends with one line that says why, and with status 1."""

    def setUp(self):
        self.folder = tempfile.TemporaryDirectory()
        self.addCleanup(self.folder.cleanup)
        self.addresses = free_addresses(2)

    def at(self, name):
        return os.path.join(self.folder.name, name)

    def write(self, name, text):
        with open(self.at(name), "wb") as file:
            file.write(text if isinstance(text, bytes) else text.encode())
        return self.at(name)

    def read(self, name):
        with open(self.at(name)) as file:
            return file.read()

    def config(self, top="", count=1, **other):
        of = {"cluster": "3", "front": '"linear"', "registers": '["x"]', **other}
        nodes = [f'[[node]]\naddress = "{it}"\n' for it in self.addresses[:count]]
        lines = [f"{key} = {value}\n" for key, value in of.items()]
        return self.write("c.toml", "".join([*lines, top, *nodes]))

    def words(self, program, log, *more):
        return [*program, "node", "--me", "0", "--config", self.at("c.toml"), "--log", self.at(log), *more]

    def start(self, words, shell='exec "$@"', **more):
        given = {"stdout": subprocess.PIPE, "stderr": subprocess.PIPE, "preexec_fn": hear_interrupts, **more}
        node = subprocess.Popen(["bash", "-c", shell, "bash", *words], cwd=HERE, env=ENVIRONMENT, text=True, **given)
        self.addCleanup(node.wait)
        self.addCleanup(node.kill)
        return node

    def ended(self, node, given=None):
        """The status of a program that ends, what it told, and the lines that it said."""
        out, lines = node.communicate(given, 60)
        lines = [it for it in lines.splitlines() if not it.startswith("without --sync")]
        self.assertFalse([it for it in lines if any(trace in it for trace in TRACES)], lines)
        return node.returncode, out, lines

    def refused(self, program, words, **more):
        status, out, lines = self.ended(self.start(words, **more))
        self.assertEqual((status, len(lines)), (1, 1), lines)
        self.assertTrue(lines[0].strip())
        return lines[0]

    def test_a_configuration_that_is_none_is_refused_and_no_log_is_begun(self):
        node, key = f'[[node]]\naddress = "{self.addresses[0]}"\n', road.new_keys()[0].decode()
        ways = {
            "an address that is none": {"top": '[[node]]\naddress = "tcp://127.0.0.1:x"\n'},
            "no address": {"top": "[[node]]\n"},
            "an address that is no text": {"top": "[[node]]\naddress = 5\n"},
            "one node's key": {"top": f'{node}key = "{key}"\n'},
            "a key that is no text": {"top": f"{node}key = 5\n", "count": 0},
            "no list of nodes": {"top": f'[node]\naddress = "{self.addresses[0]}"\n', "count": 0},
            "no tables": {"top": "node = [1]\n", "count": 0},
            "no nodes": {"top": "node = []\n", "count": 0},
            "no names": {"registers": '"x"'},
            "names that are none": {"registers": "[1]"},
            "no front end": {"front": "5"},
            "text for sync": {"sync": '"no"'},
            **{f"look_ms {it}": {"look_ms": it} for it in ("0", "-1", '"10"', "true", "inf", "nan", "1e300", "1e22")},
            **{f"chapters {it}": {"chapter_operations": it} for it in ("8.0", '"8"', "true", "-8")},
            **{f"entries {it}": {"chapter_entries": it} for it in ("1000.0", '"1000"', "true", "-8")},
        }
        for k, program in enumerate(PROGRAMS):
            for what, way in ways.items():
                with self.subTest(what):
                    self.config(**way)
                    line = self.refused(program, self.words(program, "0.log"))
                    if {"look_ms", "sync", "chapter_operations"} & set(way):
                        self.assertIn(list(way)[0], line)
                    self.assertFalse(os.path.exists(self.at("0.log")))
            for text in (b"cluster = \n", b'front = "\xff"\n'):
                self.write("c.toml", text)
                self.assertIn("c.toml", self.refused(program, self.words(program, "0.log")))

    def test_a_log_that_cannot_be_begun_is_named(self):
        self.config()
        for k, program in enumerate(PROGRAMS):
            line = self.refused(program, self.words(program, f"{k}.log"), shell='ulimit -f 0; trap "" XFSZ; exec "$@"')
            self.assertRegex(line, f"{k}.log.*File too large|File too large.*{k}.log")
            self.assertFalse(os.path.exists(self.at(f"{k}.log")))

    def test_keys_that_are_none_are_refused_and_no_log_is_begun(self):
        public, secret = (it.decode() for it in road.new_keys())
        for k, program in enumerate(PROGRAMS):
            for known, own in ((public, "~" * 40), (public, "a" * 39), (public, ""), ("~" * 40, secret),
                               ("a" * 35, secret)):
                nodes = zip(self.addresses, (public, known if known != public else road.new_keys()[0].decode()))
                self.config("".join(f'[[node]]\naddress = "{address}"\nkey = "{key}"\n' for address, key in nodes), 0)
                os.chmod(self.write("0.secret", own + "\n"), 0o600)
                with self.subTest(known=known, own=own):
                    self.refused(program, self.words(program, "0.log", "--secret", self.at("0.secret")))
                    self.assertFalse(os.path.exists(self.at("0.log")))

    def test_a_script_that_is_not_there_is_refused_and_no_log_is_begun(self):
        self.config()
        for k, program in enumerate(PROGRAMS):
            line = self.refused(program, self.words(program, f"{k}.log", "--script", self.at("none")))
            self.assertIn("none", line)
            self.assertFalse(os.path.exists(self.at(f"{k}.log")))

    def test_a_pause_that_is_too_long_is_refused(self):
        self.config()
        for k, program in enumerate(PROGRAMS):
            for seconds in ("1e19", "inf", "1e300", "nan", "-1"):
                self.write("script", f"sleep {seconds}\n")
                with self.subTest(seconds):
                    words = self.words(program, f"{k}.{seconds}.log", "--script", self.at("script"))
                    line = self.refused(program, words)
                    self.assertIn("line 1: ", line)

    def test_answers_that_nobody_takes_end_a_program_with_one_line(self):
        self.config()
        self.write("script", "write x 5\nread x\n")
        for k, program in enumerate(PROGRAMS):
            log, shell = f"{k}.log", 'exec "$@" >/dev/full'
            self.refused(program, self.words(program, log, "--script", self.at("script")), shell=shell)
            self.refused(program, [*program, "merge", self.at(log)], shell=shell)
            self.refused(program, [*program, "keys", self.at(f"{k}.secret")], shell=shell)
            self.refused(program, [*program, "merge", self.at(log)],
                         shell='(sleep 0.2; exec "$@") | true; exit ${PIPESTATUS[0]}')
            report = self.start([*program, "merge", self.at(log)], shell='exec "$@" >&-')
            self.assertEqual(self.ended(report)[:2], (0, ""))

    def test_answers_are_told_also_where_nobody_reads_what_is_said(self):
        self.config("chapter_operations = 3\n")
        self.write("script", "".join(f"write x {value}\n" for value in range(1, 9)))
        for k, program in enumerate(PROGRAMS):
            for way in ("/dev/full", "&-", " >(true)"):
                log = f"{k}.{len(way)}.log"
                node = self.start(self.words(program, log, "--script", self.at("script")), shell=f'exec "$@" 2>{way}')
                lines = [node.stdout.readline() for _ in range(9)]
                node.terminate()
                with self.subTest(way):
                    self.assertEqual(lines, ["done\n"] * 8 + ["end\n"])
                    self.assertEqual(self.ended(node)[0], 0)

    def test_the_end_of_a_node_whose_script_waits_is_no_fault(self):
        self.config(count=2)
        self.write("script", "write x 5\n")
        for k, program in enumerate(PROGRAMS):
            for number in (signal.SIGTERM, signal.SIGINT):
                node = self.start(self.words(program, f"{k}.{number}.log", "--script", self.at("script")))
                self.assertTrue(wait_until(lambda: os.path.exists(self.at(f"{k}.{number}.log"))))
                time.sleep(0.5)
                node.send_signal(number)
                self.assertEqual(self.ended(node), (0, "", []))

    def test_a_node_that_stopped_has_a_status_that_says_so(self):
        self.config()
        for k, program in enumerate(PROGRAMS):
            path = self.at(f"{k}.socket")
            # (the log has no more than 1,024 bytes)
            node = self.start(self.words(program, f"{k}.log", "--socket", path),
                              shell='ulimit -f 1; trap "" XFSZ; exec "$@"')
            self.assertTrue(wait_until(lambda: is_open(path)))
            for value in range(100):
                answer, = told(path, f"write x {value}")
                if answer != "done":
                    break
            self.assertRegex(answer, "^unknown: the log can't be written: .*File too large")
            status, _, lines = self.ended(node)
            self.assertEqual(status, 1)
            self.assertIn("the log can't be written", lines[-1])

    def test_calls_are_the_same_in_both_languages(self):
        self.config()
        for k, program in enumerate(PROGRAMS):
            path = self.at(f"{k}.socket")
            node = self.start(self.words(program, f"{k}.log", "--socket", path))
            self.assertTrue(wait_until(lambda: is_open(path)))
            for line in ("write x 1_000", "write x \u0663", "write x \uff15", "write x 1e3", "write x 5.0",
                         "write x 0x5", "write x --5"):
                self.assertRegex(told(path, line)[0], "^refused: ", line)
            self.assertEqual(told(path, "write x +7", "swap x 007", "read x"), ["done", "value 7", "value 7"])
            for client in PROGRAMS:
                asked = subprocess.run([*client, "client", path], input=b"read \xff\nread x\n", cwd=HERE,
                                       capture_output=True)
                first, second = asked.stdout.decode().splitlines()
                self.assertRegex(first, "^refused: ")
                self.assertEqual((second, asked.returncode, asked.stderr), ("value 7", 0, b""))
            node.terminate()
            self.assertEqual(self.ended(node)[0], 0)

    def test_a_port_goes_on_where_too_many_programs_came(self):
        self.config()
        for k, program in enumerate(PROGRAMS):
            path = self.at(f"{k}.socket")
            node = self.start(self.words(program, f"{k}.log", "--socket", path), shell='ulimit -n 64; exec "$@"')
            self.assertTrue(wait_until(lambda: is_open(path)))
            programs = [socket.socket(socket.AF_UNIX) for _ in range(80)]
            for it in programs:
                it.setblocking(False)
                try:
                    it.connect(path)
                except BlockingIOError:  # (there is no room for those that wait either)
                    time.sleep(0.02)
            time.sleep(0.5)
            for it in programs:
                it.close()
            found = []
            asking = threading.Thread(target=lambda: found.extend(told(path, "health")), daemon=True)
            asking.start()
            asking.join(10)
            self.assertEqual(found, ["ok"])
            node.terminate()
            self.assertEqual(self.ended(node)[0], 0)

    def test_strangers_who_take_all_descriptors_stop_no_node(self):
        self.config("chapter_operations = 5\n")
        self.write("script", "sleep 2\n" + "".join(f"write x {value}\n" for value in range(1, 21)))
        host, _, port = self.addresses[0].removeprefix("tcp://").rpartition(":")
        for k, program in enumerate(PROGRAMS):
            words = self.words(program, f"{k}.log", "--script", self.at("script"))
            with open(self.at("out"), "w+") as out:
                node = self.start(words, shell='ulimit -n 40; exec "$@"', stdout=out)
            self.assertTrue(wait_until(lambda: os.path.exists(self.at(f"{k}.log"))))
            time.sleep(0.5)  # (it has begun)
            strangers = [socket.socket() for _ in range(60)]
            for it in strangers:
                it.setblocking(False)
                it.connect_ex((host, int(port)))
            time.sleep(3)
            self.assertIsNone(node.poll())
            self.assertFalse(os.path.exists(self.at(f"{k}.log.2")))  # (it waits)
            for it in strangers:
                it.close()
            self.assertTrue(wait_until(lambda: self.read("out").endswith("end\n"), 20))
            node.terminate()
            self.assertEqual((self.ended(node)[0], self.read("out")), (0, "done\n" * 20 + "end\n"))

    def test_a_client_that_is_interrupted_says_nothing(self):
        with socket.socket(socket.AF_UNIX) as silent:
            silent.bind(self.at("silent"))
            silent.listen()
            for k, program in enumerate(PROGRAMS):
                client = self.start([*program, "client", self.at("silent")], stdin=subprocess.PIPE)
                client.stdin.write("read x\n")
                client.stdin.flush()
                with silent.accept()[0] as asked:
                    asked.recv(1)
                    time.sleep(0.2)
                    client.send_signal(signal.SIGINT)
                    self.assertEqual(self.ended(client), (-signal.SIGINT, "", []))

    def test_signals_that_come_together_end_a_node(self):
        self.config()
        program = textwrap.dedent("""
            import signal, sys, threading
            from tellwydar.net.__main__ import main
            notify, main_thread = threading.Condition.notify_all, threading.get_ident()

            def notifying(self):  # another signal comes while something is told
                notify(self)
                if threading.get_ident() == main_thread:
                    threading.Condition.notify_all = notify
                    signal.raise_signal(signal.SIGINT)

            threading.Condition.notify_all = notifying
            sys.exit(main(sys.argv[1:]))
        """)
        words = self.words([sys.executable, "-c", program], "0.log")
        node = self.start(words)
        self.assertTrue(wait_until(lambda: os.path.exists(self.at("0.log"))))
        time.sleep(0.5)
        node.terminate()
        self.assertTrue(wait_until(lambda: node.poll() is not None, 10))
        self.assertEqual(self.ended(node), (0, "", []))

    @unittest.skipUnless(shutil.which("strace"), "install strace")
    def test_the_log_of_a_node_that_is_resumed_is_on_the_disk(self):
        self.config("sync = true\n")
        for k, program in enumerate(PROGRAMS):
            log, path, calls = self.at(f"{k}.log"), self.at(f"{k}.socket"), self.at(f"{k}.calls")
            for more in ([], ["--resume"]):
                words = self.words(program, log, "--socket", path, *more)
                node = self.start(["strace", "-f", "-y", "-qq", "-o", calls, "-e", "trace=fsync,fdatasync", *words])
                self.assertTrue(wait_until(lambda: is_open(path)))
                with open(calls) as file:
                    self.assertIn(f"<{log}>", file.read())
                for it in subprocess.run(["pgrep", "-P", str(node.pid)], capture_output=True, text=True).stdout.split():
                    os.kill(int(it), signal.SIGTERM)
                self.assertEqual(self.ended(node)[0], 0)


if __name__ == "__main__":
    unittest.main()
