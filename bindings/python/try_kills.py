"""Clusters of three programs whose nodes are killed and resumed, each judged: python3 try_kills.py RUNS [SEED], or with
--minutes M in place of RUNS one cluster whose nodes call for about so long, while one of them is killed each minute.
With TELLWYDAR_LIB set, and TELLWYDAR_NODE where nodes in Rust take part.

A seed chooses the front end, TCP or UDP, keys or none, whether the road loses, repeats and reorders, the length of
chapters, `--sync`, the language of each node, and when which nodes are killed (SIGKILL), up to all three at once.
At last each script has to have ended. Then the logs of each chapter are merged and judged, the reports have to be
one story with all calls of the scripts, and what a node printed has to be answers of the reports in their order,
where the one that it printed last before it was killed may stand twice. It says how many were well, and ends with
status 1 where one wasn't.
"""
import argparse
import os
import random
import sys
import tempfile
import time

from tellwydar import check, story
from tellwydar.net import road
from test_net import free_addresses
from test_node_programs import COUNT, RUST, YES, Cluster, wait_until

MOST_SECONDS = 120
A_MINUTE = 2_000  # calls of a node, with a pause after each
CHAPTERS = ["", "", "chapter_operations = 10\n", "chapter_operations = 25\n", "chapter_entries = 200\n"]


class Killed(Cluster):
    """A cluster of which all is chosen by a seed, but for the number of calls."""

    def __init__(self, folder, seed, calls, pause, chapters):
        self.words = words = random.Random(seed)
        self.calls, self.kills, self.scheme = calls, 0, words.choice(["tcp", "udp"])
        self.keys = [road.new_keys() for _ in range(COUNT)] if words.random() < 0.4 else []
        self.given = words.choice([[], [], ["--lossy", f"{seed},20,10,20,1"]])
        sync, chapter = words.random() < 0.3, words.choice(chapters)
        rust = {me for me in range(COUNT) if RUST and words.random() < 0.5}
        super().__init__(folder, words.choice(list(YES)), seed, f"sync = {str(sync).lower()}\n{chapter}", rust)
        for me in range(COUNT):
            self.write(f"{me}.txt", "".join(self.call(me, number) + pause() for number in range(calls)))
        for me, (_, secret) in enumerate(self.keys):
            with open(os.open(self.path(f"{me}.secret"), os.O_WRONLY | os.O_CREAT, 0o600), "wb") as file:
                file.write(secret)

    def call(self, me, number):
        op, register = self.words.choice(["read", "write", "swap", "cas"]), self.words.choice("xy")
        value = me * 1_000_000 + number + 1
        given = {"read": "", "cas": f" {self.words.choice([0, value - 1])} {value}"}
        return f"{op} {register}{given.get(op, f' {value}')}\n"

    def places(self):
        nodes = zip(free_addresses(COUNT, self.scheme), self.keys or [None] * COUNT)
        return "".join(f'[[node]]\naddress = "{address}"\n' + (f'key = "{key[0].decode()}"\n' if key else "")
                       for address, key in nodes)

    def around(self, me):
        return [], [*self.given, *(["--secret", self.path(f"{me}.secret")] if self.keys else [])]

    def kill_some(self):
        """Kills some nodes and resumes them. A node that has ended by itself is told."""
        some = self.words.sample(range(COUNT), self.words.choice([1, 1, 1, 2, 3]))
        ended = [me for me in some if self.nodes[me].poll() is not None]
        for me in some:
            self.kill(me)
        time.sleep(self.words.choice([0, 0, 0.2]))
        for me in some:
            self.start(me, *(["--resume"] if os.path.exists(self.log(me)) else []))
        self.kills += len(some)
        return f"nodes {ended} ended by themselves" if ended else ""

    def judged(self):
        """The reports of all chapters, or what is wrong with one."""
        reports = []
        while all(os.path.exists(self.log(me, len(reports))) for me in range(COUNT)):
            told = self.merged(len(reports))
            if (told.returncode, told.stderr) != (0, b""):
                return reports, f"chapter {len(reports)} is refused: {told.stderr.decode()}"
            if check(told.stdout).answer != YES[self.front]:
                return reports, f"chapter {len(reports)}: check says no"
            reports.append(told.stdout)
        told = story(b"".join(reports))
        return reports, "" if told.status == 0 else (told.answer + told.line).decode()

    def differs(self, reports):
        """Whose printed answers, or calls, aren't those of the reports."""
        for me in range(COUNT):
            entries = [it.split() for it in b"".join(reports).decode().split("\n") if f"  p{me} " in it]
            called = sum(it[3] == "call" for it in entries)
            answers = [" ".join(it[4:]) for it in entries if it[3] == "answer"]
            if called < self.calls:
                return f"process {me} called {called} of {self.calls}"
            if not is_part([it for it in self.answers(me) if it != "end"], answers):
                return f"process {me} printed other answers than the reports have"
        return ""


def is_part(said, answers):
    """Whether lines are said in their order, where each may be said again behind itself."""
    at = 0
    for it in said:
        if at and answers[at - 1] == it and answers[at : at + 1] != [it]:
            continue
        while at < len(answers) and answers[at] != it:
            at += 1
        if at == len(answers):
            return False
        at += 1
    return True


def run(cluster, pauses):
    """What is wrong with a cluster, of which nodes are killed after these pauses, or nothing; and
    how many chapters it had."""
    for me in range(COUNT):
        cluster.start(me)
    why = ""
    for pause in pauses:
        time.sleep(pause)
        if cluster.has_ended():
            break
        why = why or cluster.kill_some()
    ended = wait_until(cluster.has_ended, MOST_SECONDS)
    cluster.close()
    reports, wrong = cluster.judged()
    why = why or ("" if ended else f"no end in {MOST_SECONDS} s") or wrong or cluster.differs(reports)
    return why, len(reports)


def by_seed(seed, folder, minutes):
    """A cluster, and the pauses before nodes of it are killed."""
    words = random.Random(-seed)
    if minutes:
        return Killed(folder, seed, minutes * A_MINUTE, lambda: "sleep 0.015\n", [""]), [60] * minutes
    pause = lambda: f"sleep {words.choice([0.01, 0.05])}\n" if words.random() < 0.15 else ""
    pauses = [words.choice([0.02, 0.1, 0.3, 0.8]) for _ in range(words.randint(3, 8))]
    return Killed(folder, seed, words.choice([30, 60, 120]), pause, CHAPTERS), pauses


def main():
    words = argparse.ArgumentParser(description=__doc__, formatter_class=argparse.RawDescriptionHelpFormatter)
    words.add_argument("--minutes", type=int, default=0)
    words.add_argument("numbers", nargs="*", type=int)
    given = words.parse_args()
    numbers = [1, *given.numbers] if given.minutes else given.numbers
    runs, first = numbers[0], numbers[1] if len(numbers) > 1 else 0
    odd = kills = chapters = 0
    started = time.monotonic()
    for seed in range(first, first + runs):
        with tempfile.TemporaryDirectory() as folder:
            cluster, pauses = by_seed(seed, folder, given.minutes)
            why, count = run(cluster, pauses)
            kills, chapters, odd = kills + cluster.kills, chapters + count, odd + bool(why)
            if why:
                print(f"seed {seed}, {cluster.front} over {cluster.scheme}, in Rust {sorted(cluster.rust)}: {why}",
                      flush=True)
    print(f"{runs - odd} runs well, {odd} not; {kills} kills, {chapters} chapters, {time.monotonic() - started:.0f} s")
    return 1 if odd else 0


if __name__ == "__main__":
    sys.exit(main())
