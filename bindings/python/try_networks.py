"""Three nodes in network namespaces of their own, over a network that is lossy: python3 try_networks.py [SECONDS], as
root, with TELLWYDAR_LIB set, and TELLWYDAR_NODE where nodes in Rust take part.

Each namespace has one network card (a TAP of the kernel), and this program is the cable between them. It loses 20 of
100 frames, repeats 5, and hands each on 5 to 8 ms late, so that they overtake each other; so nothing is asked of the
kernel that many lack, as `tc netem`. The nodes have keys. Under each front end they talk by UDP, and under one by TCP.
Each cluster's script has to end, and its logs have to be a run.
"""
import fcntl
import heapq
import importlib.util
import os
import random
import select
import struct
import subprocess
import sys
import tempfile
import threading
import time

from tellwydar import check
from tellwydar.net import road
from test_node_programs import CALLS, COUNT, RUST, YES, Cluster, wait_until

LOSS, REPEATS = 0.2, 0.05
SECONDS = 0.005, 0.008  # the least and the most that a frame is late
_TUNSETIFF, _TAP = 0x400454CA, 0x1002  # a network card, whose frames come bare


class Cable:
    """Three network namespaces, and what their cards put."""

    def __init__(self, seed):
        self.random, self.lost, self.seen, self.late = random.Random(seed), 0, 0, []
        self.names = [f"tw-{os.getpid()}-{me}" for me in range(COUNT)]
        self.cards = [self.card(me) for me in range(COUNT)]
        self.is_closed = False
        self.thread = threading.Thread(target=self.carry, daemon=True)
        self.thread.start()

    def card(self, me):
        """Makes a namespace with a card, and opens the other end of that."""
        name, link = self.names[me], f"tw{os.getpid() % 100_000}n{me}"
        file = os.open("/dev/net/tun", os.O_RDWR | os.O_NONBLOCK | os.O_CLOEXEC)
        fcntl.ioctl(file, _TUNSETIFF, struct.pack("16sH", link.encode(), _TAP))
        ran = lambda *words: subprocess.run(["ip", *words], check=True)
        ran("netns", "add", name)
        ran("link", "set", link, "netns", name)
        ran("-n", name, "addr", "add", f"{address(me)}/24", "dev", link)
        ran("-n", name, "link", "set", link, "up")
        ran("-n", name, "link", "set", "lo", "up")
        return file

    def carry(self):
        while not self.is_closed:
            wait = max(0.0, self.late[0][0] - time.monotonic()) if self.late else 0.1
            for card in select.select(self.cards, [], [], min(wait, 0.1))[0]:
                self.take(card, os.read(card, 4096))
            while self.late and self.late[0][0] <= time.monotonic():
                _, _, card, frame = heapq.heappop(self.late)
                os.write(card, frame)

    def take(self, card, frame):
        for other in self.cards:
            if other != card:
                self.seen += 1
                if self.random.random() < LOSS:
                    self.lost += 1
                    continue
                for again in range(2 if self.random.random() < REPEATS else 1):
                    due = time.monotonic() + self.random.uniform(*SECONDS)
                    heapq.heappush(self.late, (due, self.seen * 2 + again, other, frame))

    def close(self):
        self.is_closed = True
        self.thread.join()
        for name, card in zip(self.names, self.cards):
            os.close(card)
            subprocess.run(["ip", "netns", "del", name], check=True)


def address(me):
    return f"10.77.0.{me + 1}"


class Nodes(Cluster):
    """A cluster whose nodes are in namespaces."""

    def __init__(self, folder, front, scheme, cable, rust):
        self.scheme, self.cable, self.keys = scheme, cable, [road.new_keys() for _ in range(COUNT)]
        super().__init__(folder, front, 0, rust=rust)
        for me, (_, secret) in enumerate(self.keys):
            with open(os.open(self.path(f"{me}.secret"), os.O_WRONLY | os.O_CREAT, 0o600), "wb") as file:
                file.write(secret)

    def places(self):
        return "".join(f'[[node]]\naddress = "{self.scheme}://{address(me)}:7101"\nkey = "{key.decode()}"\n'
                       for me, (key, _) in enumerate(self.keys))

    def around(self, me):
        return ["ip", "netns", "exec", self.cable.names[me]], ["--secret", self.path(f"{me}.secret")]


def run(front, scheme, cable, rust, seconds):
    """What is wrong with a run, or nothing."""
    with tempfile.TemporaryDirectory() as folder:
        cluster = Nodes(folder, front, scheme, cable, rust)
        for me in range(COUNT):
            cluster.start(me)
        ended = wait_until(cluster.has_ended, seconds)
        cluster.close()
        told = cluster.merged()
        if not ended:
            return f"no end in {seconds} s"
        if (told.returncode, told.stderr, check(told.stdout).answer) != (0, b"", YES[front]):
            return f"its logs are refused: {told.stderr.decode()}"
        return "" if told.stdout.count(b" call ") == COUNT * CALLS else "some calls aren't in the report"


def main(words):
    seconds = float(words[0]) if words else 120
    schemes = [(front, "udp") for front in YES] if importlib.util.find_spec("nacl") else []
    odd = 0
    cable = Cable(1)
    try:
        for at, (front, scheme) in enumerate([*schemes, ("linear", "tcp")]):
            started, before = time.monotonic(), (cable.lost, cable.seen)
            why = run(front, scheme, cable, {at % COUNT} if RUST else set(), seconds)
            odd += bool(why)
            lost, seen = cable.lost - before[0], cable.seen - before[1]
            print(f"{front} over {scheme}: {why or 'a run'}, {time.monotonic() - started:.1f} s, "
                  f"{lost} of {seen} frames lost", flush=True)
    finally:
        cable.close()
    return 1 if odd else 0


if __name__ == "__main__":
    sys.exit(main(sys.argv[1:]))
