"""python3 -m tellwydar.net node --me 0 --config cluster.toml --log FILE [--script FILE | --socket FILE] ..
python3 -m tellwydar.net client SOCKET < LINES
python3 -m tellwydar.net merge [--cut] LOG.. > report
python3 -m tellwydar.net story REPORT..
python3 -m tellwydar.net keys FILE"""
import argparse
import contextlib
import os
import signal
import sys
import threading
import time
from typing import List, TextIO

from .. import Refused, story
from ..__main__ import let_go, take_signals
from . import judge, port, road
from .calls import WORDS
from .config import read_config
from .core import Closed, NodeFailed, answer_text, say
from .datagrams import AnyRoad
from .logfile import LogFault
from .node import Node
from .road import Keys, LossyRoad, RoadFault

ENDS = signal.SIGTERM, signal.SIGINT  # of a node
# (each ends with one line that says why)
FAULTS = (Closed, LogFault, NodeFailed, OSError, OverflowError, Refused, RoadFault, RuntimeError, TypeError, ValueError)


def node_of(a: argparse.Namespace) -> Node:
    config = read_config(a.config)
    nodes = config["node"]
    keys = None
    if any("key" in n for n in nodes):
        if not a.secret:
            raise RoadFault(f"{a.config} has keys: give --secret FILE")
        keys = Keys(road.read_secret(a.secret), tuple(n["key"].encode() for n in nodes))
    lossy = None
    if a.lossy:
        seed, loss, duplicates, reorder, delay = map(float, a.lossy.split(","))

        def lossy(r: AnyRoad) -> LossyRoad:
            return LossyRoad(r, int(seed) * 1000 + a.me, loss / 100, duplicates / 100, reorder / 100, delay / 1000)

    return Node(
        config["front"], config["registers"], a.me, [n["address"] for n in nodes], keys, a.log,
        cluster=config["cluster"], sync=a.sync or config.get("sync", False), resume=a.resume, lossy=lossy,
        look=config.get("look_ms", 10) / 1000,
        chapter_operations=config.get("chapter_operations"), chapter_entries=config.get("chapter_entries"),
    )


def run_script(node: Node, lines: List[str], out: TextIO) -> None:
    """Makes the calls of a script. A node that was resumed goes on where its log ends. `ValueError` names a line that
    says no call, or whose call was refused."""
    called, going_on = node.so_far()
    if going_on:
        print(answer_text(node.wait()), file=out, flush=True)
    for number, line in enumerate(lines, 1):
        words = line.split()
        if not words or words[0].startswith("#"):
            continue
        if called > 0:
            called -= words[0] != "sleep"
            continue
        try:
            if words[0] == "sleep":
                time.sleep(float(words[1]))
                continue
            answer = node.perform(WORDS.call(line, node.registers))
        except (ValueError, IndexError, OverflowError, Refused) as why:
            raise ValueError(f"line {number}: {line.strip()}: {why}") from None
        print(answer_text(answer), file=out, flush=True)
    print("end", file=out, flush=True)


def tell_story(paths: List[str]) -> int:
    """Asks the library whether these reports, in this order, are one story. It tells a report by its place, from 0."""
    reports = []
    for path in paths:
        with open(path, "rb") as file:
            reports.append(file.read())
    told = story(b"".join(reports))
    if told.status != 0:
        say((told.answer + told.line).decode().strip())
        return 1
    print(told.answer.decode(), end="")
    return 0


def lines_of(path: str) -> List[str]:
    with open(path) as file:
        return file.read().splitlines()


def run_node(a: argparse.Namespace) -> None:
    """Runs a node until it is ended or has stopped, or its script fails."""
    faults: List[Exception] = []

    def run(node: Node, lines: List[str]) -> None:
        try:
            run_script(node, lines, sys.stdout)
        except Closed:
            pass  # the end was asked for
        except Exception as why:
            faults.append(why)
            os.kill(os.getpid(), signal.SIGTERM)

    def watch(node: Node) -> None:
        node.join()
        os.kill(os.getpid(), signal.SIGTERM)

    signal.pthread_sigmask(signal.SIG_BLOCK, ENDS)  # (by all threads: they are waited for below)
    lines = lines_of(a.script) if a.script else []
    with node_of(a) as node, contextlib.ExitStack() as opened:
        if a.socket:
            opened.enter_context(port.Port(node, a.socket))
        if not node.sync:
            say("without --sync a crash of the machine may lose entries that others have seen; "
                "a crash of this program loses none")
        threading.Thread(target=watch, args=(node,), daemon=True).start()
        if a.script:
            threading.Thread(target=run, args=(node, lines), daemon=True).start()
        signal.sigwait(ENDS)
        if faults:
            raise faults[0]
        node.status()  # (one that has stopped says why)


def ask(a: argparse.Namespace) -> None:
    """Has the node at this socket answer the lines of the standard input."""
    try:
        for answer in port.answers(a.socket, sys.stdin.buffer):
            sys.stdout.buffer.write(answer)
            sys.stdout.buffer.flush()
    except OSError as why:
        raise OSError(f"{a.socket}: {why.strerror or why}") from None


def merge(a: argparse.Namespace) -> None:
    sys.stdout.buffer.write(judge.judge(a.logs, say, a.cut))


def make_keys(a: argparse.Namespace) -> None:
    public, secret = road.new_keys()
    with open(os.open(a.file, os.O_WRONLY | os.O_CREAT | os.O_EXCL, 0o600), "wb") as file:
        file.write(secret + b"\n")
    print(f'key = "{public.decode()}"')


def parser() -> argparse.ArgumentParser:
    whole = argparse.ArgumentParser(prog="python3 -m tellwydar.net", description=__doc__,
                                    formatter_class=argparse.RawDescriptionHelpFormatter)
    sub = whole.add_subparsers(required=True)
    p = sub.add_parser("node", help="runs a node until SIGTERM or SIGINT")
    p.set_defaults(run=run_node)
    p.add_argument("--me", type=int, required=True)
    p.add_argument("--config", required=True)
    p.add_argument("--log", required=True)
    given = p.add_mutually_exclusive_group()
    given.add_argument("--script", help="makes the calls of this file")
    given.add_argument("--socket", help="programs on this machine call it here")
    p.add_argument("--secret")
    p.add_argument("--sync", action="store_true", help="each entry is on the disk before its frames go out")
    p.add_argument("--resume", action="store_true", help="go on from the log")
    p.add_argument("--lossy", help="for tests: SEED,LOSS%%,DUPLICATES%%,REORDER%%,DELAY_MS")
    p = sub.add_parser("client", help="has a node answer the lines of the standard input")
    p.set_defaults(run=ask)
    p.add_argument("socket")
    p = sub.add_parser("merge", help="prints the report of the run that the logs are")
    p.set_defaults(run=merge)
    p.add_argument("--cut", action="store_true",
                   help="where no order has all entries, the report of those that one has")
    p.add_argument("logs", nargs="+")
    p = sub.add_parser("story", help="checks that the reports of chapters, in their order, are one story")
    p.set_defaults(run=lambda a: tell_story(a.reports))
    p.add_argument("reports", nargs="+")
    p = sub.add_parser("keys", help="makes a secret key in a new FILE, and prints its public key")
    p.set_defaults(run=make_keys)
    p.add_argument("file")
    return whole


def main(words: List[str]) -> int:
    a = parser().parse_args(words)
    if sys.stdout is None:
        sys.stdout = open(os.devnull, "w")
    try:
        status: int = a.run(a) or 0
        sys.stdout.flush()
    except FAULTS as why:
        say(str(why))
        status = 1
    let_go(sys.stdout, 1)
    let_go(sys.stderr, 2)
    return status


if __name__ == "__main__":
    take_signals()  # (a node blocks them, and waits for them)
    sys.exit(main(sys.argv[1:]))
