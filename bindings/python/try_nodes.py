"""Many clusters by chance, each judged: python3 try_nodes.py RUNS [SEED], with TELLWYDAR_LIB set.

A run has 1 to 16 nodes in threads of this program, any front end, TCP or UDP on loopback, and a road that may lose,
repeat, reorder and delay. Each node makes a few calls, in chapters that may be short. Then the logs of every chapter
are merged and judged, the reports are checked to be one story, and each caller's answers are compared with those of the
reports. It says how many runs were well, and ends with status 1 where one wasn't.
"""
import os
import random
import sys
import tempfile
import threading
import time

from tellwydar import UNEQUAL, check, story
from tellwydar.net import LossyRoad, Node, core, judge
from test_net import free_addresses

MOST_SECONDS = 120


def calls_of(words, process, count):
    """Calls by chance, each with a value of its own."""
    calls = []
    for value in range(process * 1000 + 1, process * 1000 + count + 1):
        kind, register = words.choice(["read", "write", "swap", "compare_and_swap"]), words.choice("xy")
        expected = [words.choice([0, value - 1])] if kind == "compare_and_swap" else []
        calls.append((kind, register) if kind == "read" else (kind, register, *expected, value))
    return calls


def perform(node, calls, answers):
    for kind, *given in calls:
        answer = getattr(node, kind)(*given, MOST_SECONDS)
        answers.append({True: None, False: UNEQUAL}[answer] if kind == "compare_and_swap" else answer)


def told_answers(reports, process):
    """The answers that the reports give a process, but those to what it writes first in a chapter."""
    found = []
    for number, report in enumerate(reports):
        lines = [it.split() for it in report.decode().split("\n") if f"  p{process} " in it]
        opening = len(told_opening(reports[number - 1])) if number and process == 0 else 0
        for it in lines:
            if it[3] == "answer" and int(it[2][1:]) >= opening:
                found.append({"done": None, "unequal": UNEQUAL}[it[4]] if len(it) == 5 else int(it[5]))
    return found


def told_opening(report):
    """The values other than 0 with which a report ends: process 0 writes them first in the next chapter."""
    lines = report.decode().split("\n")
    calls = {f"{it[1]} {it[2]}": it[4:] for it in map(str.split, lines) if len(it) > 4 and it[3] == "call"}
    at = next(place for place, line in enumerate(lines) if line.startswith("order "))
    values = {}
    for it in lines[at + 1 : at + 1 + int(lines[at].split()[1])]:
        kind, name, *given = calls[it]
        if kind != "read" and (kind != "cas" or values.get(name, 0) == int(given[0])):
            values[name] = int(given[-1])
    return [value for value in values.values() if value != 0]


def run(seed, folder):
    words = random.Random(seed)
    count = words.choice([1, 2, 3, 3, 3, 4, 5, 8, 16])
    front, scheme = words.choice(core.FRONTS), words.choice(["tcp", "udp"])
    each = words.randint(2, 10 if count < 8 else 3)
    short = words.choice([4, 6, 65_000])
    loss, repeats, reorder, delay = words.choice([
        (0, 0, 0, 0), (0.2, 0.1, 0.2, 0.001), (0.3, 0.2, 0.3, 0), (0.05, 0, 0.3, 0.003),
    ])
    lossy = (lambda road: LossyRoad(road, seed, loss, repeats, reorder, delay)) if loss else None
    addresses = free_addresses(count, scheme)
    paths = [os.path.join(folder, f"{p}.log") for p in range(count)]
    of = {"cluster": seed + 1, "lossy": lossy, "say": lambda _: None, "chapter_operations": short}
    nodes = [Node(front, ["x", "y"], p, addresses, None, paths[p], **of) for p in range(count)]
    answers = [[] for _ in range(count)]
    threads = [threading.Thread(target=perform, args=(node, calls_of(words, p, each), answers[p]))
               for p, node in enumerate(nodes)]
    for it in threads:
        it.start()
    for it in threads:
        it.join()
    for it in nodes:
        it.close()
    reports, chapter = [], ""
    while all(os.path.exists(path + chapter) for path in paths):
        report = judge.judge([path + chapter for path in paths], lambda _: None)
        if b"no" in check(report).answer:
            return f"chapter {len(reports)}: check says no"
        reports.append(report)
        chapter = f".{len(reports)}"
    told = story(b"".join(reports))
    if told.status != 0:
        return (told.answer + told.line).decode().strip()
    for p in range(count):
        if len(answers[p]) < each:
            return f"process {p} was given {len(answers[p])} of {each} answers"
        if told_answers(reports, p) != answers[p]:
            return f"process {p} was given other answers than the reports have"
    return ""


def main(words):
    runs, first = int(words[0]), int(words[1]) if len(words) > 1 else 0
    odd, chapters, started = 0, 0, time.monotonic()
    for seed in range(first, first + runs):
        with tempfile.TemporaryDirectory() as folder:
            try:
                why = run(seed, folder)
            except Exception as fault:
                why = repr(fault)
            chapters += sum(it.startswith("0.log") and not it.endswith(".quiet") for it in os.listdir(folder))
        if why:
            odd += 1
            print(f"seed {seed}: {why}", flush=True)
        if (seed - first + 1) % 50 == 0:
            print(f"{seed - first + 1} runs, {chapters} chapters, {odd} not well, "
                  f"{time.monotonic() - started:.0f} s", flush=True)
    print(f"{runs - odd} runs well, {odd} not")
    return 1 if odd else 0


if __name__ == "__main__":
    sys.exit(main(sys.argv[1:]))
