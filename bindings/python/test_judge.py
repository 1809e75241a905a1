"""An example for a test suite: calls of threads are written down and judged. pytest runs it, and so does
python3 -m unittest test_judge, with TELLWYDAR_LIB set."""
import threading
import unittest
from typing import Callable, Dict, List, Optional, Union

from tellwydar import HistoryRefused, Row, check, judge


class Registers:
    """A dictionary of threads. Each thread keeps a copy of it, which is made anew under the lock, before each
    operation. With the lock left out a copy stays what it was."""

    def __init__(self, threads: int, with_lock: bool):
        self.memory: Dict[str, int] = {}
        self.copies: List[Dict[str, int]] = [{} for _ in range(threads)]
        self.lock = threading.Lock() if with_lock else None

    def _operate(self, thread: int, operation: Callable[[Dict[str, int]], Optional[int]]) -> Optional[int]:
        if self.lock is None:
            done = operation(self.copies[thread])
            self.memory.update(self.copies[thread])
            return done
        with self.lock:
            self.copies[thread] = dict(self.memory)
            done = operation(self.copies[thread])
            self.memory = dict(self.copies[thread])
            return done

    def read(self, thread: int, key: str) -> Optional[int]:
        return self._operate(thread, lambda copy: copy.get(key))

    def write(self, thread: int, key: str, value: int) -> None:
        self._operate(thread, lambda copy: copy.update({key: value}))


class Recorder:
    """Calls, each written down before it is made and once it is answered. One append is one step, so the rows stand in
    the order in which things happened."""

    def __init__(self, registers: Registers):
        self.registers = registers
        self.rows: List[Row] = []

    def read(self, thread: int, key: str) -> None:
        self.rows.append({"process": thread, "type": "invoke", "f": "read", "key": key})
        value = self.registers.read(thread, key)
        self.rows.append({"process": thread, "type": "ok", "f": "read", "key": key, "value": value})

    def write(self, thread: int, key: str, value: int) -> None:
        self.rows.append({"process": thread, "type": "invoke", "f": "write", "key": key, "value": value})
        self.registers.write(thread, key, value)
        self.rows.append({"process": thread, "type": "ok", "f": "write", "key": key, "value": value})


def run(*calls: Callable[[], None]) -> None:
    """Makes the calls, each in a thread of its own, at the same time."""
    threads = [threading.Thread(target=it) for it in calls]
    for it in threads:
        it.start()
    for it in threads:
        it.join()


def test_threads_under_a_lock_are_linearizable() -> None:
    recorder = Recorder(Registers(4, with_lock=True))

    def work(thread: int) -> Callable[[], None]:
        def calls() -> None:
            for number in range(50):
                key = "xy"[number % 2]
                recorder.write(thread, key, 100 * thread + number)
                recorder.read(thread, "yx"[thread % 2])
        return calls

    run(*(work(thread) for thread in range(4)))
    assert len(recorder.rows) == 800
    judged = judge(recorder.rows)
    assert judged.linearizable, judged.text
    report = judge(recorder.rows, report=True)
    assert check(report.text.encode()).answer == b"serial yes\npoints yes\n"


def test_with_the_lock_left_out_a_read_is_stale() -> None:
    recorder = Recorder(Registers(2, with_lock=False))
    run(lambda: recorder.write(0, "x", 1))  # (it is done before the read is called)
    run(lambda: recorder.read(1, "x"))
    judged = judge(recorder.rows)
    assert not judged.linearizable
    assert judged.text.startswith('no\nkey "x": not linearizable\n  by line 4: process 1 read null\n  possible: 1\n')


def test_the_same_under_the_lock() -> None:
    recorder = Recorder(Registers(2, with_lock=True))
    run(lambda: recorder.write(0, "x", 1))
    run(lambda: recorder.read(1, "x"))
    assert judge(recorder.rows)


READ = '{"process": "a", "type": "invoke", "f": "read"}\n{"process": "a", "type": "ok", "f": "read", "value": 0}\n'
EDN = ("[{:process 0, :type :invoke, :f :cas, :value [:x [0 1]]}\n"
       " #jepsen.history.Op{:process 0, :type :ok, :f :cas, :value [:x [0 1]]}]\n")


def test_texts_are_judged() -> None:
    texts: List[Union[str, bytes, List[Row]]] = [READ, EDN, READ.encode(), EDN.encode(), "", []]
    for text in texts:
        assert judge(text).text.startswith("yes\n"), text
    assert judge(EDN).text.splitlines()[1] == 'key "x": linearizable'
    other = judge(EDN.replace("[0 1]", "[1 2]"))  # (nobody wrote 1)
    assert not other and "  by line 2: process 0 cas done\n" in other.text


FIVE = READ.replace('"value": 0', '"value": 5')


def test_registers_begin_with_the_first_value() -> None:
    assert judge(READ) and not judge(FIVE)
    assert judge(FIVE, first=5) and not judge(READ, first=5)
    assert judge(READ.replace("0}", '"idle"}'), first="idle")
    assert not judge(READ, first=None)
    assert judge(FIVE, first=5, report=True).text.startswith("awreg report 2\n")
    try:
        judge(judge(READ, report=True).text, first=0)
    except HistoryRefused as refused:
        assert str(refused) == "refused: --first is for lines of JSON and EDN: the registers of a report begin with 0"
    else:
        raise AssertionError("a report takes no first value")


def refusal(history: object) -> str:
    try:
        judge(history)  # type: ignore[arg-type]
    except HistoryRefused as refused:
        return str(refused)
    raise AssertionError("it isn't refused")


def test_what_is_no_history_is_refused() -> None:
    row = {"process": 0, "type": "invoke", "f": "write", "value": 1}
    assert refusal([row, row]) == "refused: line 2: the process has a call under way"
    assert refusal([{**row, "process": True}]) == "refused: line 1: wanted process, an integer or a string"
    assert refusal([{**row, "value": 1.5}]) == "refused: line 1: wanted value, an integer, a string or null"
    triple = {**row, "f": "cas", "value": (1, 2, 3)}
    assert refusal([triple]) == "refused: line 1: wanted value, the expected value and the new one"
    assert refusal("{:process 0") == "refused: line 1: wanted the end of what is begun"
    assert refusal(b"\xff") == "refused: input: not text"


def load_tests(*_: object) -> unittest.TestSuite:
    """The same for unittest."""
    return unittest.TestSuite(
        unittest.FunctionTestCase(it) for name, it in globals().items() if name.startswith("test_"))
