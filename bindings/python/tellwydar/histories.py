"""What a system answered its clients, judged: is it linearizable?

A history is a text (lines of JSON, EDN as Jepsen writes it, or a report: docs/JUDGE.md of the repository), or rows, in
the order in which they happened:

    rows = []
    rows.append({"process": 0, "type": "invoke", "f": "write", "key": "x", "value": 1})
    client.put("x", 1)
    rows.append({"process": 0, "type": "ok", "f": "write", "key": "x", "value": 1})
    assert judge(rows).linearizable
"""
import ctypes
import json
from dataclasses import dataclass
from typing import Any, Iterable, Literal, Mapping, Optional, Sequence, TypedDict, Union

from . import Told, _Lengths, _library, _told_by

Word = Union[int, str, None]
_USUAL: Any = object()  # no first value was given


class _Named(TypedDict):
    process: Union[int, str]
    type: Literal["invoke", "ok", "fail", "info"]
    f: Literal["read", "write", "swap", "cas"]


class Row(_Named, total=False):
    """A row, as a line of JSON has it; rows may have further keys, and be any mappings."""

    key: Word
    value: Union[Word, Sequence[Word]]
    error: Any


class HistoryRefused(ValueError):
    """The text is no history, or memory was refused. It says which line is wrong, or which row from
    1, and what was wanted."""


@dataclass(frozen=True)
class Judgement:
    """What the judge says of a history."""

    linearizable: bool
    """Whether each operation gets a moment between its call and its answer, such that one memory
    answers all of them so."""
    text: str
    """What `awshow judge` prints: a word, and lines that say more; or the report that was asked for."""

    def __bool__(self) -> bool:
        return self.linearizable


def _lines(rows: Iterable[Mapping[str, object]]) -> str:
    return "".join(json.dumps(dict(row), allow_nan=False) + "\n" for row in rows)


def judged(history: bytes, report: bool = False, first: Optional[str] = None) -> Told:
    """What `awshow judge` tells of a text, with `report` as of the flag `--report`, and with a text as of `--first`."""

    def call(room: Any, size: int, line: Any, line_size: int, lengths: _Lengths) -> int:
        rest = report, room, size, line, line_size, ctypes.byref(lengths)
        if first is None:
            status: int = _library.tellwydar_judge(history, len(history), *rest)
        else:
            value = first.encode()
            status = _library.tellwydar_judge_from(history, len(history), value, len(value), *rest)
        return status

    if not isinstance(history, bytes):
        raise TypeError("a text is bytes")
    return _told_by(len(history), call)


def judge(
    history: Union[str, bytes, Iterable[Mapping[str, object]]], *, report: bool = False, first: Word = _USUAL
) -> Judgement:
    """Judges a history: a text, or rows, which are written as lines of JSON.

    `first` is the first value of registers; where it isn't given that is null, or None in rows, if some answer is null
    or a compare-and-swap expects null, and else 0. A report, whose registers begin with 0, takes none. With `report`
    the text of a linearizable history is a report with the points that were found, which `check` judges anew. A history
    that is none raises HistoryRefused."""
    text = history if isinstance(history, (str, bytes)) else _lines(history)
    first_text = None if first is _USUAL else json.dumps(first, allow_nan=False)
    told = judged(text.encode() if isinstance(text, str) else text, report, first_text)
    is_refused = told.line or told.status != 0 and not told.answer.startswith(b"no\n")
    if is_refused:
        raise HistoryRefused(told.line.decode().rstrip("\n") or "refused: out of memory")
    return Judgement(told.status == 0, told.answer.decode())
