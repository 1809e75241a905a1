"""Calls as lines, of a script and of a program at a node's port, and what is answered.

A line is either words, as `write x 5`, or an object in the words of a history (docs/JUDGE.md of the repository), so
that what went over a port can be judged: `{"f": "write", "key": "x", "value": 5}`.
"""
import dataclasses
import json
import re
from typing import Any, Dict, List, NamedTuple, Optional, Sequence, Tuple, Type, Union

from .. import UNEQUAL, Answer, CompareAndSwap, Op, Read, Swap, Write
from .core import answer_text

_OPS: Dict[str, Type[Op]] = {"read": Read, "write": Write, "swap": Swap, "cas": CompareAndSwap}
_NAMES = {op: name for name, op in _OPS.items()}
_COUNTS = {"read": 0, "write": 1, "swap": 1, "cas": 2}  # how many values a call has
_DEEPEST = 127  # so many brackets stand within one another at most, as in what the judge reads
_INTEGER = f"integer from 0 to {2**64 - 1}"
_WANTED = {
    "read": "null or nothing", "write": f"an {_INTEGER}", "swap": f"an {_INTEGER}",
    "cas": f"an array of two, each an {_INTEGER}",
}


class End(NamedTuple):
    """How a call ended, by the types of a history: ok, it was answered; fail, it surely did nothing; or info, nobody
    knows whether it takes effect."""

    type: str
    answer: Answer = None
    error: str = ""  # why it wasn't answered


def _number(word: str) -> int:
    if not re.fullmatch("[+]?[0-9]+|-0*[1-9][0-9]*", word):  # (those below 0 are told to be no values)
        raise ValueError("no number")
    return int(word)


class Words:
    """Calls that are spelled as words."""

    def call(self, text: str, names: Sequence[str]) -> Op:
        """The call of one of these registers that a line is. `ValueError` says why it is none."""
        f, *words = text.split() or [""]
        if f not in _OPS or len(words) != 1 + _COUNTS[f]:
            raise ValueError("no call")
        if words[0] not in names:
            raise ValueError("no register")
        return _OPS[f](names.index(words[0]), *map(_number, words[1:]))

    def answer(self, op: Op, names: Sequence[str], end: End) -> str:
        """The line that tells how a call ended."""
        if end.type == "ok":
            return answer_text(end.answer)
        return self.refusal(end.error) if end.type == "fail" else f"unknown: {end.error}"

    def refusal(self, why: str) -> str:
        """The line that refuses one that is no call."""
        return f"refused: {why}"


class Objects:
    """Calls that are spelled as objects of JSON."""

    def call(self, text: str, names: Sequence[str]) -> Op:
        members = _object(text)
        f, key, value = [_member(members, it) for it in ("f", "key", "value")]
        if not isinstance(f, str) or f not in _OPS:
            raise ValueError("wanted f, one of read, write, swap and cas")
        if not isinstance(key, str) or key not in names:
            raise ValueError("wanted key, the name of a register")
        return _OPS[f](names.index(key), *_values(f, value))

    def answer(self, op: Op, names: Sequence[str], end: End) -> str:
        f, (register, *values) = _NAMES[type(op)], dataclasses.astuple(op)
        given = values if f == "cas" else values[0] if values else None
        kind, error = ("fail", "unequal") if end.answer is UNEQUAL else (end.type, end.error)
        value = end.answer if isinstance(end.answer, int) else given
        told = {"type": kind, "f": f, "key": names[register], "value": value}
        return json.dumps({**told, "error": error} if error else told)

    def refusal(self, why: str) -> str:
        return json.dumps({"type": "fail", "error": why})


WORDS, OBJECTS = Words(), Objects()


def form_of(text: str) -> Union[Words, Objects]:
    """How a line is spelled, and so the answer to it."""
    return OBJECTS if text.startswith("{") else WORDS


# --- objects


class _Members(List[Tuple[str, Any]]):
    """The members of an object, in their order."""


def _integer(text: str) -> int:
    return -1 if text.startswith("-") else int(text)  # (-0 is no integer to the judge, and none below it a value)


def _constant(text: str) -> None:
    raise ValueError(f"{text} is no JSON")


def _depth(value: object) -> int:
    """How many brackets of a value stand within one another."""
    if isinstance(value, _Members):
        return 1 + max((_depth(it) for _, it in value), default=0)
    return 1 + max(map(_depth, value), default=0) if isinstance(value, list) else 0


def _object(text: str) -> _Members:
    """The object that a line is."""
    try:
        read = json.loads(text, parse_int=_integer, parse_constant=_constant, object_pairs_hook=_Members)
        if _depth(read) <= _DEEPEST and isinstance(read, _Members):
            return read
    except (ValueError, RecursionError):
        pass
    raise ValueError("wanted a JSON object")


def _member(members: _Members, name: str) -> Optional[Any]:
    """The value of the member of this name, None where there is none. One that stands twice is refused, since readers
    of JSON take it in several ways."""
    found = [value for it, value in members if it == name]
    if len(found) > 1:
        raise ValueError(f"wanted one {name}")
    return found[0] if found else None


def _values(f: str, value: Any) -> Tuple[int, ...]:
    """The values of a call of this name: integers of 64 bits without sign, and so no booleans."""
    given: Any = value if f == "cas" else [] if f == "read" and value is None else [value]
    is_list = isinstance(given, list) and len(given) == _COUNTS[f]
    if not is_list or not all(type(it) is int and 0 <= it < 2**64 for it in given):
        raise ValueError(f"wanted value, {_WANTED[f]}")
    return tuple(given)
