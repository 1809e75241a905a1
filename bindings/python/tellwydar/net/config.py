"""The configuration of a cluster, which is the same on all machines: a document of TOML, each
part of which is looked at."""
import tomllib
from typing import Any, Callable, Dict, Iterable, Tuple

from .road import RoadFault

Kind = Tuple[str, Callable[[Any], bool]]  # what a value should be, and whether one is that


def _of(*kinds: type) -> Callable[[Any], bool]:
    return lambda it: type(it) in kinds  # (a boolean is no integer)


def _list_of(kind: type) -> Callable[[Any], bool]:
    return lambda it: isinstance(it, list) and all(isinstance(one, kind) for one in it)


def _is_time(it: Any) -> bool:
    return type(it) in (int, float) and 0.1 <= it <= 60_000


_NUMBER: Kind = ("a number", lambda it: type(it) is int and it >= 0)
_NEEDED: Dict[str, Kind] = {
    "cluster": ("a number", _of(int)), "front": ("a text", _of(str)), "registers": ("a list of names", _list_of(str)),
    "node": ("a list of tables", _list_of(dict)),
}
_GIVEN: Dict[str, Kind] = {
    "sync": ("true or false", _of(bool)), "look_ms": ("a number of milliseconds from 0.1 to 60000", _is_time),
    "chapter_operations": _NUMBER, "chapter_entries": _NUMBER,
}
_OF_NODE: Dict[str, Kind] = {"address": ("a text", _of(str)), "key": ("a text", _of(str))}


def _look(path: str, table: Dict[str, Any], needed: Iterable[str], kinds: Dict[str, Kind]) -> None:
    for name in needed:
        if name not in table:
            raise RoadFault(f"{path}: no {name}")
    for name, (what, is_so) in kinds.items():
        if name in table and not is_so(table[name]):
            raise RoadFault(f"{path}: {name} should be {what}")


def read_config(path: str) -> Dict[str, Any]:
    """The configuration in a file, of which each value is one of its kind."""
    with open(path, "rb") as file:
        try:
            config = tomllib.load(file)
        except ValueError as why:
            raise RoadFault(f"{path}: {why}") from None
    _look(path, config, _NEEDED, {**_NEEDED, **_GIVEN})
    for node in config["node"]:
        _look(path, node, ["address"], _OF_NODE)
    if len({"key" in it for it in config["node"]}) > 1:
        raise RoadFault(f"{path}: a key is of all nodes or of none")
    return config
