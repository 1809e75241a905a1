"""One process a machine, over ZeroMQ or UDP. Its steps and its log are those of a proved node (`tellwydar.Node`), and
the library judges the logs of all afterwards. What nodes send each other is told in docs/FORMATS.md."""
from .. import Refused
from .core import Busy, Closed, NodeFailed, Paused, TimedOut
from .logfile import LogFault
from .node import Node
from .road import Keys, LossyRoad, Road

__all__ = [
    "Busy", "Closed", "Keys", "LogFault", "LossyRoad", "Node", "NodeFailed", "Paused", "Refused", "Road", "TimedOut",
]
