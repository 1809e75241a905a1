"""Whether the logs of all processes are a run, and the report of that run.

The library finds an order of the steps of all logs that is a run (`tellwydar.merge_logs`), and makes that run anew
(`tellwydar.verify`).
"""
from typing import Callable, List, NamedTuple, Sequence

from .. import LogHead, LogsFault, LogsRefused, first_entries, merge_logs, verify
from .logfile import HEAD_LINES, LogFault, differs, head_of, open_log, say_cut


class Log(NamedTuple):
    path: str
    text: bytes
    head: LogHead


def read(path: str, say: Callable[[str], None]) -> Log:
    """Reads a log, each entry of which is a step of its process. What a crash cut at its end is dropped with a word."""
    with open(path, "rb") as file:
        text = file.read()
    with open_log(path, text, True) as node:
        say_cut(path, text, node, say)
    return Log(path, text, head_of(path, text))


def _why(logs: Sequence[Log], refused: LogsRefused) -> str:
    """Why there is no record of these logs, by their paths and lines."""
    if refused.why is LogsFault.MISSING:
        return f"no log of process {refused.place}"
    if refused.why in (LogsFault.NO_LOG, LogsFault.TOO_MANY, LogsFault.OUT_OF_MEMORY):
        return refused.told
    log, first = logs[refused.log], logs[0]
    if refused.why is LogsFault.OTHER and (both := differs(log.head._replace(process=first.head.process), first.head)):
        return f"{log.path} is of {both[0]}, and {first.path} of {both[1]}"
    if refused.why is LogsFault.TWICE:
        return f"{log.path} and {logs[refused.place].path} are both of process {log.head.process}"
    if refused.why is LogsFault.UNFAITHFUL:
        return f"{log.path}: line {HEAD_LINES + refused.place + 1}: {refused.told}"
    return f"{log.path}: {refused.told}"


def judge(paths: Sequence[str], say: Callable[[str], None], cut: bool = False) -> bytes:
    """The report of the run that the logs are, or a `LogFault`. With `cut`, a step that is in no run with the others is
    left out with a word, and so is all that its process did later."""
    logs: List[Log] = [read(path, say) for path in paths]
    while True:
        try:
            record = merge_logs([one.text for one in logs])
            break
        except LogsRefused as refused:
            why = _why(logs, refused)
            if not cut or refused.why is not LogsFault.UNFAITHFUL:
                raise LogFault(why) from None
            say(f"cut: {why}")
            log = logs[refused.log]
            logs[refused.log] = log._replace(text=first_entries(log.text, refused.place))
    report = verify(record)
    if report.status:
        raise LogFault(report.line.decode().strip())
    return report.answer
