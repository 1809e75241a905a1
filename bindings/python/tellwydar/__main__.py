"""python3 -m tellwydar replay|check|play|play-fair|verify|judge < FILE: the commands of `awreg`, and `verify` and
`judge` of `awshow`, from the library."""
import os
import signal
import sys
from typing import Callable, Optional, TextIO

from . import Told, check, play, play_fair, replay, verify
from .histories import judged

COMMANDS: dict[str, Callable[[bytes], Told]] = {
    "replay": replay, "check": check, "play": play, "play-fair": play_fair, "verify": verify, "judge": judged
}


def main(words: list[str]) -> int:
    if len(words) != 1 or words[0] not in COMMANDS:
        print(__doc__, file=sys.stderr)
        return 2
    try:
        told = COMMANDS[words[0]](sys.stdin.buffer.read())
        sys.stdout.buffer.write(told.answer)
        sys.stdout.flush()
        sys.stderr.buffer.write(told.line)
        status = told.status
    except OSError as why:
        print(why, file=sys.stderr)
        status = 1
    let_go(sys.stdout, 1)
    let_go(sys.stderr, 2)
    return status


def let_go(stream: Optional[TextIO], number: int) -> None:
    """What couldn't be written isn't tried again at the end, where it would leave a trace and a status of its own."""
    try:
        if stream is not None:
            stream.flush()
    except OSError:
        os.dup2(os.open(os.devnull, os.O_WRONLY), number)


def take_signals() -> None:
    """A program that is interrupted ends without a trace."""
    if signal.getsignal(signal.SIGINT) is signal.default_int_handler:
        signal.signal(signal.SIGINT, signal.SIG_DFL)


if __name__ == "__main__":
    take_signals()
    sys.exit(main(sys.argv[1:]))
