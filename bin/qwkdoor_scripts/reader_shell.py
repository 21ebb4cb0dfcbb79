"""What sh carries out for the caller, the editor and a command that sends; and the signals meanwhile."""

from __future__ import annotations

import contextlib
import os
import signal
import subprocess
from types import FrameType
from typing import Iterator, Optional

_KEYS = (signal.SIGINT, signal.SIGQUIT)


class Ended(Exception):
    """A signal ends the reader: everything stays as it is. The status is the one that shells give."""

    def __init__(self, number: int) -> None:
        super().__init__(f"ended by signal {number}")
        self.status = 128 + number


def end_on_signals() -> None:
    """Lets a hangup and a request to end stop the reader where it is. One that nohup keeps away stays away."""
    for number in (signal.SIGHUP, signal.SIGTERM):
        if signal.getsignal(number) != signal.SIG_IGN:
            signal.signal(number, _end)


def _end(number: int, frame: Optional[FrameType]) -> None:
    # A second signal mustn't stop what the first one lets happen: the terminal is put right.
    signal.signal(signal.SIGHUP, signal.SIG_IGN)
    signal.signal(signal.SIGTERM, signal.SIG_IGN)
    raise Ended(number)


@contextlib.contextmanager
def without_ctrl_c() -> Iterator[None]:
    """Lets Ctrl-C and Ctrl-\\ stop nothing meanwhile."""
    before = {number: signal.signal(number, signal.SIG_IGN) for number in _KEYS}
    try:
        yield
    finally:
        for number, handler in before.items():
            signal.signal(number, handler)


def edit(path: str) -> int:
    """Runs VISUAL, EDITOR or vi, which may be several words, on a file, and gives its status as `carry_out` does."""
    editor = os.environ.get("VISUAL") or os.environ.get("EDITOR") or "vi"
    return carry_out(f'{editor} "$1"', path)


def carry_out(command: str, path: str) -> int:
    """Has sh carry out a command with a path as $1. Gives its status: below 0 sh was killed.

    Ctrl-C is the command's own. Without the trap sh would end by it as well, behind a command that went on.
    """
    with without_ctrl_c():
        words = ["sh", "-c", f"trap : INT QUIT\n{command}", "sh", path]
        return subprocess.Popen(words, preexec_fn=_default_signals).wait()


def _default_signals() -> None:
    for number in _KEYS:
        signal.signal(number, signal.SIG_DFL)
