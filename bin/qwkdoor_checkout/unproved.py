"""Carries out a call by the program of the sources, which nothing has proved."""

from __future__ import annotations

import os
import signal
import subprocess
import sys
from types import FrameType
from typing import NoReturn, Optional, Sequence

from qwkdoor_scripts.failure import FAILED, Failure

from . import trial
from .kept import Keeper, work_folder

# What the program ends with where its reply can't be written.
_OUTPUT_FAULT = 6


def say(line: str) -> None:
    """Says a line on standard error, if there is one."""
    if sys.stderr is not None:
        print(f"qwkdoor: {line}", file=sys.stderr, flush=True)


def end_by_signals() -> None:
    """Has a signal end the call by an exception, so that rt ends and the folders go."""

    def end(number: int, _frame: Optional[FrameType]) -> NoReturn:
        raise SystemExit(128 + number)

    for it in (signal.SIGHUP, signal.SIGINT, signal.SIGTERM):
        if signal.getsignal(it) != signal.SIG_IGN:
            signal.signal(it, end)


def _become(program: str, words: Sequence[str]) -> NoReturn:
    """Becomes the program, with the caller's words, folder and streams."""
    # Python ignores these two, and what it becomes would do so too.
    signal.signal(signal.SIGPIPE, signal.SIG_DFL)
    signal.signal(signal.SIGXFSZ, signal.SIG_DFL)
    os.execve(program, [program, *words], trial.ENVIRONMENT)


def _run_beside(program: str, words: Sequence[str]) -> int:
    """Carries out the words by a program that goes with the call. Gives its status, as a shell does."""
    # What the caller holds open stays open, as it does where this becomes the program.
    status = subprocess.run([program, *words], env=trial.ENVIRONMENT, close_fds=False, check=False).returncode
    return status if status >= 0 else 128 - status


def _run_by_rt(top: str, place: str, words: Sequence[str]) -> int:
    """Compiles the sources and carries out the words by rt, which runs them in a folder of its own."""
    folders = [os.path.join(os.getcwd(), it) if it else it for it in words[:2]]
    ended = trial.run(top, place, [*folders, *words[2:]])
    if ended.status is None:
        say(f"rt says: {ended.said.decode('utf-8', 'replace').strip()}")
        raise Failure("the sources couldn't be compiled, or the run didn't come to its end")
    try:
        _write(1, ended.reply)
    except OSError:
        _write(2, b"output fault\n")
        return _OUTPUT_FAULT
    lines = ended.said.splitlines(keepends=True)
    _write(2, b"".join(it for it in lines if not it.startswith((b"checked: ", b"run=ended "))))
    return ended.status


def _write(handle: int, data: bytes) -> None:
    while data:
        data = data[os.write(handle, data) :]


def _carry_out(keeper: Keeper, words: Sequence[str]) -> int:
    if keeper.is_kept():
        _become(keeper.path, words)
    with work_folder() as place:
        program = keeper.obtain(place)
        if program is None:
            return _run_by_rt(keeper.top, place, words)
        if program != keeper.path:
            return _run_beside(program, words)
    _become(keeper.path, words)


def main(top: str, arguments: Sequence[str]) -> int:
    """Carries out a call: why nothing proved is run, how bin/qwkdoor was called, and the caller's words."""
    why, door, *words = arguments
    end_by_signals()
    say(f"{why}: this run isn't proved on this machine; {door} --build proves and builds it")
    try:
        return _carry_out(Keeper(top, say), words)
    except Failure as failure:
        say(str(failure))
    except OSError as error:
        say(f"the program can't be run: {error.filename or ''}: {error.strerror}")
    return FAILED
