"""The words with which a script is called."""

from __future__ import annotations

import contextlib
import getopt
import os
import sys
from dataclasses import dataclass
from typing import Callable, Mapping

from .failure import DONE, FAILED, WRONG_WORDS, Failure, reason

# What a shell gives for a process that was ended by SIGINT.
_INTERRUPTED = 130
MOST_SECONDS = 86_400
USUAL_SECONDS = 600


class HelpAsked(Exception):
    """The words ask for the usage page."""


@dataclass(frozen=True)
class Call:
    """The folders of a board, how long to wait for a run that is at work, and the options with their words."""

    data: str
    shelf: str
    seconds: int
    options: Mapping[str, str]


def read(words: "list[str]", short: str, long: "list[str]", usage: str) -> Call:
    """Reads the words of a call: options, before DATA and SHELF or behind them. Failure with the line of usage else."""
    try:
        found, rest = getopt.gnu_getopt(words, "w:" + short, ["help", *long])
    except getopt.GetoptError:
        raise Failure(usage, WRONG_WORDS) from None
    options = dict(found)
    if "--help" in options:
        raise HelpAsked()
    if len(rest) != 2 or "" in rest:
        raise Failure(usage, WRONG_WORDS)
    return Call(rest[0], rest[1], number(options.get("-w", str(USUAL_SECONDS)), 0, MOST_SECONDS, usage), options)


def number(word: str, least: int, most: int, usage: str) -> int:
    """Gives the number of at most five digits that a word is. Failure with the line of usage where it is none."""
    if not (word.isascii() and word.isdigit() and len(word) <= 5 and least <= int(word) <= most):
        raise Failure(usage, WRONG_WORDS)
    return int(word)


def shelf_folder(path: str) -> str:
    """Gives the whole path of SHELF, which is there."""
    if not os.path.isdir(path):
        raise Failure(f"{path} isn't a folder that can be entered")
    return os.path.abspath(path)


def carried_out(name: str, page: str, work: Callable[[], int]) -> int:
    """Does a script's work, and says on standard error what ends it. Gives the status."""
    try:
        return work()
    except HelpAsked:
        return _say_page(name, page)
    except Failure as failure:
        return _say_failure(name, failure)
    except KeyboardInterrupt:
        return _INTERRUPTED
    except MemoryError:
        return _say_failure(name, Failure("out of memory"))
    except OSError as error:
        return _say_failure(name, Failure(reason(error), FAILED))


def say(text: str) -> None:
    """Prints a text. Failure where the output takes none."""
    try:
        encoding = sys.stdout.encoding or "utf-8"
        sys.stdout.write(text.encode(encoding, "replace").decode(encoding))
        sys.stdout.flush()
    except OSError as error:
        raise Failure(f"can't write to standard output: {error.strerror}") from error


def complain(line: str) -> None:
    """Says a line on standard error, of which a terminal obeys nothing. Where nobody hears it, all else is done."""
    with contextlib.suppress(OSError):
        print("".join(it if it.isprintable() else "?" for it in line), file=sys.stderr, flush=True)


def _say_page(name: str, page: str) -> int:
    try:
        say(page)
    except Failure as failure:
        return _say_failure(name, failure)
    return DONE


def _drop_output() -> None:
    """Forgets what standard output didn't take: the exit would try it again, and end with a status of its own."""
    try:
        sys.stdout.flush()
    except OSError:
        os.dup2(os.open(os.devnull, os.O_WRONLY), sys.stdout.fileno())


def _say_failure(name: str, failure: Failure) -> int:
    _drop_output()
    line = str(failure)
    complain(line if line.startswith("usage: ") else f"{name}: {line}")
    return failure.status
