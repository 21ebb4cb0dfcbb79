"""The log of a script, a line for each step, which opens the file anew, so that it may be moved away at any moment."""

from __future__ import annotations

import os
import time
from typing import Callable

from .characters import shown

Clock = Callable[[], float]


def moment(clock: Clock = time.time, form: str = "%Y-%m-%dT%H:%M:%SZ") -> str:
    """Gives the moment in UTC."""
    return time.strftime(form, time.gmtime(clock()))


def append(path: str, line: bytes) -> None:
    """Writes a line behind the others."""
    handle = os.open(path, os.O_WRONLY | os.O_APPEND | os.O_CREAT | os.O_CLOEXEC, 0o600)
    with os.fdopen(handle, "wb") as file:
        file.write(line + b"\n")


class RunLog:
    """Appends lines: the moment, what the step was about, the step, its status, and in words how it ended."""

    def __init__(self, path: str) -> None:
        self.path = path

    def note(self, about: str, step: str, status: int, words: str) -> None:
        """Writes the line of a step, of whose words no character is obeyed by a terminal, and none ends the line."""
        said = shown(words.encode("utf-8", "replace"), "utf-8")
        append(self.path, f"{moment()} {about} {step} {status} {said}".encode("utf-8", "replace"))
