"""A terminal for the tests: the reader behind a pty, its keys, and the screen that it draws."""

from __future__ import annotations

import fcntl
import os
import pty
import re
import select
import struct
import termios
import time
from typing import Mapping

from tests.reader_support import READER

_CLEAR = "\x1b[H\x1b[2J"
_POSITION = re.compile("\x1b\\[[0-9]+;1H")
_SECONDS = 60.0


class Screen:
    """A terminal of some columns and lines."""

    def __init__(self, environment: Mapping[str, str], *words: str, columns: int = 60, rows: int = 12) -> None:
        self.rows = rows
        self.shown = b""
        self.child, self.terminal = pty.fork()
        if self.child == 0:
            # The reader is started once the terminal has its size.
            os.read(0, 1)
            os.execve(READER, [READER, *words], dict(environment))
        fcntl.ioctl(self.terminal, termios.TIOCSWINSZ, struct.pack("HHHH", rows, columns, 0, 0))
        os.write(self.terminal, b"\n")

    def lines(self) -> "list[str]":
        """Gives the lines of the last screen that was drawn whole, without blanks at their ends."""
        last = self.shown.decode("utf-8", "replace").rpartition(_CLEAR)[2]
        body = _POSITION.sub("", last).replace("\x1b[7m", "").replace("\x1b[m", "").replace("\r", "")
        return [line.rstrip() for line in body.split("\n")]

    def press(self, keys: str) -> None:
        """Presses keys."""
        os.write(self.terminal, keys.encode())

    def until(self, *words: str) -> "list[str]":
        """Waits until a screen with all of these words stands there, and gives its lines."""
        end = time.monotonic() + _SECONDS
        while not self._has(words):
            if time.monotonic() > end or not self._read():
                raise AssertionError(f"the screen lacks {words}: {self.lines()}")
        return self.lines()

    def after(self, keys: str, *words: str) -> "list[str]":
        """Presses keys, and waits for a screen that was drawn after them and has these words."""
        self.shown = b""
        self.press(keys)
        return self.until(*words)

    def _has(self, words: "tuple[str, ...]") -> bool:
        text = "\n".join(self.lines())
        return bool(self.shown) and all(it in text for it in words) and not self._is_waiting()

    def _is_waiting(self) -> bool:
        return bool(select.select([self.terminal], [], [], 0.1)[0])

    def _read(self) -> bool:
        if not select.select([self.terminal], [], [], _SECONDS)[0]:
            return False
        try:
            part = os.read(self.terminal, 65536)
        except OSError:
            return False
        self.shown += part
        return bool(part)

    def end(self) -> int:
        """Waits for the end, and gives the status."""
        while self._read():
            pass
        os.close(self.terminal)
        return os.waitstatus_to_exitcode(os.waitpid(self.child, 0)[1])

    def hang_up(self) -> int:
        """Closes the terminal, and gives the status with which the reader ends."""
        os.close(self.terminal)
        return os.waitstatus_to_exitcode(os.waitpid(self.child, 0)[1])
