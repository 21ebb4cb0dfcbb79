"""One run at a time in a folder."""

from __future__ import annotations

import fcntl
import os
import time
from types import TracebackType
from typing import Optional, Type

from .failure import BUSY, Failure


class Lock:
    """Holds a file's lock while the block is carried out. The file stays, and a kill gives the lock back."""

    def __init__(self, path: str, seconds: float = 0) -> None:
        self.path = path
        self.seconds = seconds
        self.handle = -1

    def __enter__(self) -> "Lock":
        self.handle = os.open(self.path, os.O_RDWR | os.O_CREAT | os.O_CLOEXEC | os.O_NOFOLLOW, 0o600)
        limit = time.monotonic() + self.seconds
        while not self._taken():
            if time.monotonic() >= limit:
                os.close(self.handle)
                raise Failure(self._said(), BUSY)
            time.sleep(0.05)
        return self

    def _taken(self) -> bool:
        try:
            fcntl.flock(self.handle, fcntl.LOCK_EX | fcntl.LOCK_NB)
        except BlockingIOError:
            return False
        return True

    def _said(self) -> str:
        waited = f" for {self.seconds:g} seconds" if self.seconds else ""
        return f"another run was at work in {os.path.dirname(self.path)}{waited}"

    def __exit__(
        self,
        kind: Optional[Type[BaseException]],
        error: Optional[BaseException],
        trace: Optional[TracebackType],
    ) -> None:
        os.close(self.handle)
