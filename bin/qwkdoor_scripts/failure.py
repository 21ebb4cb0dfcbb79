"""How a script ends when it can't go on."""

from __future__ import annotations

import os

DONE = 0
REFUSED = 1
WRONG_WORDS = 2
FAILED = 70
BUSY = 75


class Failure(Exception):
    """A script can't go on: the line that it says on standard error, and its status."""

    def __init__(self, line: str, status: int = FAILED) -> None:
        super().__init__(line)
        self.status = status


def reason(error: OSError) -> str:
    """Gives what the system said of a file, with its name where the system names one."""
    words = error.strerror or str(error)
    return f"{os.fsdecode(error.filename)}: {words}" if error.filename is not None else words
