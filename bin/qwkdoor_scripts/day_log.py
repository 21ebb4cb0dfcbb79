"""What a day says: a line of SHELF/mail/log for each command, and one on standard error for what went wrong."""

from __future__ import annotations

import re

from . import call
from .characters import shown
from .failure import DONE, REFUSED, Failure
from .runlog import Clock, append, moment

# A control character of more than one byte, where a terminal reads UTF-8.
_OBEYED = re.compile(rb"[\x00-\x1f\x7f]|\xc2[\x80-\x9f]")


def one_line(text: str) -> bytes:
    """Gives a text as bytes without control characters: a file's name may have some."""
    # A byte of a name that isn't in the system's characters is a surrogate.
    is_name = any("\udc80" <= it <= "\udcff" for it in text)
    data = text.encode("utf-8", "surrogateescape") if is_name else text.encode("latin-1", "replace")
    return _OBEYED.sub(b"?", data)


class DayLog:
    """The log, and the status with which the day ends."""

    def __init__(self, path: str, clock: Clock) -> None:
        self.path = path
        self.clock = clock
        self.status = DONE
        self.faults = 0

    def note(self, name: str, command: str, status: int, text: str) -> None:
        """Adds a line. The file is opened anew, since logrotate may have moved the old one away."""
        try:
            append(self.path, one_line(f"{moment(self.clock)} {name} {command} {status} {text}"))
        except OSError as error:
            raise Failure(f"can't write to {self.path}: {error.strerror}") from error

    def complain(self, name: str, text: str) -> None:
        """Says on standard error what went wrong, for cron's mail. The day ends with 1 then."""
        self.faults += 1
        self.status = REFUSED
        who = "" if name == "-" else f"{name}: "
        call.complain(f"qwkdoor-day: {who}{shown(one_line(text), 'latin-1')}")

    def fault(self, name: str, what: str, text: str) -> None:
        """Says what went wrong in both places."""
        self.note(name, what, REFUSED, text)
        self.complain(name, text)
