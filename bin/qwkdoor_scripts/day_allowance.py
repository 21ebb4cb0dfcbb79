"""What a caller has sent today, of what he may send a day. It is kept in the file `work/allowance`.

An archive is counted before it is uploaded, under its id, so that one whose upload was cut short isn't counted twice.
"""

from __future__ import annotations

import json
import os
from typing import Any

from . import durable
from .callers import Caller

FILE = "allowance"


class Allowance:
    """Today's count, which begins anew with a new date."""

    def __init__(self, path: str, caller: Caller, date: str) -> None:
        self.path = path
        self.caller = caller
        self.date = date
        self.letters = 0
        self.bytes = 0
        # The archives that were counted and aren't uploaded for sure, each with the day on which it was.
        self.counted: dict[str, str] = {}
        self.waits = ""
        self._take_over(_read(path))

    def _take_over(self, kept: Any) -> None:
        try:
            self.counted = {str(it): str(date) for it, date in kept["counted"].items()}
            if kept["date"] == self.date:
                self.letters, self.bytes = int(kept["letters"]), int(kept["bytes"])
                self.waits = str(kept["waits"])
        except (AttributeError, KeyError, TypeError, ValueError):
            return

    def was_begun(self, archive: str) -> bool:
        """Whether an archive was counted, on this day or another: it may have been uploaded then."""
        return archive in self.counted

    def is_too_much(self, letters: int, size: int) -> bool:
        """Whether an archive of so many letters and bytes has more than a whole day's."""
        return letters > self.caller.letters or size > self.caller.bytes

    def admits(self, archive: str, letters: int, size: int) -> bool:
        """Whether an archive may be dealt with today. It is counted where it may.

        It counts as a letter at least, so that one who leaves archives without any comes to an end too.
        """
        letters = min(max(letters, 1), self.caller.letters)
        if self.counted.get(archive) == self.date:
            return True
        if self.letters + letters > self.caller.letters or self.bytes + size > self.caller.bytes:
            return False
        self.letters += letters
        self.bytes += size
        self._forget_done()
        self.counted[archive] = self.date
        self._keep()
        return True

    def keep_wait(self, archive: str) -> None:
        """Keeps that it was said today that this archive waits."""
        self.waits = archive
        self._keep()

    def _forget_done(self) -> None:
        """Keeps the ids of those archives that aren't uploaded for sure."""
        work = os.path.dirname(self.path)
        done = [it for it in self.counted if not os.path.lexists(os.path.join(work, f"{it}.rep"))]
        for archive in done:
            del self.counted[archive]

    def _keep(self) -> None:
        kept = {
            "date": self.date,
            "letters": self.letters,
            "bytes": self.bytes,
            "counted": self.counted,
            "waits": self.waits,
        }
        durable.write_whole(self.path, (json.dumps(kept) + "\n").encode("ascii"))


def _read(path: str) -> Any:
    try:
        with open(path, "rb") as file:
            return json.loads(file.read())
    except (FileNotFoundError, ValueError, RecursionError):
        return None
