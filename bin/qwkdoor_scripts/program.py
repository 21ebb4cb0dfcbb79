"""The program, called with words."""

from __future__ import annotations

import os
import shutil
import subprocess
from dataclasses import dataclass
from typing import Sequence

from .failure import FAILED, Failure

# The status of a command that was carried out, and of one that was refused. From 3 to 7 the board, the disk, the shelf,
# the output or the memory failed (docs/REFERENCE.md).
DONE = 0
REFUSED = 1
FIRST_FAULT = 3
LAST_FAULT = 7


@dataclass(frozen=True)
class Reply:
    """What a command said: its status, its lines as bytes of the board's characters, and what was on standard error."""

    status: int
    lines: "list[bytes]"
    error: str

    @property
    def last(self) -> str:
        """The last line, which says how it ended, each byte as the character with its number."""
        return self.lines[-1].decode("latin-1") if self.lines else ""

    @property
    def fault(self) -> str:
        """What was said of a fault, in one line."""
        return " ".join((self.error.strip() or self.last).split("\n"))


class Program:
    """qwkdoor over a board's folder and a shelf."""

    def __init__(self, path: str, data: str, shelf: str) -> None:
        self.path = path
        self.data = data
        self.shelf = shelf
        # What a command holds as long as it runs: a lock, so that the next run waits for one whose script was killed.
        self.held: "tuple[int, ...]" = ()

    def run(self, *words: str) -> Reply:
        """Carries out a command. Failure where the program didn't run, or was killed."""
        ran = self._ran(words, subprocess.PIPE)
        return _reply(ran, ran.stdout)

    def run_into(self, path: str, *words: str) -> Reply:
        """Carries out a command whose reply goes behind a file's bytes as it is said, and so outlives a kill."""
        handle = os.open(path, os.O_RDWR | os.O_APPEND | os.O_CREAT | os.O_NOFOLLOW | os.O_CLOEXEC, 0o600)
        with os.fdopen(handle, "rb") as file:
            before = os.fstat(handle).st_size
            ran = self._ran(words, handle)
            file.seek(before)
            return _reply(ran, file.read())

    def _ran(self, words: Sequence[str], output: int) -> "subprocess.CompletedProcess[bytes]":
        try:
            ran = subprocess.run(
                [self.path, self.data, self.shelf, *words],
                stdin=subprocess.DEVNULL,
                stdout=output,
                stderr=subprocess.PIPE,
                pass_fds=self.held,
                check=False,
            )
        except OSError as error:
            raise Failure(f"{self.path} didn't run: {error.strerror}") from error
        if not DONE <= ran.returncode <= LAST_FAULT:
            raise Failure(f"{self.path} {_ended(ran)}", FAILED)
        return ran


def _ended(ran: "subprocess.CompletedProcess[bytes]") -> str:
    """Says how a run ended that the program itself didn't end, with the last line that it said."""
    said = ran.stderr.decode("utf-8", "replace").strip().rpartition("\n")[2]
    end = f"was killed by signal {-ran.returncode}" if ran.returncode < 0 else f"ended with status {ran.returncode}"
    return f"{end}: {said}" if said else end


def _reply(ran: "subprocess.CompletedProcess[bytes]", output: bytes) -> Reply:
    said = output.split(b"\n")
    return Reply(ran.returncode, said[:-1] if said[-1] == b"" else said, ran.stderr.decode("utf-8", "replace"))


def find(beside: str) -> str:
    """Gives the path of the program: what QWKDOOR in the environment names, or the qwkdoor beside a script."""
    path = os.environ.get("QWKDOOR") or os.path.join(os.path.dirname(os.path.realpath(beside)), "qwkdoor")
    found = shutil.which(path)
    if found is None:
        raise Failure(f"the program {path} isn't there, or can't be run")
    return found
