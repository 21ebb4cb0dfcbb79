"""What tests over a board share: the board, packets of FTS-0001, and runs that are killed."""

from __future__ import annotations

import os
import shutil
import struct
import subprocess
import sys
import tempfile
import unittest
from typing import Callable, Optional, Sequence

from tests.support import MEMORY, PROGRAM, TOP, needs_program

BIN = os.path.join(TOP, "bin")
SETUP = ("board: Test Board", "city: Springfield", "phone: 555-0100", "sysop: Sam Sysop", "bbsid: TESTBBS", "serial: 1")


class Ran:
    """How a script ended: its status, and what it said."""

    def __init__(self, ran: "subprocess.CompletedProcess[str]") -> None:
        self.status = ran.returncode
        self.said = ran.stdout
        self.error = ran.stderr


@needs_program
class BoardCase(unittest.TestCase):
    """A test with a board of its own, and a shelf."""

    def setUp(self) -> None:
        self.top = tempfile.mkdtemp(dir=MEMORY)
        self.addCleanup(shutil.rmtree, self.top)
        self.data = os.path.join(self.top, "data")
        self.shelf = os.path.join(self.top, "shelf")
        os.mkdir(self.shelf)

    def door(self, *words: str) -> "list[str]":
        """Carries out a command of the program. Gives the lines that it said."""
        ran = subprocess.run([PROGRAM, self.data, self.shelf, *words], capture_output=True, check=False)
        self.assertIn(ran.returncode, (0, 1), ran.stderr)
        return ran.stdout.decode("latin-1").splitlines()

    def make_board(self, *conferences: str) -> None:
        """Makes a board with these conferences, each as in a setup file."""
        lines = [*SETUP, "zones:", *(f"conference: {it}" for it in conferences)]
        self.write("setup", "\n".join(lines).encode("ascii") + b"\n")
        self.assertEqual(self.door("init", "setup"), [f"made {len(conferences)} conferences"])

    def path(self, name: str) -> str:
        """Gives the path of a name of the shelf."""
        return os.path.join(self.shelf, name)

    def write(self, name: str, data: bytes) -> str:
        """Writes a file of the shelf. Gives its path."""
        path = self.path(name)
        os.makedirs(os.path.dirname(path), exist_ok=True)
        with open(path, "wb") as file:
            file.write(data)
        return path

    def read(self, name: str) -> bytes:
        """Gives the bytes of a file of the shelf."""
        with open(self.path(name), "rb") as file:
            return file.read()

    def script(self, name: str, *options: str) -> Ran:
        """Runs a script over the board."""
        words = [sys.executable, os.path.join(BIN, name), *options, self.data, self.shelf]
        return Ran(subprocess.run(words, capture_output=True, text=True, check=False))


def message(text: bytes, to: bytes = b"All", sender: bytes = b"Joe Far", subject: bytes = b"Hello") -> bytes:
    """Gives a packed message of FTS-0001, from 2:5020/400."""
    head = struct.pack("<7H20s", 2, 400, 1, 5020, 5020, 0, 0, b"28 Nov 26  21:07:30")
    return head + b"".join(it + b"\0" for it in (to, sender, subject, text))


def packet(*messages: bytes) -> bytes:
    """Gives a packet of type 2 with these messages."""
    head = struct.pack("<12H", 400, 1, 2026, 10, 28, 21, 7, 30, 0, 2, 5020, 5020)
    header = head + struct.pack("<BB8s2H20x", 0, 0, b"", 2, 2)
    return header + b"".join(messages) + b"\0\0"


def killed_at(step: int, run: Callable[[], object], half: bool = False) -> Optional[int]:
    """Carries out a run in a process of its own, which ends as by a kill before its step of this number, from 0.

    A file that it had written and was to sync has lost its second half then, where that is wanted. Gives None for a run
    that was killed so, else how it ended.
    """
    child = os.fork()
    if child == 0:
        os._exit(_status_of(step, run, half))
    code = os.waitstatus_to_exitcode(os.waitpid(child, 0)[1])
    return None if code == _KILLED else code


_KILLED = 99


def _status_of(step: int, run: Callable[[], object], half: bool) -> int:
    from qwkdoor_scripts import durable

    steps = iter(range(step))

    written: "list[str]" = []

    def kill(name: str, path: str) -> None:
        if next(steps, None) is None:
            if half and name == "fsync" and path in written:
                os.truncate(path, os.path.getsize(path) // 2)
            os._exit(_KILLED)
        written[:] = [path] if name == "write" else []

    durable.before = kill
    with open(os.devnull, "w", encoding="ascii") as nowhere:
        sys.stderr = nowhere
        ended = run()
    return ended if isinstance(ended, int) else 98


def lines_of(data: bytes) -> "list[str]":
    """Gives the lines of a text."""
    return data.decode("utf-8").splitlines()


def without_moment(log: bytes) -> "list[Sequence[str]]":
    """Gives the words of a log's lines but their moments."""
    return [line.split(" ")[1:] for line in lines_of(log)]
