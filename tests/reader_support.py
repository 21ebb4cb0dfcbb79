"""A caller with a folder of his own: his packets are made here, and the reply packets that he sends are read here."""

from __future__ import annotations

import glob
import os
import signal
import subprocess
import tempfile
import unittest
import zipfile
from dataclasses import dataclass, replace
from typing import Mapping, Optional, Sequence

from tests.support import PROGRAM, TOP

# Another script may be tried in place of the one that stands here.
READER = os.environ.get("READER") or os.path.join(TOP, "bin", "qwkdoor-read")
AREAS = {0: "GENERAL", 1: "NETMAIL", 7: "NEWS"}


@dataclass(frozen=True)
class Letter:
    """A message of a packet, or an answer in a reply packet."""

    sender: str = "BOB RAY"
    recipient: str = "ALL"
    subject: str = "Hello"
    text: bytes = b"First line"
    area: int = 0
    number: str = "1"
    status: str = " "
    reference: str = ""


def _field(text: str, size: int) -> bytes:
    return text.encode("latin-1")[:size].ljust(size)


def message_bytes(letter: Letter, place: int) -> bytes:
    """Gives a message as the layout of 1992 has it: a header of 128 bytes, and the text in blocks of 128."""
    text = letter.text.replace(b"\n", b"\xe3") + b"\xe3"
    text = text.ljust(-(-len(text) // 128) * 128)
    head = [
        _field(letter.status, 1), _field(letter.number, 7), b"09-09-01", b"01:46", _field(letter.recipient, 25),
        _field(letter.sender, 25), _field(letter.subject, 25), b" " * 12, _field(letter.reference, 8),
        _field(str(len(text) // 128 + 1), 6), b"\xe1", letter.area.to_bytes(2, "little"),
        (place & 0xFFFF).to_bytes(2, "little"), b" ",
    ]
    return b"".join(head) + text


def control(board_id: str = "TESTBBS", count: int = 1, user: str = "ANN LEE") -> bytes:
    """Gives a CONTROL.DAT."""
    lines = ["Test Board", "Springfield", "555-0100", "Sam Sysop", f"12345,{board_id}", "09-09-2001,01:46:40", user]
    lines += ["", "0", str(count), str(len(AREAS) - 1)]
    lines += [line for number, name in AREAS.items() for line in (str(number), name)]
    return "".join(f"{line}\r\n" for line in [*lines, "WELCOME", "NEWS", "GOODBYE"]).encode("latin-1")


def messages(letters: Sequence[Letter]) -> bytes:
    """Gives a MESSAGES.DAT."""
    return b"Notice".ljust(128) + b"".join(message_bytes(it, place) for place, it in enumerate(letters, 1))


def write_packet(
    path: str, letters: Sequence[Letter], board_id: str = "TESTBBS", more: Optional[Mapping[str, bytes]] = None
) -> str:
    """Writes a packet as an archive."""
    with zipfile.ZipFile(path, "w", zipfile.ZIP_DEFLATED) as archive:
        archive.writestr("CONTROL.DAT", control(board_id, len(letters)))
        archive.writestr("MESSAGES.DAT", messages(letters))
        for name, data in (more or {}).items():
            archive.writestr(name, data)
    return path


def read_rep(data: bytes) -> "list[Letter]":
    """Reads a reply packet by its layout."""
    found = []
    at = 128
    while at < len(data):
        head = data[at : at + 128]
        size = int(head[116:122]) * 128
        text = data[at + 128 : at + size].rstrip(b" ")
        sender, recipient, subject = (head[place : place + 25].decode("latin-1").rstrip() for place in (46, 21, 71))
        found.append(Letter(
            sender, recipient, subject, text.replace(b"\xe3", b"\n").rstrip(b"\n"),
            int.from_bytes(head[123:125], "little"), head[1:8].decode().strip(), chr(head[0]),
            head[108:116].decode().strip(),
        ))
        at += size
    return found


def letters_of(path: str, member: str = "TESTBBS.MSG") -> "list[Letter]":
    """Reads the letters of an archive."""
    with zipfile.ZipFile(path) as archive:
        return read_rep(archive.read(member))


THREE = (
    Letter("BOB RAY", "ANN LEE", "Key", b"The key lies under the stone", number="1", status="+"),
    Letter("CY DAY", "ALL", "Boat", b"Is the boat for sale?", number="2"),
    Letter("DEE FAR", "ALL", "Weather", b"It rains", number="3"),
)


class Caller(unittest.TestCase):
    """A test with a caller's folder. Whatever reader is tried, its archives are those below the folder."""

    # Where the folder is made.
    top: Optional[str] = None

    def setUp(self) -> None:
        place = tempfile.TemporaryDirectory(dir=self.top)
        self.addCleanup(place.cleanup)
        self.home = os.path.realpath(place.name)
        self.packet = write_packet(os.path.join(self.home, "TESTBBS.QWK"), THREE)
        self.environment = {
            "PATH": os.environ["PATH"], "HOME": self.home, "QWKDOOR": PROGRAM, "LC_ALL": "C.UTF-8", "TERM": "xterm",
            "EDITOR": self.editor('echo "An answer" >>"$1"'),
        }

    def editor(self, script: str) -> str:
        """Makes an editor of a shell script, and gives its path."""
        return self.editor_at(os.path.join(self.home, f"editor{len(os.listdir(self.home))}"), script)

    def editor_at(self, path: str, script: str) -> str:
        """Makes a shell script the editor at a path."""
        with open(path, "w", encoding="utf-8") as file:
            file.write(f"#!/bin/sh\n{script}\n")
        os.chmod(path, 0o700)
        return path

    def start(self, *words: str, editor: str = "") -> "subprocess.Popen[bytes]":
        """Starts the reader in a group of its own."""
        environment = {**self.environment, **({"EDITOR": editor} if editor else {})}
        return subprocess.Popen(
            [READER, *words], env=environment, stdin=subprocess.PIPE, stdout=subprocess.PIPE, stderr=subprocess.PIPE,
            start_new_session=True,
        )

    def read(self, *lines: str, packet: str = "", editor: str = "", status: int = 0, words: Sequence[str] = ()) -> str:
        """Reads a packet with these lines as input. Gives what was said."""
        running = self.start(*words, packet or self.packet, editor=editor)
        out, error = running.communicate("".join(f"{line}\n" for line in lines).encode(), timeout=900)
        if status != -signal.SIGKILL:
            self.assertEqual(running.returncode, status, error.decode())
        return out.decode("utf-8", "replace") + error.decode("utf-8", "replace")

    def archives(self) -> "list[str]":
        """Gives the archives that a caller would find to be sent."""
        places = ("qwk/*/*.REP", ".local/share/qwkdoor/*/*.REP")
        return sorted(it for place in places for it in glob.glob(os.path.join(self.home, place)))

    def lying(self) -> "list[Letter]":
        """Gives the letters in all archives that lie there."""
        return [letter for path in self.archives() for letter in letters_of(path)]

    def box(self, *parts: str) -> str:
        """Gives the path of a file in the board's folder."""
        return os.path.join(self.home, ".local", "share", "qwkdoor", "TESTBBS", *parts)

    def kept_texts(self) -> "list[str]":
        """Gives what lies in texts that aren't sent, wherever a reader keeps them."""
        paths = glob.glob(os.path.join(self.home, "qwk/*/answer.txt"))
        paths += glob.glob(self.box("drafts", "*", "text"))
        found = []
        for path in paths:
            with open(path, encoding="utf-8") as file:
                found.append(file.read())
        return found


def numbered(letters: Sequence[Letter]) -> "list[Letter]":
    """Gives letters with the numbers from 1."""
    return [replace(it, number=str(place)) for place, it in enumerate(letters, 1)]
