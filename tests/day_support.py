"""A board with callers for the tests of qwkdoor-day, and what its callers do."""

from __future__ import annotations

import contextlib
import io
import os
import shutil
import subprocess
import tempfile
import zipfile
from typing import Iterator, Optional, Sequence

from tests.support import MEMORY, PROGRAM, SHELF, TOP

# Another script may be tried by the same tests.
SCRIPT = os.environ.get("QWKDOOR_DAY") or os.path.join(TOP, "bin", "qwkdoor-day")
CALLERS = '"Ann Lee" 2000 ann\n"Bob Ray" 100 bob\n"Cy Day" 10 cy\n'
_USERS = 'init setup.txt\nenroll "Ann Lee" n all\nenroll "Bob Ray" - 0\nenroll "Cy Day" - 0\n'


def letter(sender: str, to: str, subject: str, text: str = "Hello", conference: int = 0, number: str = "") -> bytes:
    """Gives a message of a reply packet, in blocks of 128 bytes (docs/FORMATS.md)."""
    body = text.encode("cp437").replace(b"\n", b"\xe3") + b"\xe3"
    blocks = 1 + -(-len(body) // 128)
    head = b" " + (number or str(conference)).encode().ljust(7) + b"12-01-26" + b"09:00"
    head += b"".join(it.encode("cp437").ljust(25) for it in (to, sender, subject))
    head += b" " * 12 + b"0".ljust(8) + str(blocks).encode().ljust(6) + b"\xe1"
    head += conference.to_bytes(2, "little") + b"\0\0" + b" "
    return head + body.ljust(128 * (blocks - 1))


def reply_packet(letters: Sequence[bytes], board: str = "TESTBBS") -> bytes:
    """Gives a reply packet."""
    return board.encode().ljust(128) + b"".join(letters)


def archive(files: dict[str, bytes], method: int = zipfile.ZIP_DEFLATED) -> bytes:
    """Gives a zip archive."""
    made = io.BytesIO()
    with zipfile.ZipFile(made, "w", method) as file:
        for name, data in files.items():
            file.writestr(name, data)
    return made.getvalue()


def received(packet: bytes) -> list[tuple[int, int, str]]:
    """Gives the messages of a packet that was handed out: conference, number and subject."""
    with zipfile.ZipFile(io.BytesIO(packet)) as file:
        data = file.read("MESSAGES.DAT")
    found, at = [], 128
    while at < len(data):
        head = data[at : at + 128]
        subject = head[71:96].decode("cp437").rstrip()
        found.append((int.from_bytes(head[123:125], "little"), int(head[1:8]), subject))
        at += 128 * int(head[116:122])
    return found


class Board:
    """A board in a folder of its own, with three callers and `count` messages to all."""

    def __init__(self, count: int = 3, callers: str = CALLERS, folder: Optional[str] = None) -> None:
        self.top = tempfile.mkdtemp(prefix="day [test] ", dir=folder or MEMORY)
        self.data = os.path.join(self.top, "a board")
        self.shelf = os.path.join(self.top, "a shelf")
        self.mail = os.path.join(self.shelf, "mail")
        shutil.copytree(SHELF, self.shelf)
        os.mkdir(self.mail, 0o700)
        self.write("mail/callers", callers.encode())
        self.write("begin.txt", _USERS.encode())
        self.door("batch", "begin.txt")
        self.post([f"Old {number}" for number in range(1, count + 1)])
        self.got: dict[str, list[bytes]] = {}

    def remove(self) -> None:
        """Takes the folder away, also where a test has closed a part of it."""
        subprocess.run(["chmod", "-R", "u+rwx", self.top], check=False)
        shutil.rmtree(self.top, ignore_errors=True)

    def write(self, name: str, data: bytes) -> str:
        """Writes a file of the shelf."""
        path = os.path.join(self.shelf, name)
        os.makedirs(os.path.dirname(path), exist_ok=True)
        with open(path, "wb") as file:
            file.write(data)
        return path

    def read(self, name: str) -> bytes:
        """Reads a file of the shelf."""
        with open(os.path.join(self.shelf, name), "rb") as file:
            return file.read()

    def names(self, folder: str) -> list[str]:
        """Gives the names in a folder of `mail`, and none where it isn't there."""
        with contextlib.suppress(FileNotFoundError):
            return sorted(os.listdir(os.path.join(self.mail, folder)))
        return []

    def door(self, *words: str) -> str:
        """Carries out a command of the program by hand, and gives its reply."""
        ran = subprocess.run([PROGRAM, self.data, self.shelf, *words], stdout=subprocess.PIPE, check=False)
        return ran.stdout.decode("latin-1")

    def post(self, subjects: Sequence[str]) -> None:
        """Imports a message to all with each subject."""
        sheet = "".join(f"From: Cy Day\nTo: All\nSubject: {subject}\n\nHello\n.\n" for subject in subjects)
        self.write("sheet.txt", sheet.encode())
        if subjects:
            self.door("import", "0", "sheet.txt")

    def subjects(self) -> list[str]:
        """Gives the subjects of all messages of the first conference, as a new member is offered them."""
        self.door("enroll", "Zoe", "-", "0")
        self.door("export", "Zoe", "2000", "zoe")
        lines = self.door("list", "zoe/MESSAGES.DAT").splitlines()[:-1]
        return [line.partition(": ")[2].rpartition(" [")[0] for line in lines]

    def send(self, name: str, data: bytes, file: str = "letter.rep") -> None:
        """Leaves an archive in a caller's folder."""
        self.write(f"mail/{name}/in/{file}", data)

    def send_letters(self, name: str, letters: Sequence[bytes], file: str = "letter.rep") -> None:
        """Leaves an archive of letters."""
        self.send(name, archive({"TESTBBS.MSG": reply_packet(letters)}), file)

    def fetch(self, name: str) -> Optional[bytes]:
        """Lets a caller take his packet away, if there is one."""
        path = os.path.join(self.mail, name, "out", "TESTBBS.QWK")
        if not os.path.exists(path):
            return None
        with open(path, "rb") as file:
            data = file.read()
        os.unlink(path)
        self.got.setdefault(name, []).append(data)
        return data

    def has_received(self, name: str) -> list[str]:
        """Gives the subjects of all that a caller was handed out, in their order."""
        return [subject for packet in self.got.get(name, []) for _, _, subject in received(packet)]

    def news(self, name: str) -> str:
        """Gives all news that a caller was handed out."""
        return "".join(text_in(packet, "NEWS") for packet in self.got.get(name, []))

    def day(self, *options: str, **environment: str) -> subprocess.CompletedProcess[str]:
        """Runs the script as cron does."""
        return subprocess.run(
            [SCRIPT, *options, self.data, self.shelf],
            stdin=subprocess.DEVNULL,
            stdout=subprocess.PIPE,
            stderr=subprocess.PIPE,
            encoding="utf-8",
            env={**os.environ, **environment},
            check=False,
        )

    def log(self) -> list[str]:
        """Gives the log's lines without their moment."""
        return [line.partition(" ")[2] for line in self.read("mail/log").decode("latin-1").splitlines()]

    def logged(self, name: str, command: str) -> list[str]:
        """Gives the lines of a command for a caller: status and last line."""
        head = f"{name} {command} "
        return [line[len(head) :] for line in self.log() if line.startswith(head)]


def text_in(packet: bytes, name: str) -> str:
    """Gives a text of an archive, empty where it isn't there."""
    with zipfile.ZipFile(io.BytesIO(packet)) as file:
        return file.read(name).decode("cp437") if name in file.namelist() else ""


@contextlib.contextmanager
def board(count: int = 3, callers: str = CALLERS) -> Iterator[Board]:
    """Makes a board, and takes it away again."""
    made = Board(count, callers)
    try:
        yield made
    finally:
        made.remove()
