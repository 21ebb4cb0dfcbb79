"""The boards, sheets and packets that bench/compare.py times: of the usual shape, at the limits, and hostile ones."""

from __future__ import annotations

import hashlib
import os
import struct
import subprocess
import zlib
from typing import Dict, Iterable, List, Sequence, Tuple

ANN = "Ann Lee"
BOB = "Bob Ray"
_SETUP = "board: {0}\ncity: Springfield\nphone: 555-0100\nsysop: Sam Sysop\nbbsid: {0}\nserial: 1\nzones: 1\n"
_THREE = (("local", "GENERAL"), ("net", "NETMAIL"), ("echo", "TEST"))
_ALL = tuple(("local", f"C{number}") for number in range(64))
# The most bytes of a board's data files, and what is left of them for the files that each command writes.
_MOST = 34_603_008 - 4096
_RECORD = 42


def setup(bbsid: str, conferences: Sequence[Tuple[str, str]]) -> bytes:
    """A setup file with these conferences, numbered from 0."""
    lines = [f"conference: {number} {kind} - {name}\n" for number, (kind, name) in enumerate(conferences)]
    return (_SETUP.format(bbsid) + "".join(lines)).encode()


def sheet(count: int, size: int, sender: str = BOB, ids: Sequence[str] = ()) -> bytes:
    """A sheet of so many messages with one line of so many bytes with its end, each with its id where ids are given."""
    named = [f"Msgid: {it}\n" for it in ids] or [""] * count
    return "".join(f"From: {sender}\nTo: All\nSubject: Hello\n{it}\n{'x' * (size - 1)}\n.\n" for it in named).encode()


def type2(count: int) -> bytes:
    """A type 2 packet (FTS-0001) of so many messages of 200 bytes for the area TEST, each with an id."""
    head = bytearray(58)
    for place, number in ((0, 100), (2, 100), (18, 2), (20, 50), (22, 50), (34, 2), (36, 2)):
        struct.pack_into("<H", head, place, number)
    front = b"\2\0" + struct.pack("<6H", 100, 100, 50, 50, 0, 0) + b"28 Nov 26  21:07:30\0All\0Joe Far\0Hello\0"
    line = b"x" * 199
    texts = (b"AREA:TEST\r\1MSGID: 2:50/100 %08x\r%s\r\0" % (number, line) for number in range(count))
    return bytes(head) + b"".join(front + it for it in texts) + b"\0\0"


def qwk(count: int) -> bytes:
    """A MESSAGES.DAT of so many messages of two blocks."""
    fields = b"ALL".ljust(25) + b"BOB RAY".ljust(25) + b"Hello".ljust(25) + b" " * 12 + b"0".ljust(8) + b"2".ljust(6)
    rest = b"09-09-0101:46" + fields + b"\xe1\0\0\1\0 " + b"First line\xe3".ljust(128)
    return b"Produced by a bench".ljust(128) + b"".join(b" %-7d%s" % (number, rest) for number in range(1, count + 1))


def _cancelling(width: int) -> List[int]:
    """Sets of places, as bits, which change nothing of a CRC-32 where all their bytes change between 0 and 1."""
    plain = zlib.crc32(b"0" * width)
    rows: Dict[int, Tuple[int, int]] = {}
    found = []
    for place in range(width):
        left, places = zlib.crc32(b"0" * place + b"1" + b"0" * (width - place - 1)) ^ plain, 1 << place
        while left and left.bit_length() in rows:
            other, with_it = rows[left.bit_length()]
            left, places = left ^ other, places ^ with_it
        if left:
            rows[left.bit_length()] = (left, places)
        else:
            found.append(places)
    return found


def ids_of_one_crc(count: int) -> List[str]:
    """So many ids of the digits 0 and 1, all of one length and one CRC-32."""
    bits = max(count - 1, 1).bit_length()
    width = 32 + bits
    sets = _cancelling(width)
    ids = []
    for number in range(count):
        places = 0
        for bit in range(bits):
            places ^= sets[bit] if number >> bit & 1 else 0
        ids.append(f"{places:0{width}b}"[::-1])
    return ids


def with_uploads(ledger: bytes, users: Iterable[int]) -> bytes:
    """A ledger of version 2 without upload records, with one of a made-up digest for each of these users in order."""
    assert ledger[:4] == b"QMDL" and ledger[12:16] == bytes(4), "the ledger isn't one of version 2 without uploads"
    records = [struct.pack("<H32sII", user, hashlib.sha256(b"%d" % at).digest(), 5, 1) for at, user in enumerate(users)]
    return ledger[:12] + struct.pack("<I", len(records)) + ledger[16:] + b"".join(records)


class Shapes:
    """The folder of the boards, which a program makes, and of the shelf."""

    def __init__(self, folder: str, program: str) -> None:
        self.folder = folder
        self.program = program
        self.shelf = os.path.join(folder, "shelf")

    def board(self, name: str) -> str:
        """The folder DATA of a board."""
        return os.path.join(self.folder, name)

    def put(self, name: str, data: bytes) -> None:
        """Writes a file of the shelf."""
        with open(os.path.join(self.shelf, name), "wb") as file:
            file.write(data)

    def do(self, board: str, *lines: str) -> None:
        """Carries out the lines as a batch, all of which must succeed."""
        self.put("lines", "".join(it + "\n" for it in lines).encode())
        subprocess.run([self.program, self.board(board), self.shelf, "batch", "lines"], check=True, stdout=subprocess.DEVNULL)

    def add_uploads(self, board: str, users: Iterable[int]) -> None:
        """Gives a board upload records of these users."""
        path = os.path.join(self.board(board), "LEDGER.DAT")
        with open(path, "rb") as file:
            ledger = with_uploads(file.read(), users)
        with open(path, "wb") as file:
            file.write(ledger)

    def room(self, board: str) -> int:
        """How many upload records a board has room for, up to 100,000."""
        files = [it for it in os.scandir(self.board(board)) if it.name not in ("JOURNAL.DAT", "LOCK")]
        return min(100_000, (_MOST - sum(it.stat().st_size for it in files)) // _RECORD)

    def make(self) -> None:
        """Makes all boards and files."""
        os.makedirs(self.shelf)
        self._make_files()
        self._make_usual()
        self._make_large()
        self._make_hostile()

    def _make_files(self) -> None:
        self.put("three", setup("BENCH", _THREE))
        self.put("single", setup("BENCH", _THREE[:1]))
        self.put("all", setup("FULL", _ALL))
        for name, count, size in (("s5000", 5000, 200), ("p9998", 9998, 140), ("k3333", 3333, 1024), ("k31", 31, 16384), ("k403", 403, 960)):
            self.put(name, sheet(count, size))
        self.put("c4000", sheet(4000, 3, ANN))
        self.put("one", sheet(1, 7, ids=["one more"]))
        self.put("crc9999", sheet(9999, 3, ids=ids_of_one_crc(9999)))
        self.put("F5000", type2(5000))
        self.put("BIG", qwk(163_839))

    def _make_usual(self) -> None:
        enroll = f'enroll "{ANN}" - all'
        self.do("new", "init three")
        self.do("caller", "init single", enroll, f'export "{ANN}" 1 out', "compose out 0 c4000 U4000.MSG")
        self.do("many", "init all", enroll, *["import 0 k3333"] * 3)
        self.do("almost", "init three", "import 0 p9998")

    def _make_large(self) -> None:
        self.do("full", "init all", f'enroll "{ANN}" - all', *(f"import {number} k31" for number in range(64)))
        users = [f'enroll "User {number}" - all' for number in range(500)]
        self.do("limits", "init all", *users, *(f"import {number} k403" for number in range(63)))
        self.add_uploads("limits", (at % 500 + 1 for at in range(self.room("limits"))))

    def _make_hostile(self) -> None:
        self.do("collided", "init three", "import 0 crc9999")
        self.do("records", "init single", f'enroll "{ANN}" - all', f'export "{ANN}" 1 out')
        # An upload more finds room.
        self.add_uploads("records", (1 for _ in range(self.room("records") - 1)))
