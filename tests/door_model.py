"""A door for the tests of each step of a day: one conference, and only the commands that a day gives.

It keeps its board in one file, which it replaces whole, so that a kill leaves the board before a command or after it. A
letter with the subject `Bad` is refused.
"""

from __future__ import annotations

import hashlib
import json
import os
from typing import Any, Callable

from qwkdoor_scripts.ledger import People
from qwkdoor_scripts.program import Program, Reply
from tests.day_support import letter


def nothing(moment: str) -> None:
    """Lets a command happen."""


class DoorModel(Program):
    """A program in place of qwkdoor. `watch` is called before and after each command that changes the board."""

    def __init__(self, path: str, data: str, shelf: str) -> None:
        super().__init__(path, data, shelf)
        self.watch: Callable[[str], None] = nothing

    def board(self) -> dict[str, Any]:
        """Gives the board."""
        with open(self.data, "rb") as file:
            found: dict[str, Any] = json.loads(file.read())
            return found

    def make(self, users: list[str], subjects: list[str]) -> None:
        """Makes a board."""
        none = {it: {"upto": 0, "last": 0, "open": {}} for it in users}
        self._keep({"subjects": subjects, "users": none, "records": {}})

    def people(self, _path: str) -> People:
        """Gives what stands in the ledger of a board."""
        users = self.board()["users"]
        return People(1, b"", [it.encode() for it in users], [it["last"] for it in users.values()])

    def _keep(self, board: dict[str, Any]) -> None:
        with open(self.data + ".part", "w", encoding="ascii") as file:
            json.dump(board, file)
        os.replace(self.data + ".part", self.data)

    def run(self, *words: str) -> Reply:
        """Carries out a command."""
        self.watch(f"before {words[0]}")
        status, lines = getattr(self, "_" + words[0])(self.board(), *words[1:])
        self.watch(f"after {words[0]}")
        return Reply(status, [it.encode("ascii") for it in lines], "")

    def run_into(self, path: str, *words: str) -> Reply:
        """Carries out a command whose reply goes to a file."""
        self.watch(f"before {words[0]}")
        status, lines = getattr(self, "_" + words[0])(self.board(), *words[1:])
        self.watch(f"amid {words[0]}")
        with open(path, "ab") as file:
            file.write("".join(f"{it}\n" for it in lines).encode("ascii"))
        self.watch(f"after {words[0]}")
        return Reply(status, [it.encode("ascii") for it in lines], "")

    def _path(self, name: str) -> str:
        return os.path.join(self.shelf, name)

    def _letters(self, name: str) -> list[str]:
        with open(self._path(name), "rb") as file:
            data = file.read()
        found, at = [], 128
        while at < len(data):
            found.append(data[at + 71 : at + 96].decode("ascii").rstrip())
            at += 128 * int(data[at + 116 : at + 122])
        return found

    def _check(self, board: dict[str, Any]) -> tuple[int, list[str]]:
        slots = len(board["subjects"])
        last = f"{len(board['users'])} users, {len(board['records'])} uploads, 9000 bytes"
        return 0, ["board TESTBBS", f"0 GENERAL: {slots} slots, {slots} live", last]

    def _list(self, board: dict[str, Any], name: str) -> tuple[int, list[str]]:
        letters = self._letters(name)
        shown = [f"{at} 0/- public A > B: {it} [1]" for at, it in enumerate(letters, 1)]
        return 0, [*shown, f"{len(letters)} messages"]

    def _upload(self, board: dict[str, Any], user: str, name: str) -> tuple[int, list[str]]:
        with open(self._path(name), "rb") as file:
            digest = user + hashlib.sha256(file.read()).hexdigest()
        if digest in board["records"]:
            return 0, ["again " + board["records"][digest]]
        lines = [self._verdict(board, at, it) for at, it in enumerate(self._letters(name), 1)]
        refused = sum(" refused " in it for it in lines)
        board["records"][digest] = f"posted {len(lines) - refused} refused {refused}"
        self._keep(board)
        return 0, [*lines, board["records"][digest]]

    def _verdict(self, board: dict[str, Any], place: int, subject: str) -> str:
        if subject == "Bad":
            return f"{place} refused member"
        board["subjects"].append(subject)
        return f"{place} posted 0 {len(board['subjects'])}"

    def _export(self, board: dict[str, Any], user: str, limit: str, folder: str) -> tuple[int, list[str]]:
        own = board["users"][user]
        offered = list(enumerate(board["subjects"], 1))[own["upto"] :][: int(limit)]
        own["last"] += 1
        own["open"] = {**dict(list(own["open"].items())[-3:]), str(own["last"]): own["upto"] + len(offered)}
        self._keep(board)
        packet = b" " * 128 + b"".join(letter("A", "ALL", subject, number=str(number)) for number, subject in offered)
        for name, data in (("CONTROL.DAT", b"Test\r\n"), ("MESSAGES.DAT", packet)):
            with open(self._path(f"{folder}/{name}"), "wb") as file:
                file.write(data)
        return 0, [f"packet {own['last']}: {len(offered)} messages"]

    def _ack(self, board: dict[str, Any], user: str, number: str) -> tuple[int, list[str]]:
        own = board["users"][user]
        if number not in own["open"]:
            return 1, [f"refused nopacket {max(map(int, own['open']), default='none')}"]
        own["upto"] = max(own["upto"], own["open"][number])
        own["open"] = {key: it for key, it in own["open"].items() if int(key) > int(number)}
        self._keep(board)
        return 0, [f"acknowledged {number}"]
