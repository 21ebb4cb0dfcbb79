"""A stand-in for the program and the editor, quick enough to be killed at each step. It knows three letters alone."""

from __future__ import annotations

import os

from tests.reader_support import THREE, Letter, message_bytes
from qwkdoor_scripts import durable
from qwkdoor_scripts.program import DONE, REFUSED, Program, Reply


def run(door: Program, *words: str) -> Reply:
    """Carries out `read` and `reply` as docs/REFERENCE.md has them."""
    if words[0] == "read" and len(words) == 2:
        lines = [f"{place} 0/{it.number} {_kind(it)} {it.sender} > {it.recipient}: {it.subject} [1]"
                 for place, it in enumerate(THREE, 1)]
        return _said(["board Test Board", "user ANN LEE", *lines, f"{len(THREE)} messages"])
    place = int(words[2])
    if not 1 <= place <= len(THREE):
        return Reply(REFUSED, [b"refused nomessage"], "")
    letter = THREE[place - 1]
    if words[0] == "read":
        return _said([f"From: {letter.sender}", f"To: {letter.recipient}", f"Subject: {letter.subject}",
                      "Date: 09-09-01 01:46", "Conference: 0", f"Number: {letter.number}", "Reference: 0", "",
                      *letter.text.decode().split("\n")])
    return _reply(door.shelf, letter, *words[2:])


def _kind(letter: Letter) -> str:
    return "private" if letter.status == "+" else "public"


def _said(lines: "list[str]") -> Reply:
    return Reply(DONE, [it.encode() for it in lines], "")


def _reply(shelf: str, letter: Letter, place: str, text: str, rep: str) -> Reply:
    """Adds a reply. The reply packet is written in place, so that a kill leaves a part of it."""
    path = os.path.join(shelf, rep)
    before = b"TESTBBS".ljust(128)
    if os.path.exists(path):
        with open(path, "rb") as file:
            before = file.read()
    with open(os.path.join(shelf, text), "rb") as file:
        lines = file.read().rstrip(b"\n")
    answer = Letter("ANN LEE", letter.sender, letter.subject, lines, 0, "0", letter.status, letter.number)
    data = before + message_bytes(answer, 1)
    with open(path, "wb") as file:
        file.write(data[: len(data) // 2])
        file.flush()
        durable.before("reply", path)
        file.write(data[len(data) // 2 :])
    return _said([f"replied to {place}, 1 in {rep}"])


class Editor:
    """Gives each text a number of its own, and notes which draft got it. It too may be killed before and after."""

    def __init__(self, home: str) -> None:
        self.home = home

    def edit(self, path: str) -> int:
        """Adds a line to a file."""
        durable.before("edit", path)
        count = os.path.join(self.home, "count")
        with open(count, "a+", encoding="ascii") as file:
            file.seek(0)
            number = len(file.read()) + 1
            file.write("x")
        with open(os.path.join(self.home, "edited"), "a", encoding="utf-8") as file:
            file.write(f"{path} {number}\n")
        with open(path, "a", encoding="utf-8") as file:
            file.write(f"Answer {number}.\n")
        durable.before("edited", path)
        return 0
