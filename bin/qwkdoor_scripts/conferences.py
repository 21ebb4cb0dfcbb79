"""The conferences of a board, as the program's `check` says them."""

from __future__ import annotations

import re
from dataclasses import dataclass
from typing import Optional

from .failure import REFUSED, Failure
from .program import FIRST_FAULT, Program, Reply

_LINE = re.compile(r"([0-9]+) (.*): ([0-9]+) slots, ([0-9]+) live")


@dataclass(frozen=True)
class Conference:
    """A conference: its place among the board's files, its number, its name, and how many messages it has."""

    place: int
    number: int
    name: str
    slots: int
    live: int


def look(program: Program) -> "list[Conference]":
    """Has the board checked, which carries out what a crash left. Failure where it is damaged, or isn't there."""
    reply = program.run("check")
    end_at_fault("check", reply)
    if reply.status != 0:
        raise Failure(f"check of {program.data} was refused: {reply.last}", REFUSED)
    return read(reply.lines)


def read(lines: "list[bytes]") -> "list[Conference]":
    """Gives the conferences of a reply of `check`, whose first line is the board's and whose last has its totals."""
    found = (_LINE.fullmatch(line.decode("latin-1")) for line in lines[1:-1])
    return [_conference(place, match) for place, match in enumerate(found)]


def _conference(place: int, match: "Optional[re.Match[str]]") -> Conference:
    if match is None:
        raise Failure("check gave a line that this script doesn't know")
    number, name, slots, live = match.groups()
    return Conference(place, int(number), name, int(slots), int(live))


def end_at_fault(command: str, reply: Reply) -> None:
    """Ends the run, with the command's status, where the command was neither carried out nor refused."""
    if reply.status == 2 or reply.status >= FIRST_FAULT:
        said = "; ".join(reply.error.split("\n")[:-1]) or reply.last
        raise Failure(f"{command} ended with status {reply.status}: {said}", reply.status)
