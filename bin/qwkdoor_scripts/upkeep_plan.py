"""What an upkeep does: a batch of kills and packs for the program, by what the board's files say."""

from __future__ import annotations

import os
from dataclasses import dataclass
from typing import AbstractSet, Iterable, Iterator

from . import headers, ledger, upkeep_rules
from .characters import shown
from .conferences import Conference
from .due import Due, Member, find
from .failure import Failure
from .ledger import People
from .locks import Lock
from .upkeep_rules import Rule

# The longest batch that the program reads, in bytes.
BATCH_LIMIT = 1_048_576
_OPEN_GATE = b"O"
_NAMES_SHOWN = 3


@dataclass(frozen=True)
class Work:
    """What is to be done in a conference."""

    conference: Conference
    due: Due
    to_pack: int

    def remark(self) -> str:
        """Says in words what is done, and what isn't."""
        words = f"{len(self.due.numbers)} of {self.conference.live} go"
        if not self.due.held:
            return words
        return f"{words}; {len(self.due.held)} due, but not acknowledged by {_listed(self.due.holders)}"

    def commands(self) -> "list[str]":
        """Gives the commands. A message that was deleted before goes with those that are killed."""
        number = self.conference.number
        kills = [f"kill {number} {it}" for it in self.due.numbers]
        return kills + ([f"pack {number}"] if kills or self.to_pack else [])


@dataclass(frozen=True)
class Board:
    """A board that was checked: its folder, its conferences, and how long to wait for a run that holds it."""

    data: str
    conferences: "list[Conference]"
    seconds: float


def plan(board: Board, rules_path: str, unread: bool, now: int) -> "list[Work]":
    """Finds what is due by the list of rules, while no run holds the board; with `unread` nobody is waited for."""
    by_number = {it.number: it for it in board.conferences}
    with Lock(os.path.join(board.data, "LOCK"), board.seconds):
        _look_at_journal(os.path.join(board.data, "JOURNAL.DAT"))
        people = ledger.read(os.path.join(board.data, "LEDGER.DAT"))
        rules = upkeep_rules.read(rules_path, by_number, people.users)
        left = {it.lower() for it in people.users} if unread else rules.left
        return [_work(board.data, by_number[rule.number], rule, people, left, now) for rule in rules.rules]


def _look_at_journal(path: str) -> None:
    """Sees that no change is under way, as a run that was killed since the check would have left it."""
    with open(path, "rb") as file:
        if file.read(1) == _OPEN_GATE:
            raise Failure(f"{path} holds a change that is under way: run check")


def _work(data: str, conference: Conference, rule: Rule, people: People, left: "AbstractSet[bytes]", now: int) -> Work:
    base = os.path.join(data, f"C{conference.place:02d}")
    found = headers.read_headers(base + ".JHR")
    last_reads = headers.read_last_reads(base + ".JLR")
    members = [Member(people.users[it.user - 1], people.is_sysop(it.user), it.pointer) for it in last_reads]
    waited_for = [it for it in members if it.name.lower() not in left]
    return Work(conference, find(rule, found, waited_for, now), sum(it.deleted for it in found))


def batches(lines: Iterable[str]) -> "Iterator[list[str]]":
    """Gives the lines in lists, each of which is a batch that the program reads."""
    batch: "list[str]" = []
    length = 0
    for line in lines:
        if length + len(line) + 1 > BATCH_LIMIT:
            yield batch
            batch = []
            length = 0
        batch.append(line)
        length += len(line) + 1
    if batch:
        yield batch


def _listed(names: "list[bytes]") -> str:
    """Gives the first names, and how many more there are."""
    few = [shown(it) for it in names[:_NAMES_SHOWN]]
    more = len(names) - len(few)
    return ", ".join(few) + (f" and {more} more" if more else "")
