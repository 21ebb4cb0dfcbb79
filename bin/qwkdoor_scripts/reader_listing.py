"""The lines of a packet's listing, as `read` of the program says them."""

from __future__ import annotations

import re
from dataclasses import dataclass
from typing import Optional

from .characters import shown
from .reader_columns import padded, width

_LINE = re.compile(rb"(\d+) (\d+)/(\d+|-) (\w+) (.*) \[(\d+)\]", re.DOTALL)
# The columns that a line of a list has beside sender and subject.
_NAME_COLUMNS = 17


@dataclass(frozen=True)
class Entry:
    """A message of the packet. Where a name has ` > ` or `: ` in it, only the message itself tells them apart."""

    place: int
    area: int
    number: Optional[int]
    kind: str
    sender: str
    recipient: str
    subject: str
    lines: int

    @property
    def is_private(self) -> bool:
        """Whether it is shown to its sender and its recipient alone."""
        return self.kind == "private"


@dataclass(frozen=True)
class Listing:
    """A packet's board and user, and its messages by their places from 1."""

    board: str
    user: str
    entries: "list[Entry]"

    def entry(self, place: int) -> Optional[Entry]:
        """Gives the message in a place, where there is one."""
        return self.entries[place - 1] if 1 <= place <= len(self.entries) else None

    def areas(self) -> "dict[int, list[Entry]]":
        """Gives the messages by their areas, in rising order of these."""
        found: "dict[int, list[Entry]]" = {}
        for entry in self.entries:
            found.setdefault(entry.area, []).append(entry)
        return dict(sorted(found.items()))

    def personal(self) -> "list[Entry]":
        """Gives the messages to the user."""
        return [it for it in self.entries if it.recipient.upper() == self.user.upper()]

    def having(self, words: str) -> "list[Entry]":
        """Gives the messages that have these words in a name or the subject."""
        sought = words.casefold()
        return [it for it in self.entries if sought in f"{it.sender}\n{it.recipient}\n{it.subject}".casefold()]


def read_listing(lines: "list[bytes]", characters: str) -> Listing:
    """Reads what `read` said of a packet."""
    board = shown(lines[0], characters).partition(" ")[2]
    user = shown(lines[1], characters).partition(" ")[2]
    found = (_LINE.fullmatch(line) for line in lines[2:-1])
    return Listing(board, user, [_entry(it, characters) for it in found if it])


def _entry(found: "re.Match[bytes]", characters: str) -> Entry:
    place, area, number, kind, middle, lines = found.groups()
    sender, _, rest = shown(middle, characters).partition(" > ")
    recipient, _, subject = rest.partition(": ")
    return Entry(
        int(place),
        int(area),
        None if number == b"-" else int(number),
        kind.decode(),
        sender,
        recipient,
        subject,
        int(lines),
    )


def list_line(entry: Entry, is_read: bool, columns: int) -> str:
    """Gives a message as a line of a list that fits the columns."""
    mark = " " if is_read else "*"
    kind = "P" if entry.is_private else "-" if entry.kind == "killed" else " "
    name = min(_NAME_COLUMNS, max(6, columns // 5))
    front = f"{mark}{kind}{entry.place:>5}  {padded(entry.sender, name)}  {padded(entry.recipient, name)}  "
    lines = f"{entry.lines:>5}"
    room = max(columns - width(front) - len(lines) - 1, 0)
    return f"{front}{padded(entry.subject, room)} {lines}"
