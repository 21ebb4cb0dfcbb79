"""What `check` says of a board, kept up with what the day posts."""

from __future__ import annotations

import re
from dataclasses import dataclass
from typing import Any, Optional

from . import conferences
from .failure import Failure

SLOT_LIMIT = 9_999
BYTE_LIMIT = 34_603_008
_BOARD = re.compile(r"board (\S+)")
_LAST = re.compile(r"(\d+) users, (\d+) uploads, (\d+) bytes")


@dataclass
class Seen:
    """What an export saw: when the board was made, the slots of each conference, and its counts of users and uploads."""

    created: int
    slots: dict[int, int]
    users: int
    uploads: int

    def as_json(self) -> dict[str, Any]:
        """Gives what JSON holds."""
        slots = {str(conference): count for conference, count in self.slots.items()}
        return {"created": self.created, "slots": slots, "users": self.users, "uploads": self.uploads}

    @classmethod
    def of_json(cls, value: Any) -> Optional[Seen]:
        """Gives what JSON holds, and None where it isn't that."""
        try:
            slots = {int(conference): int(count) for conference, count in value["slots"].items()}
            return cls(int(value["created"]), slots, int(value["users"]), int(value["uploads"]))
        except (AttributeError, KeyError, TypeError, ValueError):
            return None


@dataclass
class Totals:
    """A board's totals. When it was made is in its ledger, and not known where that doesn't read."""

    bbsid: str
    names: dict[int, str]
    slots: dict[int, int]
    users: int
    uploads: int
    bytes: int
    created: Optional[int] = None

    def seen(self) -> Optional[Seen]:
        """Gives what an export of this moment sees. None where the board isn't known for sure."""
        return None if self.created is None else Seen(self.created, dict(self.slots), self.users, self.uploads)

    def has_nothing_since(self, seen: Optional[Seen]) -> bool:
        """Whether the board has had no new message since these totals were seen.

        A new message takes a new slot, and no slot goes. Fewer users or uploads are those of a copy that was put back,
        and another moment is that of another board: then it can't be known.
        """
        return (
            seen is not None
            and self.created == seen.created
            and self.slots == seen.slots
            and self.users >= seen.users
            and self.uploads >= seen.uploads
        )

    def post(self, conference: int, number: int) -> None:
        """Counts a message that was posted: its number is that of its slot."""
        self.slots[conference] = max(self.slots.get(conference, 0), number)

    def slots_left(self) -> dict[int, int]:
        """Gives how many slots each conference has left."""
        return {conference: SLOT_LIMIT - slots for conference, slots in self.slots.items()}

    def bytes_left(self) -> int:
        """Gives how many bytes the board had left when it was looked at."""
        return BYTE_LIMIT - self.bytes


def read(lines: list[bytes]) -> Totals:
    """Gives the totals of the reply of `check`."""
    texts = [line.decode("latin-1") for line in lines]
    board = _BOARD.fullmatch(texts[0]) if texts else None
    last = _LAST.fullmatch(texts[-1]) if texts else None
    if board is None or last is None:
        raise Failure(f"check gave a reply that this script doesn't know: {texts[-1] if texts else 'nothing'}")
    found = conferences.read(lines)
    return Totals(
        board.group(1),
        {it.number: it.name for it in found},
        {it.number: it.slots for it in found},
        int(last.group(1)),
        int(last.group(2)),
        int(last.group(3)),
    )
