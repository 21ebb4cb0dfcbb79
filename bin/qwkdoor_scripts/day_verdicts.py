"""What was said of a caller's archives, in words for him: the file NEWS of his next packet.

Each archive's words are a file ID.news of his folder `work` until a packet has them. The names that are in a packet are
kept with its number, so that a kill tells nothing twice.
"""

from __future__ import annotations

import os
import re
from typing import Mapping, Sequence

from . import durable

NEWS = ".news"
NEWS_LIMIT = 65_536
_RULES = {
    "killed": "it is marked as deleted",
    "password": "the board takes no letters with a password",
    "conference": "the board has no conference of that number",
    "member": "you are no member of that conference",
    "readonly": "nobody but the sysop writes in that conference",
    "sender": "From isn't your name on this board",
    "to": "To is empty, or has a control character",
    "subject": "Subject has a control character",
    "length": "its text has more than 16,384 bytes",
    "private": "that conference takes no private letters",
    "netuser": "you may not write net mail",
    "address": "the first line of a net letter is NAME@ZONE:NET/NODE",
    "zone": "the board sends to no address of that zone",
    "full": "the conference or the board is full",
}
_PACKETS = {
    "toolarge": "it has more than 1,048,576 bytes",
    "broken": "it is cut or broken, so that none of it was posted",
    "noboardid": "it doesn't say for which board it is",
    "board": "it is for another board",
}
# The line between what was said of an upload that was cut short and what was said when it was done once more.
AGAIN = b"begun by a run that was cut short, and now once more:"
_VERDICT = re.compile(rb"(\d+) (?:posted (\d+) (\d+)|refused ([a-z]+))")
_COUNTS = re.compile(rb"(again )?posted (\d+) refused (\d+)")


class Verdicts:
    """The lines that the program said of an archive: those of its messages by their place, and the last one."""

    def __init__(self, lines: Sequence[bytes]) -> None:
        found = [(line, _VERDICT.fullmatch(line)) for line in lines]
        # An upload that was cut short may have been said twice: what was said of a message stays the same.
        self.messages: dict[int, bytes] = {int(it.group(1)): line for line, it in found if it}
        self.last = lines[-1] if lines else b""
        counts = _COUNTS.fullmatch(self.last)
        self.posted, self.refused = (int(counts.group(2)), int(counts.group(3))) if counts else (0, 0)
        self.is_again = bool(counts and counts.group(1))
        # `again` is said of what a run that was cut short had posted, and of what the caller sent twice.
        self.is_twice = self.is_again and not self.messages and AGAIN not in lines

    def posts(self) -> list[tuple[int, int]]:
        """Gives the conference and the number of each message that was posted."""
        found = [_VERDICT.fullmatch(line) for line in self.messages.values()]
        return [(int(it.group(2)), int(it.group(3))) for it in found if it and it.group(2)]

    def in_words(self, names: Mapping[int, str], listing: Sequence[bytes]) -> list[bytes]:
        """Gives a line for each message, and under one that was refused what the packet says of it."""
        shown = _by_place(listing)
        lines: list[bytes] = []
        for place, line in sorted(self.messages.items()):
            lines.append(_worded(line, names))
            if b" refused " in line and place in shown:
                lines.append(b"  " + shown[place])
        return [*lines, *self._ending()]

    def _ending(self) -> list[bytes]:
        if self.is_twice:
            return [self.last + b": it came before, and nothing is posted twice"]
        rule = self.last.split(b" ")[1:2]
        if self.last.startswith(b"refused ") and rule:
            return [self.last + b": " + _PACKETS.get(rule[0].decode("latin-1"), "the board takes none of it").encode()]
        return [b"%d posted, %d refused" % (self.posted, self.refused)]


def _by_place(listing: Sequence[bytes]) -> dict[int, bytes]:
    found = [re.match(rb"(\d+) \S+ (.*)", line) for line in listing]
    return {int(it.group(1)): it.group(2) for it in found if it and b" > " in it.group(2)}


def _worded(line: bytes, names: Mapping[int, str]) -> bytes:
    it = _VERDICT.fullmatch(line)
    assert it is not None
    if it.group(4):
        rule = it.group(4).decode("ascii")
        return line + b": " + _RULES.get(rule, "the board doesn't take it").encode()
    name = names.get(int(it.group(2)), "").encode("latin-1", "replace")
    return line + b": letter %d of %s" % (int(it.group(3)), name)


def keep(work: str, name: str, archive: str, lines: Sequence[bytes]) -> None:
    """Keeps the words on an archive until a packet has them."""
    came = archive[:4] + "-" + archive[4:6] + "-" + archive[6:8] + " " + archive[9:11] + ":" + archive[11:13]
    head = f"What you sent, which came {came} UTC ({archive}):".encode()
    text = b"".join(line + b"\r\n" for line in [head, *lines, b""])
    durable.write_whole(os.path.join(work, name + NEWS), text)


def waiting(work: str) -> list[str]:
    """Gives the names of what waits to be told, in the order in which it came."""
    with os.scandir(work) as entries:
        return sorted(it.name[: -len(NEWS)] for it in entries if it.name.endswith(NEWS))


def joined(work: str, names: Sequence[str]) -> bytes:
    """Gives the text of NEWS."""
    texts = [_read(os.path.join(work, name + NEWS)) for name in names]
    text = b"".join(texts)
    if len(text) <= NEWS_LIMIT:
        return text
    return text[:NEWS_LIMIT].rpartition(b"\r\n")[0] + b"\r\n..\r\nThe sysop has the rest.\r\n"


def forget(work: str, names: Sequence[str]) -> None:
    """Takes away what a packet has."""
    for name in names:
        durable.remove(os.path.join(work, name + NEWS))


def _read(path: str) -> bytes:
    with open(path, "rb") as file:
        return file.read(NEWS_LIMIT + 1)
