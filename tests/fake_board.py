"""A board for the tests of kills: it keeps what was posted in a file, and refuses by the rules of docs/FORMATS.md."""

from __future__ import annotations

import json
import os
import re
from typing import Mapping

from qwkdoor_scripts import durable, packets
from qwkdoor_scripts.program import Reply

_MSGID = re.compile(rb"(?:\A|\r)\x01MSGID: *([^\r]*[^\r ])")


class FakeBoard:
    """What stands for the program: conferences of kind echo by name, and one for letters."""

    def __init__(self, shelf: str, path: str, numbers: Mapping[str, int]) -> None:
        self.shelf = shelf
        self.path = path
        self.numbers = numbers

    def posted(self) -> "dict[str, list[str]]":
        """Gives the msgids of each conference, one for each message."""
        with open(self.path, encoding="ascii") as file:
            found: "dict[str, list[str]]" = json.load(file)
        return found

    def run(self, command: str, *words: str) -> Reply:
        """Carries out `check` or `toss`. A kill may come before the change of a toss, and after it."""
        if command == "check":
            counts = {name: len(it) for name, it in self.posted().items()}
            lines = [f"{self.numbers[name]} {name}: {it} slots, {it} live" for name, it in counts.items()]
            return _reply(0, ["board FAKE", *lines, "0 users, 0 uploads, 0 bytes"])
        with open(os.path.join(self.shelf, words[0]), "rb") as file:
            data = file.read()
        durable.before("toss", words[0])
        reply = self._toss(data)
        durable.before("tossed", words[0])
        return reply

    def _toss(self, data: bytes) -> Reply:
        packet = packets.read(data)
        if packet is None:
            return _reply(1, ["refused packet cut 58"])
        posted = self.posted()
        verdicts = [f"{place} {self._post(it, posted)}" for place, it in enumerate(packet.messages, 1)]
        with open(self.path + ".new", "w", encoding="ascii") as file:
            json.dump(posted, file)
        os.replace(self.path + ".new", self.path)
        return _reply(0, [*verdicts, "posted and refused"])

    def _post(self, message: packets.Message, posted: "dict[str, list[str]]") -> str:
        tag = message.tag()
        name = "NETMAIL" if tag is None else tag.decode("ascii")
        match = _MSGID.search(message.text)
        if name not in posted:
            return "refused area"
        if match and match.group(1).hex() in posted[name]:
            return "refused dupe"
        posted[name].append(match.group(1).hex() if match else "none")
        return f"posted {self.numbers[name]} {len(posted[name])}"


def _reply(status: int, lines: "list[str]") -> Reply:
    return Reply(status, [line.encode("ascii") for line in lines], "")
