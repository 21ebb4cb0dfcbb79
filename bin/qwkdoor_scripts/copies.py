"""The copy of a packet that the program gets, in which each message has a msgid, and tags are names of conferences."""

from __future__ import annotations

import hashlib
from collections import Counter
from typing import Iterator

from .areas import Areas
from .packets import END, LIMIT, Message, Packet


def named(packet: Packet) -> "list[Message]":
    """Gives the messages, where one that lacks a msgid has one made of its bytes.

    It is the same each time, and counts the messages before it that are the same byte for byte. So the board knows the
    message again, and two that are alike both come.
    """
    seen: "Counter[str]" = Counter()
    return [it if it.has_msgid() else it.with_msgid(_made(it, seen)) for it in packet.messages]


def _made(message: Message, seen: "Counter[str]") -> bytes:
    digest = hashlib.sha256(message.data()).hexdigest()[:32]
    seen[digest] += 1
    return f"toss.{digest}.{seen[digest]}".encode("ascii")


def parts(header: bytes, messages: "list[Message]", areas: Areas) -> "Iterator[bytes]":
    """Gives the packets for the program: one, and more where a packet would be longer than it reads."""
    part = [header]
    length = len(header) + len(END)
    for message in messages:
        data = _addressed(message, areas).data()
        if len(part) > 1 and length + len(data) > LIMIT:
            yield b"".join([*part, END])
            part = [header]
            length = len(header) + len(END)
        part.append(data)
        length += len(data)
    yield b"".join([*part, END])


def _addressed(message: Message, areas: Areas) -> Message:
    tag = message.tag()
    name = areas.get(tag.lower()) if tag else None
    return message if name is None else message.with_tag(name)
