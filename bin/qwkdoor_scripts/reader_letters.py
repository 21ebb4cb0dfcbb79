"""From what a caller typed to the bytes that the program puts into a reply packet."""

from __future__ import annotations

import unicodedata

from . import durable, program, reader_texts
from .reader_outbox import write_answer
from .reader_quoting import ADDRESS_LINE
from .reader_texts import Text

# The byte that ends a line in a packet, so that no letter can have it.
_LINE_END = 0xE3


def typed_lines(data: bytes, editing: str) -> "list[str]":
    """Gives the lines that an editor left."""
    text = data.decode(editing, "replace").lstrip("\ufeff")
    text = text.replace("\r\n", "\n").replace("\r", "\n").rstrip()
    return [line.expandtabs(8).rstrip() for line in text.split("\n")]


def unwritable_in(lines: "list[str]", characters: str) -> "dict[str, int]":
    """Gives the characters that a packet can't have, each with the first line that has it."""
    found: "dict[str, int]" = {}
    for number, line in enumerate(lines, 1):
        for character in line:
            if not _is_writable(character, characters):
                found.setdefault(character, number)
    return found


def _is_writable(character: str, characters: str) -> bool:
    try:
        data = character.encode(characters)
    except UnicodeEncodeError:
        return False
    if character == "\N{REPLACEMENT CHARACTER}":
        return False
    return unicodedata.category(character) != "Cc" and not any(it < 0x20 or it in (0x7F, _LINE_END) for it in data)


def names_of(found: "dict[str, int]") -> str:
    """Names characters with their lines."""
    return ", ".join(f"{_name(it)} in line {line}" for it, line in found.items())


def _name(character: str) -> str:
    if unicodedata.category(character).startswith("C"):
        return f"the character {ord(character):X}h"
    return f"'{character}'" if character != "\N{REPLACEMENT CHARACTER}" else "bytes that are no characters"


def _written(text: str, characters: str) -> bytes:
    return b"".join(it.encode(characters) if _is_writable(it, characters) else b"?" for it in text)


def letter_of(text: Text, lines: "list[str]", characters: str) -> bytes:
    """Gives the file that the program takes for a draft: a text for `reply`, a sheet for `compose`."""
    about = text.about
    if about.address and not (lines and ADDRESS_LINE.fullmatch(lines[0])):
        lines = [about.address, *lines]
    if about.kind == reader_texts.REPLY:
        return b"".join(_written(line, characters) + b"\n" for line in lines)
    sheet = [
        "From: ME",
        f"To: {about.to}",
        f"Subject: {about.subject}",
        f"Private: {'yes' if about.private else 'no'}",
        "",
        *("." + line if line.startswith(".") else line for line in lines),
        ".",
    ]
    return b"".join(_written(line, characters) + b"\n" for line in sheet)


def keep(text: Text, data: bytes, letter: bytes, door: program.Program) -> "tuple[Text, program.Reply]":
    """Has the program try the letter of what was typed, and makes the draft an answer where it takes it."""
    durable.write_whole(text.at("letter"), letter)
    durable.remove(text.box.at("work", "trial.msg"))
    reply = write_answer(door, text, "work/trial.msg")
    return (reader_texts.keep(text, data) if reply.status == program.DONE else text), reply
