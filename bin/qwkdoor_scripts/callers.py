"""The list of callers, SHELF/mail/callers: a line "USER" LIMIT NAME [LETTERS [BYTES]] for each."""

from __future__ import annotations

import os
import re
from dataclasses import dataclass

from .failure import WRONG_WORDS, Failure

# What a caller may send a day where his line says nothing.
LETTERS_A_DAY = 200
BYTES_A_DAY = 262_144
_RESERVED = ("callers", "log", "lock")
_LINE = re.compile(r'"([^"\x00-\x1f\x7f]+)"[ \t]*(.*)')
_NAME = re.compile(r"[A-Za-z0-9_-][A-Za-z0-9._-]{0,31}")
_FORM = 'a line is "USER" LIMIT NAME, and LETTERS and BYTES may follow'


@dataclass(frozen=True)
class Caller:
    """A user who is served: how many messages his packets have at most, his folder, and what he may send a day."""

    user: str
    limit: int
    name: str
    letters: int = LETTERS_A_DAY
    bytes: int = BYTES_A_DAY


def read(path: str) -> list[Caller]:
    """Gives the callers of a list. All of it is looked at, since two lines with one user undo each other's work."""
    try:
        with open(path, "rb") as file:
            lines = file.read().split(b"\n")
    except OSError as error:
        raise Failure(f"{path} can't be read: {error.strerror}") from error
    found: list[Caller] = []
    names: set[str] = set()
    users: set[str] = set()
    for at, raw in enumerate(lines, 1):
        line = os.fsdecode(raw).strip(" \t\r")
        if not line or line.startswith("#"):
            continue
        caller = _caller(line, f"{path}, line {at}")
        _once(caller.name, names, f"{path}, line {at}: the folder")
        _once(folded(caller.user), users, f"{path}, line {at}: the user")
        found.append(caller)
    return found


def folded(user: str) -> str:
    """Gives a user's name as the board compares it: ASCII letters alone lose their case."""
    return "".join(it.lower() if it.isascii() else it for it in user)


def alike(callers: list[Caller]) -> list[tuple[str, str]]:
    """Gives the folders that differ in case alone: on another file system they are one."""
    first: dict[str, str] = {}
    for caller in callers:
        first.setdefault(caller.name.lower(), caller.name)
    return [(it.name, first[it.name.lower()]) for it in callers if first[it.name.lower()] != it.name]


def _once(text: str, seen: set[str], what: str) -> None:
    if text in seen:
        raise Failure(f"{what} {text} is listed twice", WRONG_WORDS)
    seen.add(text)


def _caller(line: str, place: str) -> Caller:
    found = _LINE.fullmatch(line)
    words = found.group(2).split() if found else []
    if found is None or not 2 <= len(words) <= 4:
        raise Failure(f"{place}: {_FORM}", WRONG_WORDS)
    limit, name, *day = words
    if not _NAME.fullmatch(name) or name in _RESERVED:
        raise Failure(
            f"{place}: {name} can't be a caller's folder: its name has 1 to 32 letters, digits, '.', '_' and '-', "
            "doesn't begin with '.', and isn't callers, log or lock",
            WRONG_WORDS,
        )
    return Caller(
        found.group(1),
        _number(limit, 1, 2000, f"{place}: the limit"),
        name,
        _number(day[0], 0, 9999, f"{place}: the letters a day") if day else LETTERS_A_DAY,
        _number(day[1], 0, 99_999_999, f"{place}: the bytes a day") if len(day) > 1 else BYTES_A_DAY,
    )


def _number(word: str, least: int, most: int, what: str) -> int:
    if not re.fullmatch(r"[0-9]{1,8}", word) or not least <= int(word) <= most:
        raise Failure(f"{what} {word} isn't a number from {least} to {most}", WRONG_WORDS)
    return int(word)
