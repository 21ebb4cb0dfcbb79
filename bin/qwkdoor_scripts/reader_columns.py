"""Texts in columns: how wide a text stands on a terminal, cut, filled up, and wrapped at words."""

from __future__ import annotations

import functools
import re
import unicodedata

# What stands before the words of a line that was quoted, as `> ` or ` BR>> `.
QUOTED = re.compile(r"[ ]{0,3}[^\s<>]{0,4}>+ ?")
_BOX = re.compile("[\u2500-\u259f]")
_DRAWN = frozenset("/\\|_-=+*#.,'`^~:;()<>[]{}")
# A line of letters has fewer signs than this share of it, and no gap of so many blanks within it.
_SHARE = 0.5
_GAP = "    "


def width(text: str) -> int:
    """Gives the columns that a text takes: an East Asian wide character takes two, and a mark over another none."""
    return len(text) if text.isascii() else sum(_width_of(it) for it in text)


@functools.lru_cache(maxsize=None)
def _width_of(character: str) -> int:
    if unicodedata.combining(character):
        return 0
    return 2 if unicodedata.east_asian_width(character) in "WF" else 1


def cut(text: str, columns: int) -> str:
    """Gives as much of a text's front as fits."""
    used = 0
    for place, character in enumerate(text):
        used += _width_of(character)
        if used > columns:
            return text[:place]
    return text


def padded(text: str, columns: int) -> str:
    """Gives a text that takes exactly these columns."""
    front = cut(text, columns)
    return front + " " * (columns - width(front))


def is_picture(line: str) -> bool:
    """Whether a line looks like a part of a picture or a table, which a wrap would break."""
    inner = line.strip()
    if _BOX.search(inner) or _GAP in inner:
        return True
    return sum(it in _DRAWN for it in inner) > _SHARE * len(inner)


def wrapped(line: str, columns: int) -> "list[str]":
    """Gives a line as lines that fit, broken at blanks. What is quoted keeps its mark on each of them."""
    found = QUOTED.match(line)
    mark = found.group() if found and width(found.group()) < columns // 2 else ""
    room = columns - width(mark)
    lines: "list[str]" = []
    at = len(mark)
    end = _end(line, at, room)
    while end < len(line):
        stop = _stop(line, at, end)
        lines.append((mark + line[at:stop]).rstrip())
        at = _after_blanks(line, stop)
        end = _end(line, at, room)
    return [*lines, mark + line[at:]]


def _end(line: str, at: int, columns: int) -> int:
    """Gives the end of what fits from a place on, which has one character at least."""
    if line.isascii():
        return min(at + max(columns, 1), len(line))
    used = 0
    for place in range(at, len(line)):
        used += _width_of(line[place])
        if used > columns:
            return max(place, at + 1)
    return len(line)


def _stop(line: str, at: int, end: int) -> int:
    """Gives the last blank up to the end of what fits, or that end where no word comes before a blank."""
    blank = line.rfind(" ", at, end + 1)
    return blank if blank > at and line[at:blank].strip() else end


def _after_blanks(line: str, at: int) -> int:
    while at < len(line) and line[at] == " ":
        at += 1
    return at


def broken(line: str, columns: int) -> "list[str]":
    """Gives a line as lines that fit, broken where the columns end."""
    lines = []
    at = 0
    end = _end(line, at, columns)
    while end < len(line):
        lines.append(line[at:end])
        at = end
        end = _end(line, at, columns)
    return [*lines, line[at:]]
