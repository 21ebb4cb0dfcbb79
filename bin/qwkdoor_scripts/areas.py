"""The list `areas` of a shelf: which conference takes the mail of an area whose tag isn't the conference's name.

A line is a tag, of any length, and the conference's name, which may hold blanks. Letters may be large or small in both.
Empty lines and lines that begin with `#` are skipped.
"""

from __future__ import annotations

from typing import Iterable, Mapping

from .failure import WRONG_WORDS, Failure

# The tags in small letters, and the names of their conferences.
Areas = Mapping[bytes, bytes]


def read(path: str, names: Iterable[str]) -> Areas:
    """Reads the list, for a board with conferences of these names. Without the list no tag has another name."""
    try:
        with open(path, "rb") as file:
            lines = file.read().split(b"\n")
    except FileNotFoundError:
        return {}
    known = {name.encode("latin-1").lower() for name in names}
    found: "dict[bytes, bytes]" = {}
    for number, line in enumerate(lines, 1):
        words = line.split(None, 1)
        if words and not words[0].startswith(b"#"):
            tag, name = _entry(words, known, found, f"{path}, line {number}")
            found[tag] = name
    return found


def _entry(words: "list[bytes]", known: "set[bytes]", found: Areas, where: str) -> "tuple[bytes, bytes]":
    if len(words) != 2:
        raise Failure(f"{where}: a line is a tag and the name of a conference", WRONG_WORDS)
    tag, name = words[0].lower(), words[1].strip()
    if tag in found:
        raise Failure(f"{where}: the tag {_shown(tag)} is listed twice", WRONG_WORDS)
    if name.lower() not in known:
        raise Failure(f"{where}: the board has no conference {_shown(name)}", WRONG_WORDS)
    return tag, name


def _shown(word: bytes) -> str:
    return word.decode("ascii", "replace")
