"""A packet's bytes as characters that a terminal shows and doesn't obey."""

from __future__ import annotations

import codecs
import unicodedata
from typing import Dict

CHARACTERS = ("cp437", "latin-1", "cp850", "cp866", "utf-8")
_PLAIN = b" 0123456789ABCDEFGHIJKLMNOPQRSTUVWXYZabcdefghijklmnopqrstuvwxyz"


def terminals(name: str) -> str:
    """Gives the usual name of a terminal's characters, in which those of ASCII are as they are there; else nothing."""
    try:
        is_plain = _PLAIN.decode("ascii").encode(name) == _PLAIN == _PLAIN.decode(name, "replace").encode("ascii")
        return codecs.lookup(name).name if is_plain else ""
    except (LookupError, ValueError):
        return ""


def shown(data: bytes, characters: str = "cp437") -> str:
    """Gives the characters of a text's bytes. A tab is a blank, and a control character or a byte that is none is '?'.

    So nothing below 20h, and no 7Fh to 9Fh of an 8-bit terminal or C1 of UTF-8, reaches a terminal.
    """
    return data.decode(characters, "replace").translate(_SHOWN)


class _Shown(Dict[int, str]):
    """What stands for each character by its number. One that comes again isn't judged again."""

    def __missing__(self, number: int) -> str:
        character = chr(number)
        is_hidden = _is_obeyed(character) or character == "\N{REPLACEMENT CHARACTER}"
        self[number] = "?" if is_hidden else character
        return self[number]


_SHOWN = _Shown({ord("\t"): " "})


def _is_obeyed(character: str) -> bool:
    """Whether a terminal may act on a character: the controls, and those that turn the direction of a line."""
    return unicodedata.category(character) in ("Cc", "Cf", "Cs", "Zl", "Zp")
