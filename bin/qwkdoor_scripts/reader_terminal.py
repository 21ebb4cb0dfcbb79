"""A terminal: what it shows, and the keys that are pressed.

Nothing of a letter reaches it that it would obey. In UTF-8 no control character does; in characters of one byte no byte
does below 20h, or from 7Fh to 9Fh, since a terminal of 8 bits obeys those.
"""

from __future__ import annotations

import codecs
import locale
import os
import select
import signal
import termios
from types import FrameType
from typing import Any, Mapping, Optional

from .characters import shown, terminals
from .reader_columns import cut, padded

_KEYS = {
    "[A": "up", "[B": "down", "[5~": "page up", "[6~": "page down", "[H": "home", "[F": "end", "[1~": "home",
    "[4~": "end", "OA": "up", "OB": "down", "OH": "home", "OF": "end", "[C": "right", "[D": "left",
    "OC": "right", "OD": "left",
}
_NAMED = {"\r": "enter", "\n": "enter", "\x7f": "backspace", "\b": "backspace", "\x04": "q", "\x0c": "redraw"}
_CLEAR = "\x1b[H\x1b[2J"
_ESCAPE_SECONDS = 0.1
# The longest line that a terminal gives at once.
_LINE = 4096


class Hangup(Exception):
    """The terminal is gone."""


def encoding_of(environment: Mapping[str, str], chosen: str) -> str:
    """Gives the terminal's characters: those of the settings, else those of the caller's language, else ASCII."""
    if chosen:
        return terminals(chosen)
    language = environment.get("LC_ALL") or environment.get("LC_CTYPE") or environment.get("LANG") or "C"
    if "." in language:
        name = language.partition(".")[2].partition("@")[0]
    else:
        name = _characters_of(language)
    return terminals(name) or "ascii"


def _characters_of(language: str) -> str:
    """Gives the characters of a language that doesn't name them, and nothing where the machine hasn't that language."""
    try:
        locale.setlocale(locale.LC_CTYPE, language)
    except locale.Error:
        return ""
    return locale.nl_langinfo(locale.CODESET) if language not in ("C", "POSIX") else ""


def obeyed_by_none(text: str, encoding: str) -> bytes:
    """Gives a text as a terminal's bytes, `?` for a character that it lacks or whose bytes it might obey."""
    if encoding == "utf-8":
        return shown(text.encode("utf-8", "replace"), "utf-8").encode("utf-8")
    return b"".join(_bytes_of(it, encoding) for it in text)


def _bytes_of(character: str, encoding: str) -> bytes:
    try:
        data = character.encode(encoding)
    except UnicodeEncodeError:
        return b"?"
    return b"?" if any(it < 0x20 or 0x7F <= it <= 0x9F for it in data) else data


class Terminal:
    """The terminal of standard input and output, which gives each key at once while a screen stands."""

    def __init__(self, encoding: str) -> None:
        self.encoding = encoding
        self.before = termios.tcgetattr(0)
        self.is_by_key = False
        self.decoder = codecs.getincrementaldecoder(encoding)("replace")
        signal.signal(signal.SIGCONT, self._continued)

    def size(self) -> "tuple[int, int]":
        """Gives the columns and the lines."""
        try:
            size = os.get_terminal_size(1)
        except OSError:
            return 80, 24
        return max(size.columns or 80, 20), max(size.lines or 24, 6)

    def by_key(self) -> None:
        """Gives each key at once, and shows none. Ctrl-C stays what it is."""
        self.is_by_key = True
        mode = list(self.before)
        mode[3] &= ~(termios.ICANON | termios.ECHO)
        mode[6] = [*self.before[6]]
        mode[6][termios.VMIN], mode[6][termios.VTIME] = 1, 0
        self._set(mode)

    def _set(self, mode: "list[Any]") -> None:
        """Sets a mode of the terminal. One that is gone says so at the next key."""
        try:
            termios.tcsetattr(0, termios.TCSADRAIN, mode)
        except termios.error:
            pass

    def by_line(self) -> None:
        """Puts the terminal back as it was."""
        self.is_by_key = False
        self._set(self.before)

    def _continued(self, number: int, frame: Optional[FrameType]) -> None:
        # While the editor runs the terminal is the editor's.
        if self.is_by_key:
            self.by_key()

    def write(self, text: str) -> None:
        """Writes a text of one line, and obeys none of it."""
        self._put(obeyed_by_none(text, self.encoding))

    def _put(self, data: bytes) -> None:
        while data:
            try:
                data = data[os.write(1, data) :]
            except OSError as error:
                raise Hangup from error

    def draw(self, lines: "list[str]", bottom: str, chosen: int = -1) -> None:
        """Draws a screen: its lines, one of them chosen, and what stands in the last line."""
        columns, rows = self.size()
        self._put(_CLEAR.encode())
        for at, line in enumerate(lines[: rows - 1]):
            if at == chosen:
                self._reverse(padded(line, columns - 1))
            else:
                self.write(cut(line, columns - 1))
            self._put(b"\n")
        self._put(f"\x1b[{rows};1H".encode())
        self._reverse(padded(bottom, columns - 1))

    def _reverse(self, text: str) -> None:
        self._put(b"\x1b[7m")
        self.write(text)
        self._put(b"\x1b[m")

    def line(self, text: str) -> None:
        """Writes a line below what stands there."""
        self.write(text)
        self._put(b"\n")

    def clear(self) -> None:
        """Takes the screen away."""
        self._put(_CLEAR.encode())

    def key(self) -> str:
        """Waits for a key, and gives its character or its name."""
        character = self._character()
        if character != "\x1b":
            return _NAMED.get(character, character)
        sequence = ""
        while self._is_waiting() and (sequence + " ")[0] in "[O " and not _KEYS.get(sequence) and len(sequence) < 8:
            sequence += self._character()
            if len(sequence) > 1 and sequence[-1] >= "@":
                break
        return _KEYS.get(sequence, "escape")

    def _is_waiting(self) -> bool:
        return bool(select.select([0], [], [], _ESCAPE_SECONDS)[0])

    def _character(self) -> str:
        while True:
            text = self.decoder.decode(self._read(1))
            if text:
                return text

    def _read(self, count: int) -> bytes:
        try:
            data = os.read(0, count)
        except OSError as error:
            raise Hangup from error
        if not data:
            raise Hangup
        return data

    def ask(self, question: str, default: str) -> Optional[str]:
        """Asks for a line, in which the terminal's own keys mend. Ctrl-C and Ctrl-D give up."""
        self._put(b"\r\x1b[K")
        self.write(f"{question} [{default}]: " if default else f"{question}: ")
        self.by_line()
        data = b""
        try:
            # What was typed before the terminal took lines may come as a line of its own.
            while not data.endswith(b"\n"):
                data += self._read(_LINE)
        except (KeyboardInterrupt, Hangup):
            # Where the terminal is gone, the next key says so.
            return None
        finally:
            self.by_key()
        return data.decode(self.encoding, "replace").rstrip("\r\n").strip() or default
