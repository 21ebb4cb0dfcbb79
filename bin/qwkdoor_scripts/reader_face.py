"""The terminal's side of what the reader says and asks: rows to move in, questions by a key, and pages of text."""

from __future__ import annotations

from typing import Optional

from . import reader_shell
from .reader_columns import wrapped
from .reader_terminal import Terminal

BACK = frozenset(("q", "escape", "left", "backspace"))


class Face:
    """A terminal with what is to be said on it."""

    def __init__(self, terminal: Terminal) -> None:
        self.terminal = terminal
        self.notes: "list[str]" = []

    def say(self, line: str) -> None:
        """Says a line, which stands at the bottom of the next screen."""
        self.notes.append(line)

    def draw(self, lines: "list[str]", hint: str, chosen: int = -1) -> str:
        """Draws a screen, and waits for a key. What was said stands in place of the hint, once."""
        if len(self.notes) > 1:
            self._show_notes()
        bottom = self.notes.pop() if self.notes else hint
        self.terminal.draw(lines, bottom, chosen)
        return self.terminal.key()

    def _show_notes(self) -> None:
        notes = self.notes
        self.notes = []
        self.page(notes, "any key goes on")

    def page(self, lines: "list[str]", hint: str) -> str:
        """Shows a text, as many screens as it takes. Gives the key that ended it."""
        columns, rows = self.terminal.size()
        fitting = [it for line in lines for it in wrapped(line, columns - 1)]
        room = rows - 1
        key = ""
        for at in range(0, max(len(fitting), 1), room):
            is_last = at + room >= len(fitting)
            self.terminal.draw(fitting[at : at + room], hint if is_last else "Space shows more  q ends")
            key = self.terminal.key()
            if key in BACK:
                return key
        return key

    def choose(self, question: str, choices: "dict[str, str]", default: str) -> str:
        """Asks for one of the keys. Ctrl-C and Esc take the default."""
        columns, _ = self.terminal.size()
        lines = [it for line in [*self.notes, question] for it in wrapped(line, columns - 1)]
        self.notes = []
        lines.extend(["", *(f"  {key}  {words}" for key, words in choices.items())])
        key = ""
        while key not in choices:
            self.terminal.draw(lines, "which?")
            try:
                key = self.terminal.key()
            except KeyboardInterrupt:
                return default
            if key == "escape":
                return default
        return key

    def confirm(self, warning: str) -> bool:
        """Says what follows, and asks."""
        return self.choose(f"{warning}. Go on?", {"y": "yes", "n": "no"}, "n") == "y"

    def ask(self, question: str, default: str = "") -> Optional[str]:
        """Asks for a line below the screen."""
        return self.terminal.ask(question, default)

    def suggest(self, question: str, default: str) -> Optional[str]:
        """Asks for a line whose answer may be known."""
        return self.terminal.ask(question, default)

    def edit(self, path: str) -> int:
        """Gives the terminal to the editor."""
        self.terminal.clear()
        self.terminal.by_line()
        try:
            return reader_shell.edit(path)
        finally:
            self.terminal.by_key()

    def pick(self, title: str, rows: "list[str]", at: int, hint: str) -> "tuple[str, int]":
        """Lets the caller move in rows. Gives the first key that doesn't move, and the row."""
        while True:
            room = max(self.terminal.size()[1] - 3, 1)
            top = max(min(at - room // 2, len(rows) - room), 0)
            lines = [title, "", *rows[top : top + room]]
            key = self.draw(lines, hint, at - top + 2 if rows else -1)
            moved = _moved(key, at, room)
            if moved is None:
                return key, at
            at = max(min(moved, len(rows) - 1), 0)


def _moved(key: str, at: int, room: int) -> Optional[int]:
    """Gives the row to which a key moves, or nothing where it doesn't."""
    moves = {
        "up": at - 1, "down": at + 1, "page up": at - room, "page down": at + room, "home": 0, "end": 1 << 30,
        "redraw": at,
    }
    return moves.get(key)
