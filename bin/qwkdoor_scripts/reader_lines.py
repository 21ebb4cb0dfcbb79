"""How the reader speaks without a terminal: lines out and in. It asks no question."""

from __future__ import annotations

import sys
from typing import Optional

from . import reader_shell
from .failure import Failure
from .reader_terminal import obeyed_by_none


class PlainVoice:
    """Says lines on standard output, and takes the lines of standard input."""

    def __init__(self, encoding: str) -> None:
        self.encoding = encoding

    def say(self, line: str) -> None:
        """Says a line."""
        self._put(obeyed_by_none(line, self.encoding) + b"\n")

    def _put(self, data: bytes) -> None:
        try:
            sys.stdout.buffer.write(data)
            sys.stdout.buffer.flush()
        except OSError as error:
            raise Failure(f"can't write to standard output: {error.strerror}") from error

    def prompt(self, text: str) -> Optional[str]:
        """Gives the next line. None at the end of the input."""
        self._put(obeyed_by_none(text, self.encoding))
        line = sys.stdin.buffer.readline()
        return line.decode(self.encoding, "replace").rstrip("\r\n") if line else None

    def choose(self, question: str, choices: "dict[str, str]", default: str) -> str:
        """Says why there would be a question, and takes the default."""
        self.say(question)
        return default

    def confirm(self, warning: str) -> bool:
        """Says what follows, and goes on."""
        self.say(warning)
        return True

    def ask(self, question: str, default: str = "") -> Optional[str]:
        """Takes the next line as the answer to a question."""
        line = self.prompt(f"{question} [{default}]: " if default else f"{question}: ")
        return None if line is None else line.strip() or default

    def suggest(self, question: str, default: str) -> Optional[str]:
        """Takes what is known."""
        return default

    def edit(self, path: str) -> int:
        """Lets the editor change a file."""
        return reader_shell.edit(path)
