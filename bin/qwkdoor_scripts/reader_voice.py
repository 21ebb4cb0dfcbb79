"""How the reader speaks with the caller: on a terminal by screens and keys, else by lines."""

from __future__ import annotations

from typing import Optional, Protocol


class Voice(Protocol):
    """What both ways can do."""

    def say(self, line: str) -> None:
        """Says a line."""

    def choose(self, question: str, choices: "dict[str, str]", default: str) -> str:
        """Asks for one of the keys, each of which has words. Without a terminal it is the default."""

    def confirm(self, warning: str) -> bool:
        """Says what follows from what the caller wants, and asks whether he goes on. By lines he does."""

    def ask(self, question: str, default: str = "") -> Optional[str]:
        """Asks for a line that may have a default. None where the caller gives up."""

    def suggest(self, question: str, default: str) -> Optional[str]:
        """Asks for a line on a terminal. Without one it is the default."""

    def edit(self, path: str) -> int:
        """Lets the editor change a file, and gives its status."""
