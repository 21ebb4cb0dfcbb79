"""What README.md and docs/SESSIONS.md show of commands at work."""

from __future__ import annotations

import os
from dataclasses import dataclass

from tests.support import TOP

_PAGES = ("README.md", "docs/SESSIONS.md")
_PROMPT = "    $ "


@dataclass(frozen=True)
class Session:
    """The commands of a kind, as the lines of a batch, and what they say."""

    commands: str
    said: str


def _lines() -> list[str]:
    lines: list[str] = []
    for page in _PAGES:
        with open(os.path.join(TOP, page), encoding="utf-8") as file:
            lines += file.read().splitlines()
    return lines


def session(head: str) -> Session:
    """Gives the commands on the pages that begin with these words, each without them, and what is shown of all."""
    commands, said, held, is_shown = "", "", "", False
    for line in _lines():
        if line.startswith(_PROMPT):
            is_shown, held = line.startswith(_PROMPT + head), ""
            commands += line[len(_PROMPT + head) :] + "\n" if is_shown else ""
        elif is_shown and line.startswith("    "):
            said += held + line[4:] + "\n"
            held = ""
        elif is_shown and not line:
            # A blank line is the reply's only where more of it follows.
            held += "\n"
        else:
            is_shown = False
    return Session(commands, said)


def shown(head: str) -> str:
    """Gives what the pages show of the commands that begin with these words."""
    found = session(head).said
    assert found, f"no page shows {head}"
    return found
