#!/usr/bin/env python3
"""Prints docs/DEFINITIONS.md: in which order the files of definitions are read, each behind those that it uses.

    docs/reading_order.py >docs/DEFINITIONS.md
"""

from __future__ import annotations

import os
import re
import sys
from typing import Iterator, Sequence

TOP = os.path.dirname(os.path.dirname(os.path.realpath(__file__)))
_OPENING = """\
# Definitions

The words of the contracts stand in the `specs/` of the crates, each with a comment that says it in plain words. This page
is made by `docs/reading_order.py`. It lists the files in an order in which each stands behind those that it uses.
The first five sections have all that the clause `survives` of `mail_cli::run` needs; docs/GLOSSARY.md has the dozen words
that come most, and docs/THEOREMS.md says which clause of which call says what.
"""
# A heading, what its files say together, and the files with which it ends.
_SECTIONS = (
    (
        "A crash, and a run of any entries",
        "A host has files, and images of them that a crash may leave. A run takes entries one after the other.",
        ("entry_runs/specs/Promise.antt",),
    ),
    (
        "A valid board",
        "A board is a ledger, and a conference for each place. These files say which values it may have.",
        ("board_layout/specs/Valid.antt",),
    ),
    ("A board's files", "The files of a board are its layout. Other files have a first damage.", ("cmd_board/specs/State.antt",)),
    ("The entries of a run", "The words of a call are one command, or the lines of a batch.", ("cmd_entries/specs/Entries.antt",)),
    (
        "What each command does, and what `run` promises",
        "Each command is an act: what it makes of the board and the shelf, and what it says.",
        ("mail_cli/specs/Run.antt",),
    ),
    (
        "What is kept over many runs",
        "Runs and crashes are one history. What is offered stays offered, and no packet is posted twice.",
        (
            "board_laws/specs/Kept.antt",
            "board_laws/specs/Passed.antt",
            "board_laws/specs/Once.antt",
            "mail_cli/specs/Passages.antt",
        ),
    ),
    (
        "What a run writes, and its promises in one",
        "A command that posts messages writes little more than they add.",
        ("mail_cli/specs/CommandBound.antt", "mail_cli/specs/Promises.antt"),
    ),
)


def _file_of(path: str, crates: Sequence[str]) -> str:
    """Gives the file of a module. A path may lead through crates to the one in which the module stands."""
    _, crate, *names = path.split(".")
    if names[:1] == ["specs"]:
        names = names[1:]
    while names and names[0] in crates:
        crate, *names = names
    return f"{crate}/specs/{'/'.join(names)}.antt"


def _text(file: str) -> str:
    with open(os.path.join(TOP, "crates", file), encoding="utf-8") as it:
        return it.read()


def _used(file: str, crates: Sequence[str]) -> Iterator[str]:
    """Gives the files of specs that a file uses. Types stand in src/, and what the standard library has, in its own."""
    for path in re.findall(r"^use (Rattle(?:\.\w+)+?)(?=\.\{| as |$)", _text(file), re.MULTILINE):
        found = _file_of(path, crates)
        if found != file and os.path.isfile(os.path.join(TOP, "crates", found)):
            yield found


def _head(file: str) -> str:
    """Gives the comment at the front of a file."""
    lines = []
    for line in _text(file).split("\n"):
        if not line.startswith("-- "):
            break
        lines.append(line[3:])
    return " ".join(lines)


def _read(file: str, crates: Sequence[str], begun: "set[str]") -> Iterator[str]:
    """Gives the files that a file uses, each behind those that it uses itself, and then the file."""
    if file in begun:
        return
    begun.add(file)
    for used in _used(file, crates):
        yield from _read(used, crates, begun)
    yield file


def page() -> str:
    """Gives the page."""
    crates = os.listdir(os.path.join(TOP, "crates"))
    begun: "set[str]" = set()
    parts = [_OPENING]
    for heading, said, ends in _SECTIONS:
        files = [file for end in ends for file in _read(end, crates, begun)]
        lines = [f"- `{file}`: {_head(file)}" for file in files]
        parts.append("\n".join([f"## {heading}", "", said, "", *lines, ""]))
    return "\n".join(parts)


if __name__ == "__main__":
    sys.stdout.write(page())
