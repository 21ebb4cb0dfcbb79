#!/usr/bin/env python3
"""Draws the pictures of docs/pictures: the crates by layer, the life of a packet, and the journal's gate through a crash.

    docs/pictures.py FOLDER
"""

from __future__ import annotations

import os
import sys
from dataclasses import dataclass, field
from html import escape
from typing import Sequence

TOP = os.path.dirname(os.path.dirname(os.path.realpath(__file__)))
_LETTER = 7.2
_LINE = 16


@dataclass
class Picture:
    """An SVG picture, drawn part by part. Lengths are in pixels."""

    width: int
    height: int
    parts: "list[str]" = field(default_factory=list)

    def text(self, x: float, y: float, said: str, anchor: str = "middle", style: str = "") -> None:
        """Puts a line of text, y being its base line."""
        self.parts.append(f'<text x="{x:g}" y="{y:g}" text-anchor="{anchor}" {style}>{escape(said)}</text>')

    def box(self, x: float, y: float, width: float, lines: Sequence[str], fill: str = "#eef3fa") -> float:
        """Puts lines in a box, and gives its height."""
        height = _LINE * len(lines) + 12
        self.parts.append(
            f'<rect x="{x:g}" y="{y:g}" width="{width:g}" height="{height:g}" rx="4" fill="{fill}" stroke="#5b7290"/>'
        )
        for at, line in enumerate(lines):
            self.text(x + width / 2, y + _LINE * (at + 1) + 2, line)
        return height

    def arrow(self, points: Sequence["tuple[float, float]"]) -> None:
        """Puts a line through some points, with a tip at the last."""
        drawn = " ".join(f"{x:g},{y:g}" for x, y in points)
        self.parts.append(f'<polyline points="{drawn}" fill="none" stroke="#33475e" marker-end="url(#tip)"/>')

    def svg(self) -> str:
        """Gives the picture's file."""
        head = (
            f'<svg xmlns="http://www.w3.org/2000/svg" width="{self.width}" height="{self.height}" '
            f'viewBox="0 0 {self.width} {self.height}" font-family="DejaVu Sans, Verdana, sans-serif" font-size="12">'
        )
        tip = (
            '<defs><marker id="tip" markerWidth="9" markerHeight="7" refX="8" refY="3.5" orient="auto">'
            '<path d="M0,0 L9,3.5 L0,7 z" fill="#33475e"/></marker></defs>'
        )
        ground = '<rect width="100%" height="100%" fill="#ffffff"/>'
        return "\n".join([head, tip, ground, *self.parts, "</svg>", ""])


def layers() -> "list[tuple[str, list[str]]]":
    """Gives the groups of crates.txt, each with its heading and its crates in order."""
    groups: "list[tuple[str, list[str]]]" = []
    with open(os.path.join(TOP, "crates.txt"), encoding="utf-8") as file:
        for line in file.read().split("\n")[1:]:
            if line.startswith("# "):
                groups.append((line[2:], []))
            elif line:
                groups[-1][1].append(line.split(":")[0])
    return groups


def crates() -> Picture:
    """Draws the crates: a row for each group, those that others stand on at the bottom."""
    picture = Picture(980, 0)
    y = 14.0
    for heading, names in reversed(layers()):
        picture.text(14, y + 14, heading, "start", 'font-weight="bold"')
        y += 22
        x = 14.0
        for name in names:
            width = _LETTER * len(name) + 14
            if x + width > picture.width - 14:
                x, y = 14.0, y + 34
            picture.box(x, y, width, [name])
            x += width + 6
        y += 42
    picture.text(14, y + 6, "A crate stands on crates of its own row or of rows below it.", "start", 'fill="#555"')
    picture.height = int(y + 20)
    return picture


def packet() -> Picture:
    """Draws the life of a packet."""
    picture = Picture(860, 224)
    picture.box(20, 14, 190, ["messages that he may see,", "past his pointer"])
    picture.box(330, 14, 190, ["packet N is open:", "made, and handed out"])
    picture.box(640, 14, 200, ["packet N is acknowledged:", "his pointer is behind it"], "#e8f5e9")
    picture.arrow([(210, 36), (328, 36)])
    picture.text(269, 28, "export")
    picture.arrow([(520, 36), (638, 36)])
    picture.text(579, 28, "ack N")
    picture.arrow([(425, 58), (425, 104), (115, 104), (115, 60)])
    picture.text(124, 98, "not acknowledged: the next export offers", "start")
    picture.text(124, 120, "the same messages again, as packet N + 1", "start")
    picture.arrow([(740, 58), (740, 150), (60, 150), (60, 60)])
    picture.text(400, 167, "what comes in later stands past his pointer")
    picture.text(20, 204, "Up to four packets are open at a time. A fifth closes the oldest; its messages are offered on.", "start")
    return picture


_STEPS = (
    ("the body is written", "gate C", "the old board"),
    ("the gate is opened", "gate C or O", "the old board or the new one"),
    ("the data files are written", "gate O", "the new board"),
    ("the gate is closed", "gate O or C", "the new board"),
)


def journal() -> Picture:
    """Draws a change: its steps, the gate of the journal in each, and what a crash in it recovers to."""
    picture = Picture(940, 176)
    picture.text(14, 32, "step", "start", 'font-weight="bold"')
    picture.text(14, 80, "in the journal", "start", 'font-weight="bold"')
    picture.text(14, 120, "a crash leaves", "start", 'font-weight="bold"')
    for at, (step, gate, left) in enumerate(_STEPS):
        x = 130.0 + 202 * at
        picture.box(x, 14, 176, [step])
        if at:
            picture.arrow([(x - 26, 28), (x - 2, 28)])
        picture.text(x + 88, 80, gate)
        picture.text(x + 88, 120, left, style='fill="#1b5e20"' if "new" in left else "")
    picture.text(14, 158, "Each step ends with a sync, and the next begins behind it.", "start", 'fill="#555"')
    return picture


PICTURES = {"crates.svg": crates, "packet.svg": packet, "journal.svg": journal}


def main(folder: str) -> int:
    """Writes the pictures into a folder."""
    for name, draw in PICTURES.items():
        with open(os.path.join(folder, name), "w", encoding="utf-8") as file:
            file.write(draw().svg())
    return 0


if __name__ == "__main__":
    sys.exit(main(sys.argv[1]))
