#!/usr/bin/env python3
"""Times commands beside `sha256sum` of the files that they read and write, and prints a table.

Each command is run on a copy of a board that the program itself made, of the usual shape, at the limits, or of a hostile
one. What counts is the least of the processor times. Where ANCHOR names another program that takes the same words, it is
timed in turns with ours, and must end and reply as ours does. The files lie in memory where /dev/shm is there, so that
no disk counts. It is no part of the gate.

usage: bench/compare.py [--rounds N] [--row WORD]...    with WORD only the rows whose name has one of the words
PROGRAM names the program, else it is the one that bin/qwkdoor --build leaves.
"""

from __future__ import annotations

import argparse
import os
import shutil
import subprocess
import sys
import tempfile
import time
from dataclasses import dataclass
from typing import List, Optional, Sequence, Tuple

sys.dont_write_bytecode = True

from compare_shapes import ANN, Shapes  # noqa: E402  (no bytecode is written first)

TOP = os.path.dirname(os.path.dirname(os.path.realpath(__file__)))
PARENT = "/dev/shm" if os.access("/dev/shm", os.W_OK) else None
HEADS = ("work", "ours (ms)", "of the clock (ms)", "sha256sum (ms)", "ours / sha256sum", "anchor (ms)", "ours / anchor")


@dataclass(frozen=True)
class Row:
    """A command on a board, or on none, which reads these files of the shelf."""

    name: str
    board: Optional[str]
    words: Tuple[str, ...]
    files: Tuple[str, ...] = ()


ROWS = (
    Row("check of an empty board", "new", ("check",)),
    Row("import of 5,000", "new", ("import", "0", "s5000"), ("s5000",)),
    Row("upload of 4,000", "caller", ("upload", ANN, "U4000.MSG"), ("U4000.MSG",)),
    Row("toss of 5,000", "new", ("toss", "F5000"), ("F5000",)),
    Row("export of 2,000 of 9,999", "many", ("export", ANN, "2000", "out"), ("out/MESSAGES.DAT",)),
    Row("one post into 9,998", "almost", ("import", "0", "one"), ("one",)),
    Row("check of 9,999 of 1 KiB", "many", ("check",)),
    Row("check of 33 MB", "full", ("check",)),
    Row("check at the limits", "limits", ("check",)),
    Row("list of 41.9 MB", None, ("list", "BIG"), ("BIG",)),
    Row("import of 9,999 ids of one CRC", "new", ("import", "0", "crc9999"), ("crc9999",)),
    Row("check of 9,999 ids of one CRC", "collided", ("check",)),
    Row("check of 99,999 uploads of a user", "records", ("check",)),
    Row("upload behind 99,999 of a user", "records", ("upload", ANN, "U4000.MSG"), ("U4000.MSG",)),
)


@dataclass(frozen=True)
class Ran:
    """A run: its processor time and that of the clock, in seconds, its status and its reply."""

    used: float
    clock: float
    status: int
    reply: bytes = b""


def least(runs: Sequence[Ran]) -> Ran:
    """The least times of runs, which all end alike."""
    first = runs[0]
    if any((it.status, it.reply) != (first.status, first.reply) for it in runs):
        raise ValueError("runs of one command end or reply in different ways")
    return Ran(min(it.used for it in runs), min(it.clock for it in runs), first.status, first.reply)


def cells(name: str, ours: Ran, hashed: Ran, anchor: Optional[Ran]) -> List[str]:
    """A row of the table, in milliseconds."""
    row = [name, f"{ours.used * 1e3:.1f}", f"{ours.clock * 1e3:.1f}", f"{hashed.used * 1e3:.1f}", f"{ours.used / hashed.used:.2f}"]
    return row + ([f"{anchor.used * 1e3:.1f}", f"{ours.used / anchor.used:.2f}"] if anchor else [])


def line(texts: Sequence[str]) -> str:
    """A line of the table."""
    return "| " + " | ".join([texts[0].ljust(34), *(it.rjust(len(head)) for it, head in zip(texts[1:], HEADS[1:]))]) + " |"


def run(words: Sequence[str], place: str) -> Ran:
    """Runs a command, whose reply goes into a file of a folder."""
    path = os.path.join(place, "reply")
    with open(path, "w+b") as reply:
        begun = time.perf_counter()
        child = subprocess.Popen(words, stdin=subprocess.DEVNULL, stdout=reply)
        _, status, used = os.wait4(child.pid, 0)
        clock = time.perf_counter() - begun
        child.returncode = os.waitstatus_to_exitcode(status)
        reply.seek(0)
        return Ran(used.ru_utime + used.ru_stime, clock, child.returncode, reply.read())


class Bench:
    """Runs the rows, each on copies of its board."""

    def __init__(self, shapes: Shapes, rounds: int, anchor: Optional[str]) -> None:
        self.shapes = shapes
        self.rounds = rounds
        self.anchor = anchor
        self.data = shapes.board("data")

    def renew(self, row: Row) -> None:
        """Lays a copy of the row's board."""
        shutil.rmtree(self.data, ignore_errors=True)
        if row.board is not None:
            shutil.copytree(self.shapes.board(row.board), self.data)

    def once(self, program: str, row: Row) -> Ran:
        """Runs a row's command on a copy of its board."""
        self.renew(row)
        ran = run([program, self.data, self.shapes.shelf, *row.words], self.shapes.folder)
        if ran.status != 0:
            raise ValueError(f"{program} ends with {ran.status} in the row: {row.name}")
        return ran

    def hash(self, row: Row) -> Ran:
        """Sums what the command read and left."""
        files = [os.path.join(self.shapes.shelf, it) for it in row.files]
        files += [it.path for it in os.scandir(self.data) if it.is_file()] if row.board is not None else []
        return least([run(["sha256sum", *files], self.shapes.folder) for _ in range(self.rounds)])

    def row(self, row: Row) -> List[str]:
        """Times a row, in turns with the anchor where there is one."""
        ours, others = [], []
        for _ in range(self.rounds):
            if self.anchor:
                others.append(self.once(self.anchor, row))
            ours.append(self.once(self.shapes.program, row))
        least([*ours, *others])
        return cells(row.name, least(ours), self.hash(row), least(others) if others else None)


def arguments() -> argparse.Namespace:
    """What the command line says."""
    words = argparse.ArgumentParser(description="Times commands beside sha256sum of their files, and beside ANCHOR.")
    words.add_argument("--rounds", type=int, default=9, help="how often each command is timed")
    words.add_argument("--row", action="append", default=[], help="only the rows whose name has this")
    return words.parse_args()


def main() -> int:
    """Makes the boards and prints the table."""
    given = arguments()
    program = os.path.abspath(os.environ.get("PROGRAM") or os.path.join(TOP, ".build/qwkdoor"))
    anchor = os.environ.get("ANCHOR")
    with tempfile.TemporaryDirectory(dir=PARENT) as folder:
        shapes = Shapes(folder, program)
        shapes.make()
        bench = Bench(shapes, given.rounds, os.path.abspath(anchor) if anchor else None)
        heads = HEADS if anchor else HEADS[:-2]
        print(line(heads) + "\n|---|" + "--:|" * (len(heads) - 1), flush=True)
        for row in ROWS:
            if not given.row or any(it in row.name for it in given.row):
                print(line(bench.row(row)), flush=True)
    return 0


if __name__ == "__main__":
    sys.exit(main())
