"""The commands of bench/edge.py: what each run begins from, what it asks of the system, and what it leaves where nothing
fails."""

from __future__ import annotations

import collections
import os
import shutil
import subprocess
import time
from typing import Dict, Iterator, List, NamedTuple, Sequence, Set, Tuple

TOP = os.path.dirname(os.path.dirname(os.path.realpath(__file__)))
SAMPLE = os.path.join(TOP, "crates/qwkdoor/data/shelf")
PROGRAM = os.environ.get("PROGRAM") or os.path.join(TOP, ".build/qwkdoor")
CALLS = "openat getdents64 pread64 pwrite64 ftruncate fsync close mkdir mkdirat flock".split()
SECONDS = 120

# Each command, behind those that make its board and shelf. Those on the shelf alone have no DATA to change.
BOARD = [["init", "setup.txt"], ["enroll", "Ann Lee", "n", "all"], ["import", "0", "hello.txt"]]
OFFERED = [*BOARD, ["export", "Ann Lee", "10", "out"]]
REPLIED = [*OFFERED, ["reply", "out", "1", "thanks.txt", "TESTBBS.MSG"]]
COMMANDS: Dict[str, Tuple[List[List[str]], List[str]]] = {
    "init": ([], ["init", "setup.txt"]),
    "enroll": (BOARD, ["enroll", "Bob Ray", "-", "0"]),
    "import": (BOARD, ["import", "7", "hello.txt"]),
    "adopt": (BOARD, ["adopt", "7", "old"]),
    "toss": (BOARD, ["toss", "fido.pkt"]),
    "kill": (BOARD, ["kill", "0", "1"]),
    "pack": ([*BOARD, ["kill", "0", "1"]], ["pack", "0"]),
    "sample": (BOARD, ["sample", "7", "3"]),
    "export": (BOARD, ["export", "Ann Lee", "10", "new/out"]),
    "ack": (OFFERED, ["ack", "Ann Lee", "1"]),
    "upload": (REPLIED, ["upload", "Ann Lee", "TESTBBS.MSG"]),
}

# The files below a folder that hold something, by their names.
Files = Dict[str, bytes]


class Call(NamedTuple):
    """A call of the system on one of the two folders or on what lies in it: its number among those of its name, and
    whether it answers that a folder is there."""

    name: str
    number: int
    place: str
    is_there: bool


class Run(NamedTuple):
    """How a run ended."""

    status: int
    said: bytes
    faults: str


def run_at(top: str, words: Sequence[str], before: Sequence[str] = ()) -> Run:
    """A run over the two folders below one, behind the words of another program that starts it."""
    line = [*before, PROGRAM, os.path.join(top, "data"), os.path.join(top, "shelf"), *words]
    ended = subprocess.run(line, stdin=subprocess.DEVNULL, capture_output=True, timeout=SECONDS, check=False)
    return Run(ended.returncode, ended.stdout, ended.stderr.decode())


def files_below(top: str, left_out: Sequence[str] = ()) -> Files:
    """What the files below a folder hold, but for those that hold nothing and those of some names."""
    files: Files = {}
    for path in [os.path.join(folder, name) for folder, _, names in os.walk(top) for name in names]:
        with open(path, "rb") as file:
            files[os.path.relpath(path, top)] = file.read()
    return {name: content for name, content in files.items() if content and name not in left_out}


def board_at(top: str) -> Files:
    """What the files of the board hold, but for the journal, which is closed once a run has recovered."""
    return files_below(os.path.join(top, "data"), ("LOCK", "JOURNAL.DAT"))


def shelf_at(top: str) -> Files:
    """What the files of the shelf hold."""
    return files_below(os.path.join(top, "shelf"))


def near(one: bytes, other: bytes) -> Set[int]:
    """The places at which two contents differ, with those beside them: the clock was written there."""
    places: Set[int] = set()
    for at, (left, right) in enumerate(zip(one, other)):
        if left != right:
            places.update(range(at - 8, at + 9))
    return places


class Wanted:
    """Files as a whole run leaves them, told apart from what the clock says by a second run."""

    def __init__(self, once: Files, later: Files) -> None:
        self.files = once
        self.clock = {name: near(content, later[name]) for name, content in once.items()}

    def is_at(self, found: Files) -> bool:
        """Whether files are these, but for what the clock said."""
        return found.keys() == self.files.keys() and all(self._is(name, content) for name, content in found.items())

    def _is(self, name: str, content: bytes) -> bool:
        wanted, clock = self.files[name], self.clock[name]
        return len(content) == len(wanted) and all(
            left == right or at in clock for at, (left, right) in enumerate(zip(content, wanted))
        )


class Command:
    """A command, what its run begins from, and what it does where nothing fails."""

    def __init__(self, work: str, name: str, before: Sequence[Sequence[str]], words: Sequence[str]) -> None:
        self.name, self.words = name, words
        self.start = os.path.join(work, name)
        shutil.copytree(SAMPLE, os.path.join(self.start, "shelf"))
        for entry in before:
            made = run_at(self.start, entry)
            assert made.status == 0, (name, entry, made)
        self.open_gate()
        self.look(work)

    def open_gate(self) -> None:
        """Nothing: only a recovery begins from a change that is under way."""

    def look(self, work: str) -> None:
        """The runs without a fault: one that says the board before, and two of the command, since they differ where the
        clock is written. The second is traced."""
        once, twice, trace = (os.path.join(work, name) for name in ("once", "twice", "trace"))
        self.copy(once)
        run_at(once, ["check"])
        self.before = board_at(once)
        self.copy(once)
        self.whole = run_at(once, self.words)
        assert self.whole.status == 0, (self.name, self.whole)
        time.sleep(1.01 - time.time() % 1)
        self.copy(twice)
        run_at(twice, self.words, ["strace", "-qq", "-y", "-s", "0", "-o", trace, "-e", "trace=" + ",".join(CALLS)])
        self.after = Wanted(board_at(once), board_at(twice))
        self.shelf = Wanted(shelf_at(once), shelf_at(twice))
        self.calls = list(calls_in(trace, twice))

    def copy(self, top: str) -> None:
        """Lays out what a run begins from."""
        shutil.rmtree(top, ignore_errors=True)
        shutil.copytree(self.start, top, symlinks=True)


class Recovery(Command):
    """A run that finds a change under way."""

    def open_gate(self) -> None:
        start = self.start + ".start"
        os.rename(self.start, start)
        for number in range(1, 100):
            shutil.rmtree(self.start, ignore_errors=True)
            shutil.copytree(start, self.start)
            kill = ["strace", "-qq", "-o", os.devnull, "-e", f"inject=pwrite64:signal=SIGKILL:when={number}"]
            run_at(self.start, ["import", "0", "hello.txt"], kill)
            with open(os.path.join(self.start, "data/JOURNAL.DAT"), "rb") as journal:
                if journal.read(1) == b"O":
                    return
        raise AssertionError("no run was killed behind the gate")


def calls_in(trace: str, top: str) -> Iterator[Call]:
    """The calls of a run that are on the two folders or on what lies in them.

    DATA is listed for the board first, and then for the shelf, before a file of it is filled.
    """
    numbers: Dict[str, int] = collections.Counter()
    listings = 0
    with open(trace, encoding="utf-8", errors="replace") as lines:
        for line in lines:
            name = line.split("(", 1)[0]
            numbers[name] += 1
            begins = f'"{top}/data/"' in line
            listings += begins
            if f"{top}/shelf" in line or (listings > 1 and (begins or name == "getdents64")):
                place = "shelf"
            elif f"{top}/data/.." in line or f"<{top}>" in line:
                place = "above"
            elif top in line:
                place = "data"
            else:
                continue
            yield Call(name, numbers[name], place, " = -1 EEXIST " in line and name.startswith("mkdir"))
