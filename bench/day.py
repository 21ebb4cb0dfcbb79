#!/usr/bin/env python3
"""Kills runs of bin/qwkdoor-day and all that they started, and looks at what the days after them bring.

Three callers leave reply packets and take packets away between the runs. Every other run is killed (SIGKILL) after a
random few milliseconds, and each of the others before one of its renames, or behind it: the first, the second, and so
on. Then the days come to their end: each letter that was written must be posted once, each caller must have got each
message once and in order and have been told of each letter once, each archive must be kept with its verdicts, and
nothing else may lie in the folders `work`. It is no part of the gate.

usage: bench/day.py [TIMES]
QWKDOOR names the program, else it is the one that bin/qwkdoor --build leaves. SEED has the runs drawn again as they were.
CUT names a command that carries out another one and cuts its disk off after so many seconds (bench/power.sh): then the
board lies in the folder PLACE, which is on that disk, and the disk is cut off in place of each kill.
"""

from __future__ import annotations

import os
import random
import signal
import subprocess
import sys
import time
from typing import Optional

sys.dont_write_bytecode = True
TOP = os.path.dirname(os.path.dirname(os.path.realpath(__file__)))
os.environ.setdefault("QWKDOOR", os.path.join(TOP, ".build", "qwkdoor"))
sys.path.insert(0, TOP)

from tests.day_support import SCRIPT, Board, letter  # noqa: E402  (the program is named first)

from qwkdoor_scripts import day_command, durable  # noqa: E402

_CUT = os.environ.get("CUT")
_CUT_OFF = 137
_NAMES = {"ann": "ANN LEE", "bob": "BOB RAY", "cy": "CY DAY"}
_CALLERS = '"Ann Lee" 3 ann 9999 99999999\n"Bob Ray" 2000 bob 9999 99999999\n"Cy Day" 10 cy 9999 99999999\n'


class _Killer:
    """Kills the process and all that it started at a step of its renames, each of which has one before and one behind."""

    def __init__(self, place: int) -> None:
        self.left = place
        self.is_behind = False

    def __call__(self, step: str, _path: str) -> None:
        at = int(step == "rename") + int(self.is_behind)
        self.is_behind = step == "rename"
        if at > self.left:
            os.killpg(0, signal.SIGKILL)
        self.left -= at


class Bench:
    """A board whose runs are killed."""

    def __init__(self, seed: int) -> None:
        self.random = random.Random(seed)
        self.board = Board(count=0, callers=_CALLERS, folder=os.environ.get("PLACE") if _CUT else None)
        self.written: list[str] = []
        self.faults: list[str] = []
        self.killed = 0
        # How many runs were killed at a rename, and at which one the next is.
        self.at_renames = 0
        self.rename = 0

    def complain(self, text: str) -> None:
        """Says what is wrong."""
        print(f"WRONG: {text}")
        self.faults.append(text)

    def write(self, name: str) -> None:
        """Lets a caller leave an archive with a letter."""
        subject = f"Letter {len(self.written) + 1}"
        self.written.append(subject)
        self.board.send_letters(name, [letter(_NAMES[name], "ALL", subject)], "part")
        folder = os.path.join(self.board.mail, name, "in")
        os.rename(os.path.join(folder, "part"), os.path.join(folder, f"-a letter [{subject}].rep"))

    def day(self) -> float:
        """Lets a run come to its end, and gives how many seconds it took."""
        began = time.monotonic()
        ran = self.board.day()
        if ran.returncode:
            self.complain(f"a run ends with {ran.returncode}: {ran.stderr}")
        return time.monotonic() - began

    def full_day(self) -> float:
        """Lets each caller act, and gives how long a run takes."""
        for name in _NAMES:
            self.write(name)
            self.board.fetch(name)
        return self.day()

    def turn(self, seconds: float) -> None:
        """Lets the callers act, and kills a run after so many seconds, or at a rename, unless it has ended."""
        for name in _NAMES:
            if self.random.random() < 0.5:
                self.write(name)
            if self.random.random() < 0.5:
                self.board.fetch(name)
        if _CUT:
            ended = self._cut_off(_CUT, seconds)
        elif self.random.random() < 0.5:
            ended = self._killed_after(seconds)
        else:
            ended = self._killed_at_rename()
        self.killed += ended is None
        if ended:
            self.complain(f"a run ends with {ended}")

    def _killed_after(self, seconds: float) -> Optional[int]:
        """Kills a run after so many seconds. Gives its status, and None where it was killed."""
        words = [SCRIPT, self.board.data, self.board.shelf]
        run = subprocess.Popen(words, stderr=subprocess.DEVNULL, start_new_session=True)
        try:
            return run.wait(timeout=seconds)
        except subprocess.TimeoutExpired:
            os.killpg(run.pid, signal.SIGKILL)
            run.wait()
            return None

    def _killed_at_rename(self) -> Optional[int]:
        """Kills a run before or behind its next rename in turn. Begins with the first again where it has so many no more."""
        child = os.fork()
        if child == 0:
            os.setpgid(0, 0)
            durable.before = _Killer(self.rename)
            os._exit(day_command.main([self.board.data, self.board.shelf]))
        code = os.waitstatus_to_exitcode(os.waitpid(child, 0)[1])
        is_killed = code == -signal.SIGKILL
        self.at_renames += is_killed
        self.rename = self.rename + 1 if is_killed else 0
        return None if is_killed else code

    def _cut_off(self, cut: str, seconds: float) -> Optional[int]:
        """Cuts the disk off under a run. What the callers did before is on the disk."""
        subprocess.run(["sync", "-f", self.board.top], check=True)
        words = [cut, f"{seconds:.4f}", SCRIPT, self.board.data, self.board.shelf]
        status = subprocess.run(words, stderr=subprocess.DEVNULL, check=False).returncode
        return None if status == _CUT_OFF else status

    def end(self) -> None:
        """Lets days pass until nobody gets a packet any more."""
        self.day()
        while [name for name in _NAMES if self.board.fetch(name)]:
            self.day()

    def look(self) -> None:
        """Looks at what the board, the callers and the folders have."""
        posted = self.board.subjects()
        if sorted(posted) != sorted(self.written):
            self.complain(f"written and posted differ, as in: {sorted(set(posted) ^ set(self.written))[:5]}")
        for name in _NAMES:
            self._look_at(name, posted)

    def _look_at(self, name: str, posted: list[str]) -> None:
        if self.board.has_received(name) != posted:
            self.complain(f"{name} got {self.board.has_received(name)[:9]}.. where {posted[:9]}.. was posted")
        kept = self.board.names(f"{name}/kept")
        ids = [it[:-4] for it in kept if it.endswith(".rep")]
        if sorted(kept) != sorted(f"{it}.{end}" for it in ids for end in ("rep", "txt")):
            self.complain(f"{name} has other files in kept than archives with their verdicts: {kept[:9]}")
        left = set(self.board.names(f"{name}/work") + self.board.names(f"{name}/in")) - {"allowance", "seen"}
        if left:
            self.complain(f"{name} has left over: {sorted(left)}")
        news = self.board.news(name)
        told = [it for it in ids if news.count(f"({it}):") != 1]
        if told or news.count("1 posted, 0 refused\r\n") != len(ids):
            self.complain(f"{name} wasn't told once of: {told[:5]}, or not of what became of them")


def main(times: int) -> int:
    """Kills so many runs, and looks."""
    seed = int(os.environ.get("SEED") or time.time())
    bench = Bench(seed)
    try:
        taken = min(bench.full_day() for _ in range(3))
        for _ in range(times):
            bench.turn(0.001 + bench.random.random() * taken * 1.5)
        bench.end()
        bench.look()
        again = sum("0 again " in line for line in bench.board.log())
        killed = f"{bench.killed} were cut off" if _CUT else f"{bench.killed} were killed, {bench.at_renames} at a rename"
        print(f"a run takes {taken * 1000:.0f} ms; {times} runs, of which {killed} (SEED={seed})")
        print(f"{len(bench.written)} letters written, {again} archives uploaded again; 3 callers have each letter once")
    finally:
        bench.board.remove()
    return 1 if bench.faults else 0


if __name__ == "__main__":
    sys.exit(main(int(sys.argv[1]) if len(sys.argv) > 1 else 500))
