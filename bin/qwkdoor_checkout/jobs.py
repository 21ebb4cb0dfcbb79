"""Jobs side by side, each a command whose lines say how many of its tests passed."""

from __future__ import annotations

import os
import subprocess
import tempfile
import time
from dataclasses import dataclass, field
from typing import IO, Callable, Optional, Sequence

_PAUSE = 0.1
# What a job may need of the memory, in bytes: a crate of tests that is compiled takes the most (docs/PERFORMANCE.md).
_ROOM = 3_000_000_000


@dataclass(frozen=True)
class Count:
    """How many tests passed, failed and were left out."""

    passed: int
    failed: int
    skipped: int = 0


@dataclass(frozen=True)
class Job:
    """A command, what counts its tests by its status and its lines, and whether it may be left out for want of time."""

    name: str
    words: Sequence[str]
    folder: str
    count: Callable[[int, str], Count]
    may_be_left: bool = False


@dataclass
class Outcome:
    """What became of a job: its count, None where it was left, what it said, and its seconds."""

    job: Job
    count: Optional[Count]
    said: str = ""
    seconds: float = 0.0


@dataclass
class _Running:
    job: Job
    child: "subprocess.Popen[bytes]"
    said: "IO[bytes]"
    began: float = field(default_factory=time.monotonic)

    def outcome(self) -> Outcome:
        self.said.seek(0)
        said = self.said.read().decode("utf-8", "replace")
        self.said.close()
        count = self.job.count(self.child.returncode, said)
        return Outcome(self.job, count, said, time.monotonic() - self.began)

    def stop(self) -> Outcome:
        self.child.terminate()
        self.child.wait()
        self.said.close()
        return Outcome(self.job, None)


def side_by_side() -> int:
    """Gives how many jobs run at a time: one a processor, as far as there is memory for each."""
    with open("/proc/meminfo", encoding="ascii") as file:
        free = next(int(line.split()[1]) * 1024 for line in file if line.startswith("MemAvailable:"))
    return max(1, min(len(os.sched_getaffinity(0)), free // _ROOM))


def _started(job: Job) -> _Running:
    said = tempfile.TemporaryFile()
    child = subprocess.Popen(
        job.words, cwd=job.folder, stdin=subprocess.DEVNULL, stdout=said, stderr=subprocess.STDOUT
    )
    return _Running(job, child, said)


def run_all(jobs: Sequence[Job], lanes: int, limit: float, tell: Callable[[Outcome], None]) -> "list[Outcome]":
    """Runs jobs in their order, so many at a time, and tells of each as it ends.

    At the limit, a moment of `time.monotonic`, those that may be left are: they are stopped, or not begun.
    """
    waiting, running = list(jobs), list[_Running]()
    outcomes: "list[Outcome]" = []
    try:
        while waiting or running:
            ended = _step(waiting, running, lanes, time.monotonic() >= limit)
            for it in ended:
                tell(it)
            outcomes += ended
            time.sleep(_PAUSE)
    finally:
        for left in running:
            left.stop()
    return outcomes


def _step(waiting: "list[Job]", running: "list[_Running]", lanes: int, is_late: bool) -> "list[Outcome]":
    """Takes out what has ended, or comes too late, and begins what there is room for."""
    ended = [it for it in running if it.child.poll() is not None]
    late = [it for it in running if is_late and it.job.may_be_left and it not in ended]
    unbegun = [it for it in waiting if is_late and it.may_be_left]
    running[:] = [it for it in running if it not in ended and it not in late]
    waiting[:] = [it for it in waiting if it not in unbegun]
    while waiting and len(running) < lanes:
        running.append(_started(waiting.pop(0)))
    return [it.outcome() for it in ended] + [it.stop() for it in late] + [Outcome(it, None) for it in unbegun]
