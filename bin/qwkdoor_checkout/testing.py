"""bin/test: what shows in minutes, and without a proof, that a checkout is sound."""

from __future__ import annotations

import glob
import os
import re
import sys
import time
from typing import Iterator, Sequence

from qwkdoor_scripts.failure import DONE, FAILED, WRONG_WORDS, Failure

from .jobs import Count, Job, Outcome, run_all, side_by_side
from .kept import Keeper, work_folder
from .unproved import end_by_signals

# The crates of tests that haven't come to their end by then are left to the gate, in seconds.
_LIMIT = 360
# This crate takes minutes by itself, since it fills conferences to their limit: so it begins first where there are
# processors for the others beside it, and else behind them.
_LONG = "test_commands"
_MANY = 4
# This one goes to each limit, and seldom comes to its end in time: so it takes none from the others.
_LONGEST = "test_limits"
_FAILED_TEST = 1
PAGE = """\
usage: bin/test

Runs what shows in minutes that this checkout is sound, and proves nothing: the sessions of the pages, the tests of the
program and of the scripts, and the crates of tests, side by side. It compiles the program first, unproved, where none
is kept; QWKDOOR in the environment names another one. A crate of tests that hasn't come to its end after six minutes
is left to the gate (.ci/run), and named. The last line says how many tests passed, and how many failed.

  --help   print this page

status:
  0  each test that was run passed
  1  a test failed
  2  not the words of a call
 70  the program couldn't be compiled
"""


def count_of_module(status: int, said: str) -> Count:
    """Counts the tests of a module of unittest."""
    ran = re.search(r"^Ran ([0-9]+) tests? in ", said, re.MULTILINE)
    ended = re.findall(r"^(?:OK|FAILED)(?: \((.*)\))?$", said, re.MULTILINE)
    marks = dict(re.findall(r"(\w[\w ]*)=([0-9]+)", ended[-1] if ended else ""))
    failed = sum(int(marks.get(it, 0)) for it in ("failures", "errors", "unexpected successes"))
    skipped = int(marks.get("skipped", 0))
    if ran is None or (status != 0) != (failed > 0):
        return Count(0, max(1, failed))
    # A class or a module that fails as a whole is an error of no test that was run.
    return Count(max(0, int(ran[1]) - failed - skipped), failed, skipped)


def count_of_crate(status: int, said: str) -> Count:
    """Counts the tests of a crate, as rt prints them."""
    found = re.search(r"^test result: .*?\b([0-9]+) passed; ([0-9]+) failed", said, re.MULTILINE)
    if found is None or (status != 0) != (int(found[2]) > 0):
        return Count(0, 1)
    return Count(int(found[1]), int(found[2]))


def modules(top: str) -> Iterator[Job]:
    """Gives the tests in Python."""
    for path in sorted(glob.glob(os.path.join(top, "tests/test_*.py"))):
        name = "tests." + os.path.basename(path)[: -len(".py")]
        yield Job(name, [sys.executable, "-B", "-m", "unittest", name], top, count_of_module)


def crates(top: str) -> Iterator[Job]:
    """Gives the crates of tests, those with the least text first, which mostly take the least time."""
    sized = []
    for name in os.listdir(os.path.join(top, "crates")):
        paths = glob.glob(os.path.join(top, "crates", name, "src/**/*.rt"), recursive=True)
        texts = [_text(it) for it in paths]
        if any("#[test]" in it for it in texts):
            sized.append((sum(map(len, texts)), name))
    for _, name in sorted(sized):
        words = ["rt", "try", "--test", "--seconds", str(_LIMIT)]
        yield Job(name, words, os.path.join(top, "crates", name), count_of_crate, may_be_left=True)


def in_order(top: str, lanes: int) -> "list[Job]":
    """Gives all tests, in the order in which most of them end in time."""
    found = list(crates(top))
    long = [it for it in found if it.name == _LONG]
    longest = [it for it in found if it.name == _LONGEST]
    others = [*modules(top), *(it for it in found if it.name not in (_LONG, _LONGEST))]
    return [*long, *others, *longest] if lanes >= _MANY else [*others, *long, *longest]


def _text(path: str) -> str:
    with open(path, encoding="utf-8") as file:
        return file.read()


def tell(outcome: Outcome) -> None:
    """Says what became of a job, and all that one said which failed."""
    count = outcome.count
    if count is None:
        return
    skipped = f", {count.skipped} skipped" if count.skipped else ""
    print(f"{outcome.job.name}: {count.passed} passed, {count.failed} failed{skipped}, {outcome.seconds:.0f} s")
    if count.failed:
        print(outcome.said.rstrip("\n"))
    sys.stdout.flush()


def _program(top: str) -> str:
    """Gives the program that the tests call: the one that QWKDOOR names, or the kept one of these sources."""
    named = os.environ.get("QWKDOOR")
    if named:
        return os.path.abspath(named)
    keeper = Keeper(top, lambda line: print(f"test: {line}", file=sys.stderr, flush=True))
    with work_folder() as place:
        found = keeper.obtain(place)
    if found != keeper.path:
        raise Failure("the program that was compiled couldn't be kept, and there is nothing to call")
    return keeper.path


def _run(top: str) -> int:
    os.environ["QWKDOOR"] = _program(top)
    lanes = side_by_side()
    outcomes = run_all(in_order(top, lanes), lanes, time.monotonic() + _LIMIT, tell)
    counts = [it.count for it in outcomes if it.count is not None]
    left = [it.job.name for it in outcomes if it.count is None]
    if left:
        print(f"left to the gate: {', '.join(left)}")
    failed = sum(it.failed for it in counts)
    print(f"{sum(it.passed for it in counts)} passed, {failed} failed", flush=True)
    return _FAILED_TEST if failed else DONE


def main(top: str, words: Sequence[str]) -> int:
    """Carries out bin/test."""
    if list(words) == ["--help"]:
        sys.stdout.write(PAGE)
        return DONE
    if words:
        print("usage: bin/test (bin/test --help says more)", file=sys.stderr)
        return WRONG_WORDS
    end_by_signals()
    try:
        return _run(top)
    except Failure as failure:
        print(f"test: {failure}", file=sys.stderr)
    return FAILED
