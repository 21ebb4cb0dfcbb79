#!/usr/bin/env python3
"""Lets calls of the system fail, one by one, under each command that changes a board and under a recovery.

Each run begins from a copy of the command's own board and shelf. Of what it asks of DATA and SHELF one call fails, by
strace, with each of some errors in turn. Then it is judged: the reply is a front of the whole one; the status is the
one that is stated; what is left is the board before or the one after, and the one after where the whole reply was said;
the shelf is whole where the status is 0; and the next run goes on, unless an fsync failed.

usage: bench/edge.sh --all [EVERY [FIRST]]    with EVERY only one in so many of the cases, so that a short form takes
little time, and with FIRST from another one on than that of number 0
PROGRAM names a program that is built already, and ONLY one of the commands. As many cases are tried at a time as there
are processors that it may use (taskset).
"""

from __future__ import annotations

import collections
import os
import shutil
import subprocess
import sys
import tempfile
from concurrent.futures import ThreadPoolExecutor
from typing import Dict, Iterator, List, Sequence, Tuple

sys.dont_write_bytecode = True

from edge_runs import BOARD, CALLS, COMMANDS, SECONDS, Call, Command, Recovery, Run, board_at, run_at, shelf_at  # noqa: E402

ERRORS = "EIO ENOSPC EDQUOT EINTR EMFILE ENFILE ENOMEM EACCES".split()
KEPT = "restart the machine before the next run"

# A command of which a call fails by an error.
Case = Tuple[Command, Call, str]


def status_of(call: Call, error: str) -> int:
    """The status of a run of which a call fails so: one that is interrupted is made again, an error of a close isn't
    seen, a folder that is there needn't be made, and one above DATA that may not be read is left to whoever made it."""
    if call.name == "close" or call.is_there or (call.name, call.place, error) == ("openat", "above", "EACCES"):
        return 0
    if error == "EINTR" and not call.name.startswith("mkdir"):
        return 0
    return 5 if call.place == "shelf" else 4


def judge(work: str, command: Command, call: Call, error: str) -> List[str]:
    """What is wrong with a run of which one call fails so, and with the runs behind it."""
    # As deep as where the calls were traced, since a folder is made from the top down.
    place = tempfile.mkdtemp(dir=work)
    try:
        command.copy(place)
        inject = ["strace", "-qq", "-o", os.devnull, "-e", f"inject={call.name}:error={error}:when={call.number}"]
        run = run_at(place, command.words, inject)
        return [*wrong_ends(command, call, error, run), *wrong_files(place, command, run)]
    except subprocess.TimeoutExpired as late:
        return [f"it takes more than {SECONDS} seconds: {late.cmd}"]
    finally:
        shutil.rmtree(place, ignore_errors=True)


def wrong_ends(command: Command, call: Call, error: str, run: Run) -> Iterator[str]:
    """Each thing that is wrong with how a run ended."""
    if run.status != status_of(call, error):
        yield f"status {run.status}: {run.faults}"
    if not command.whole.said.startswith(run.said) or (run.status == 0 and run.said != command.whole.said):
        yield f"the reply is {run.said!r}"
    if ("a sync failed" in run.faults) != (call.name == "fsync" and call.place != "shelf" and error != "EINTR"):
        yield f"what is said of a sync: {run.faults}"


def wrong_files(place: str, command: Command, run: Run) -> Iterator[str]:
    """Each thing that is wrong with what a run left, and with the runs behind it."""
    if run.status == 0 and not command.shelf.is_at(shelf_at(place)):
        yield "the shelf is another one"
    following = run_at(place, ["check"])
    if KEPT in run.faults:
        if following.status != 4 or KEPT not in following.faults or following.said:
            yield f"a failed sync doesn't keep the next run out: {following}"
        with open(os.path.join(place, "data/LOCK"), "wb"):
            pass
        following = run_at(place, ["check"])
    if following.status != 0 and (command.before or following.said != b"refused notmade\n"):
        yield f"the next run ends with {following}"
    found = board_at(place)
    if not command.after.is_at(found) and (found != command.before or run.said == command.whole.said):
        yield "what is left is another board"
    again = run_at(place, command.words) if run.status else run
    if again.status not in (0, 1):
        yield f"the command once more ends with {again}"


def all_cases(work: str) -> List[Case]:
    """Each call of each command, with each error."""
    names = [os.environ["ONLY"]] if os.environ.get("ONLY") else [*COMMANDS, "recovery"]
    commands = [
        Recovery(work, name, BOARD, ["check"]) if name == "recovery" else Command(work, name, *COMMANDS[name])
        for name in names
    ]
    return [(command, call, error) for command in commands for call in command.calls for error in ERRORS]


def tell(cases: Sequence[Case], found: Sequence[List[str]]) -> int:
    """Prints what is wrong, and a line for each command. Gives how many cases are wrong."""
    table: Dict[str, Dict[str, int]] = collections.defaultdict(collections.Counter)
    for (command, call, error), wrong in zip(cases, found):
        for it in ("cases", call.name, *(["wrong"] if wrong else [])):
            table[command.name][it] += 1
        if wrong:
            head = f"WRONG: {command.name}, call {call.number} of {call.name} ({call.place}) fails by {error}: "
            print("\n".join(head + words for words in wrong))
    for name, counts in table.items():
        calls = ", ".join(f"{counts[call]} of {call}" for call in CALLS if counts[call])
        print(f"{name}: {counts['cases']} cases ({calls}), {counts['wrong']} wrong")
    wrong_cases = sum(map(bool, found))
    print(f"{len(cases)} cases, {wrong_cases} wrong")
    return wrong_cases


def main(every: int = 1, first: int = 0) -> int:
    """Tries one in so many of the cases from one on, where strace may trace."""
    work = os.path.realpath(tempfile.mkdtemp(prefix="qwkdoor_edge_"))
    try:
        probe = ["strace", "-qq", "-o", os.path.join(work, "probe"), "true"]
        if subprocess.run(probe, stderr=subprocess.DEVNULL, check=False).returncode:
            print("edge: strace may not trace here, so nothing is shown")
            return 0
        cases = all_cases(work)[first::every]
        with ThreadPoolExecutor(len(os.sched_getaffinity(0))) as pool:
            found = list(pool.map(lambda case: judge(work, *case), cases))
        return 1 if tell(cases, found) else 0
    finally:
        shutil.rmtree(work, ignore_errors=True)


if __name__ == "__main__":
    sys.exit(main(*map(int, sys.argv[1:])))
