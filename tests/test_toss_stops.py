"""qwkdoor-toss where a run stops: by a kill, or a disk that fails, at each of its steps."""

from __future__ import annotations

import errno
import itertools
import json
import os
import shutil
import tempfile
import unittest
from typing import Callable
from unittest import mock

from tests.fake_board import FakeBoard
from tests.board_support import BoardCase, killed_at, message, packet
from tests.support import MEMORY, PROGRAM
from tests.test_toss import LONG_TAG, archive, area

from qwkdoor_scripts import durable, toss, upkeep

ONE = area(b"FIDO", b"One")
FIRST = packet(ONE, ONE, area(LONG_TAG, b"Two"), area(b"FIDO", b"Three", b"2:1/1 3"))
SECOND = packet(area(LONG_TAG, b"Four"))
THIRD = packet(area(b"FIDO", b"Five"), message(b"Dear Sam\r"))
FOURTH = FIRST[:100]
CAME = (("a.pkt", FIRST), ("b.zip", archive(("1.pkt", THIRD), ("2.pkt", FOURTH))), ("c.pkt", SECOND))
# How many messages the conferences have: before the long tag has one, and after.
BEFORE = {"NETMAIL": 1, "FIDO": 4, "LONG": 0}
AFTER = {"NETMAIL": 1, "FIDO": 4, "LONG": 2}


def leave(shelf: str) -> None:
    """Leaves on a shelf what came in."""
    os.makedirs(os.path.join(shelf, "ftn", "in"))
    for moment, (name, data) in enumerate(CAME, 1):
        path = os.path.join(shelf, "ftn", "in", name)
        with open(path, "wb") as file:
            file.write(data)
        os.utime(path, (moment, moment))


class Stops:
    """A shelf, on which runs stop and others go on."""

    def __init__(self, test: unittest.TestCase, data: str, shelf: str, count: "Callable[[], dict[str, int]]") -> None:
        self.test = test
        self.data = data
        self.shelf = shelf
        self.count = count

    def run(self, *options: str) -> int:
        """Carries out a run in this process."""
        with mock.patch("sys.stderr"):
            return toss.main([*options, self.data, self.shelf])

    def names(self, folder: str) -> "list[str]":
        """Gives the names in a folder of ftn."""
        return sorted(os.listdir(os.path.join(self.shelf, "ftn", folder)))

    def packets_of(self, folder: str) -> "list[bytes]":
        """Gives the packets that lie in a folder of ftn, in the order of their names."""
        found = []
        for name in (it for it in self.names(folder) if it.endswith(".pkt")):
            with open(os.path.join(self.shelf, "ftn", folder, name), "rb") as file:
                found.append(file.read())
        return found

    def assert_done(self, step: int) -> None:
        """Sees that each message is on the board once, or kept apart with its reason, and each packet is kept."""
        check = self.test.assertEqual
        check(self.count(), BEFORE, step)
        check(self.names("in") + self.names("work"), [], step)
        check(self.packets_of("kept"), [FIRST, THIRD], step)
        apart, fourth, second = self.packets_of("bad")
        self.test.assertIn(b"Two", apart, step)
        check((fourth, second), (FOURTH, SECOND), step)
        check(sum(name.endswith(".txt") for name in self.names("bad")), 3, step)
        with open(os.path.join(self.shelf, "ftn", "areas"), "wb") as file:
            file.write(LONG_TAG + b" LONG\n")
        self.run("--again")
        check(self.count(), AFTER, step)
        check(self.packets_of("bad"), [FOURTH], step)


class EachStepTest(unittest.TestCase):
    """A board that keeps the rules of the program, and a run for each step, which stops there."""

    def setUp(self) -> None:
        self.top = tempfile.mkdtemp(dir=MEMORY)
        self.addCleanup(shutil.rmtree, self.top)
        self.shelf = os.path.join(self.top, "shelf")
        board = FakeBoard(self.shelf, os.path.join(self.top, "board"), {"NETMAIL": 1, "FIDO": 5, "LONG": 6})
        self.board = board
        self.stops = Stops(self, self.top, self.shelf, lambda: {name: len(it) for name, it in board.posted().items()})
        for name in ("find", "Program.run"):
            function = board.run if name == "Program.run" else mock.Mock(return_value="qwkdoor")
            patch = mock.patch(f"qwkdoor_scripts.program.{name}", function)
            patch.start()
            self.addCleanup(patch.stop)
        self.begin()

    def begin(self) -> None:
        """Puts the board and the shelf of the beginning in place."""
        shutil.rmtree(self.shelf, ignore_errors=True)
        leave(self.shelf)
        with open(self.board.path, "w", encoding="ascii") as file:
            json.dump({name: [] for name in BEFORE}, file)

    def test_a_kill_at_each_step(self) -> None:
        step = 0
        while killed_at(step, self.stops.run) is None:
            self.stops.run()
            self.stops.assert_done(step)
            step += 1
            self.begin()
        self.stops.assert_done(step)
        self.assertGreater(step, 60)

    def test_a_kill_at_each_step_of_another_toss_of_what_was_set_aside(self) -> None:
        step = 0
        killed = True
        while killed:
            self.begin()
            self.stops.run()
            with open(os.path.join(self.shelf, "ftn", "areas"), "wb") as file:
                file.write(LONG_TAG + b" LONG\n")
            killed = killed_at(step, lambda: self.stops.run("--again")) is None
            self.stops.run("--again")
            self.assertEqual(self.stops.count(), AFTER, step)
            self.assertEqual(self.stops.packets_of("bad"), [FOURTH], step)
            self.assertEqual(len(self.stops.packets_of("kept")), 4, step)
            step += 1
        self.assertGreater(step, 25)

    def test_a_kill_at_each_step_and_then_another_toss_of_all(self) -> None:
        """What a run had begun to set aside is never taken for whole, and takes no whole message's place."""
        step = 0
        while killed_at(step, self.stops.run, half=True) is None:
            self.stops.run("--again")
            self.stops.run()
            self.stops.assert_done(step)
            step += 1
            self.begin()
        self.assertGreater(step, 60)

    def test_two_kills(self) -> None:
        for first, second in itertools.product(range(0, 90, 9), range(0, 60, 7)):
            self.begin()
            killed_at(first, self.stops.run)
            killed_at(second, self.stops.run)
            self.stops.run()
            self.stops.assert_done(1_000 * first + second)

    def test_a_failed_sync_at_each_place(self) -> None:
        place = 0
        while self.fails_at(place):
            self.stops.run()
            self.stops.assert_done(place)
            place += 1
            self.begin()
        self.assertGreater(place, 30)

    def fails_at(self, place: int) -> bool:
        """Carries out a run whose sync of this number, from 0, fails. Tells whether there was one."""
        syncs = iter(range(place))
        failed: "list[str]" = []

        def fail(name: str, path: str) -> None:
            if failed:
                self.assertIn(name, ("unlink",), f"{path} behind a failed sync of {failed[0]}")
            elif name == "fsync" and next(syncs, None) is None:
                failed.append(path)
                raise OSError(errno.EIO, "Input/output error", path)

        with mock.patch.object(durable, "before", fail):
            status = self.stops.run()
        self.assertEqual(status, 70 if failed else 1, failed)
        return bool(failed)


class ProgramTest(BoardCase):
    """The same over the program, at some of the steps."""

    def count(self) -> "dict[str, int]":
        """Gives how many messages each conference has."""
        found = (line.split(" ")[1:3] for line in self.door("check")[1:-1])
        return {name.rstrip(":"): int(slots) for name, slots in found}

    def setUp(self) -> None:
        super().setUp()
        environment = mock.patch.dict(os.environ, {"QWKDOOR": PROGRAM})
        environment.start()
        self.addCleanup(environment.stop)
        self.make_board("1 net - NETMAIL", "5 echo - FIDO", "6 echo - LONG")
        self.stops = Stops(self, self.data, self.shelf, self.count)
        shutil.copytree(self.data, self.data + ".first")

    def begin(self) -> None:
        """Puts the board and the shelf of the beginning in place."""
        for folder in (self.data, self.shelf):
            shutil.rmtree(folder)
        shutil.copytree(self.data + ".first", self.data)
        leave(self.shelf)

    def test_a_kill_at_some_steps(self) -> None:
        step = 7
        self.begin()
        while killed_at(step, self.stops.run) is None:
            self.stops.run()
            self.stops.assert_done(step)
            step += 17
            self.begin()
        self.stops.assert_done(step)

    def test_an_upkeep_waits_for_a_toss_that_was_killed(self) -> None:
        self.begin()
        self.write("upkeep", b"5 days 1\n")
        step = 10
        while not os.path.isdir(self.path("ftn/work")) or not self.stops.names("work"):
            self.assertIsNone(killed_at(step, self.stops.run))
            step += 1
        with mock.patch("sys.stderr"):
            self.assertEqual(upkeep.main(["--unread", self.data, self.shelf]), 75)
            self.stops.run()
            self.assertEqual(upkeep.main(["--unread", self.data, self.shelf]), 0)


if __name__ == "__main__":
    unittest.main()
