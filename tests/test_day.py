"""A board's days as they should go: what callers get, what they may send, and what the sysop sees of it."""

from __future__ import annotations

import contextlib
import io
import os
import shutil
import time
import unittest
from typing import Optional
from unittest import mock

from tests.day_support import Board, archive, board, letter, reply_packet, text_in
from tests.support import needs_program

from qwkdoor_scripts import board_totals, day_command
from qwkdoor_scripts.board_totals import Seen, Totals

_DAY = 86_400
_BEGINNING = 1_800_000_000.0


class Clock:
    """A clock that a test turns."""

    def __init__(self) -> None:
        self.now = _BEGINNING

    def __call__(self) -> float:
        return self.now


def _run(place: Board, clock: Clock, *options: str) -> tuple[int, str, str]:
    """Carries out a call at the clock's moment: its status, and what it said."""
    said, failed = io.StringIO(), io.StringIO()
    with contextlib.redirect_stdout(said), contextlib.redirect_stderr(failed):
        status = day_command.main([*options, place.data, place.shelf], clock)
    return status, said.getvalue(), failed.getvalue()


@needs_program
class Days(unittest.TestCase):
    """Days of a board with three callers, by the program."""

    def test_three_callers_over_three_days(self) -> None:
        clock = Clock()
        with board(count=12) as it:
            for turn in range(3):
                self._send(it, turn)
                self._harm(it, turn)
                self._runs(it, clock, (0, 1))
                self._mend(it, turn)
                clock.now += _DAY
            self._runs(it, clock, (0, 1))
            self._runs(it, clock, (0,))
            self._look(it)

    def _send(self, it: Board, turn: int) -> None:
        it.send_letters("ann", [letter("ANN LEE", "ALL", f"Ann {turn} {at}") for at in range(2)])
        # As MultiMail writes it: both names in small letters, and a space before the conference's number.
        packet = reply_packet([letter("BOB RAY", "ALL", f"Bob {turn}", number=" 0")])
        it.send("bob", archive({"testbbs.msg": packet}), "testbbs.rep")

    def _harm(self, it: Board, turn: int) -> None:
        """Lets Cy do what harm he can: too much, what is no archive, in others' names, and by his folders."""
        it.send("cy", b"no archive", f"{turn}\nann ack 0 acknowledged 9.REP")
        it.send_letters("cy", [letter("CY DAY", "ALL", f"Cy {at}") for at in range(201)], f"{turn} more.REP")
        own = [letter("ANN LEE", "ALL", "Forged"), letter("CY DAY", "ALL", f"Cy {turn}")]
        it.send_letters("cy", own, f"{turn} own.REP")
        it.send("cy", archive({"TESTBBS.MSG": b"\0" * 50_000_000}), f"{turn} bomb.REP")
        os.mkdir(os.path.join(it.mail, f"cy/in/{turn} folder.rep"))
        os.symlink(os.path.join(it.mail, "ann/out/TESTBBS.QWK"), os.path.join(it.mail, f"cy/in/{turn} link.rep"))
        if turn:
            part = os.path.join(it.mail, "cy", ("kept", "work")[turn - 1])
            os.rename(part, part + ".his")
            if turn == 1:
                it.write("mail/cy/kept", b"")
            else:
                os.symlink("../bob/work", part)

    def _mend(self, it: Board, turn: int) -> None:
        """Lets the sysop see to Cy's folders."""
        if turn:
            part = os.path.join(it.mail, "cy", ("kept", "work")[turn - 1])
            os.unlink(part)
            os.rename(part + ".his", part)

    def _runs(self, it: Board, clock: Clock, statuses: tuple[int, ...]) -> None:
        """Lets three runs of a day come to their end, behind each of which each caller takes his packet."""
        for _ in range(3):
            self.assertIn(_run(it, clock)[0], statuses)
            it.fetch("ann")
            it.fetch("bob")
            it.fetch("cy")
            clock.now += 3600

    def _look(self, it: Board) -> None:
        wanted = it.subjects()
        posted = [text for turn in range(3) for text in (f"Ann {turn} 0", f"Ann {turn} 1", f"Bob {turn}", f"Cy {turn}")]
        self.assertEqual(sorted([f"Old {number}" for number in range(1, 13)] + posted), sorted(wanted))
        self.assertEqual([it for it in posted if it[:2] != "Cy"], [it for it in wanted if it[:3] in ("Ann", "Bob")])
        for name in ("ann", "bob", "cy"):
            self.assertEqual(wanted, it.has_received(name), name)
        self.assertEqual((6, 3), (it.news("ann").count(" posted 0 "), it.news("bob").count(" posted 0 ")))
        said = {"it is no zip archive": 3, "it has 201 letters": 3, "TESTBBS.MSG has 50000000": 3, "it isn't a file": 6}
        self.assertEqual(said, {text: it.news("cy").count(f"not taken: {text}") for text in said})
        self.assertEqual(3, it.news("cy").count("1 refused sender"))
        self.assertEqual([], it.logged("ann", "ack 0 acknowledged 9"))

    def test_a_shelf_of_the_script_before_goes_on_as_it_stands(self) -> None:
        with board() as it:
            it.door("export", "Ann Lee", "2000", "mail/ann/work")
            made = {name: it.read(f"mail/ann/work/{name}") for name in ("CONTROL.DAT", "MESSAGES.DAT")}
            it.write("mail/ann/work/packet", archive(made))
            it.write("mail/ann/work/number", b"1\n")
            it.door("export", "Bob Ray", "100", "mail/bob/work")
            it.write("mail/bob/work/number", b"1\n")
            packet = archive({"TESTBBS.MSG": reply_packet([letter("BOB RAY", "ALL", "Cut short")])})
            it.write("mail/bob/work/20270101T000000Z-0001.rep", packet)
            it.write("mail/bob/kept/20270101T000000Z-0001.txt", b"1 pos")
            it.write("mail/bob/work/number.new", b"")
            it.write("mail/bob/work/zia12345", b"")
            self.assertEqual((0, "", ""), _run(it, Clock()))
            it.fetch("ann")
            self.assertEqual(["Old 1", "Old 2", "Old 3"], it.has_received("ann"))
            self.assertEqual(["0 acknowledged 1"], it.logged("bob", "ack"))
            it.fetch("bob")
            self.assertEqual(["Cut short"], it.has_received("bob"))
            self.assertEqual(["20270101T000000Z-0001.rep", "20270101T000000Z-0001.txt"], it.names("bob/kept"))
            self.assertEqual(["allowance", "number", "seen"], it.names("bob/work"))

    def test_an_archive_past_the_day_waits_for_the_next_and_says_so_once(self) -> None:
        clock = Clock()
        with board(callers='"Ann Lee" 2000 ann 3 5000\n') as it:
            for name in "123":
                it.send_letters("ann", [letter("ANN LEE", "ALL", f"{name} {at}") for at in range(2)], f"{name}.rep")
            status, _, said = _run(it, clock)
            self.assertEqual(1, status)
            waits = "waits for tomorrow: it has 2 letters and 640 bytes, where a day takes 3"
            self.assertRegex(said, rf"\Aqwkdoor-day: ann: .*rep {waits}")
            it.fetch("ann")
            self.assertEqual((0, "", ""), _run(it, clock))
            self.assertEqual(1, it.news("ann").count("waits for tomorrow"))
            clock.now += _DAY
            self.assertEqual(1, _run(it, clock)[0])
            clock.now += _DAY
            self.assertEqual(0, _run(it, clock)[0])
            self.assertEqual([f"{name} {at}" for name in "123" for at in range(2)], it.subjects()[3:])

    def test_the_sysops_texts_and_the_news_go_into_the_archive(self) -> None:
        with board() as it:
            it.write("mail/WELCOME", b"Hello\r\n")
            os.mkdir(os.path.join(it.mail, "GOODBYE"))
            _run(it, Clock())
            first = it.fetch("bob") or b""
            texts = [text_in(first, name) for name in ("WELCOME", "GOODBYE", "NEWS")]
            self.assertEqual(["Hello\r\n", "", ""], texts)
            self.assertIn("WELCOME\r\nNEWS\r\nGOODBYE", text_in(first, "CONTROL.DAT"))
            it.send_letters("bob", [letter("SOMEBODY", "ALL", "Not mine", conference=0)])
            status, _, said = _run(it, Clock())
            self.assertEqual((1, 1), (status, len(said.splitlines())))
            second = it.fetch("bob") or b""
            self.assertIn("1 refused sender: From isn't your name on this board\r\n", text_in(second, "NEWS"))
            self.assertIn("SOMEBODY > ALL: Not mine [1]\r\n", text_in(second, "NEWS"))
            self.assertEqual(["0 packet 1: 3 messages", "0 packet 2: 0 messages"], it.logged("bob", "export"))

    def test_one_caller_is_served_alone(self) -> None:
        with board() as it:
            self.assertEqual((0, "", ""), _run(it, Clock(), "--caller", "bob"))
            self.assertEqual(([], ["TESTBBS.QWK"]), (it.names("ann/out"), it.names("bob/out")))
            self.assertEqual(0, day_command.main([it.data, it.shelf, "--caller", "cy"], Clock()))
            self.assertEqual(([], ["TESTBBS.QWK"]), (it.names("ann/out"), it.names("cy/out")))
            status, _, said = _run(it, Clock(), "--caller", "dee")
            self.assertEqual((2, True), (status, "no caller with the folder dee" in said))

    def test_what_would_be_done_is_said_and_not_done(self) -> None:
        with board() as it:
            _run(it, Clock())
            it.fetch("ann")
            it.send("ann", b"", "x.rep")
            before = self._files(it)
            status, said, _ = _run(it, Clock(), "-n")
            wanted = "ann: upload in/x.rep\nann: acknowledge packet 1\nbob: nothing\ncy: nothing\n"
            self.assertEqual((0, wanted, before), (status, said, self._files(it)))

    def _files(self, it: Board) -> list[tuple[str, float]]:
        found = [os.path.join(top, name) for top, _, names in os.walk(it.top) for name in names]
        return sorted((path, os.stat(path).st_mtime_ns) for path in found)

    def test_a_report_counts_what_the_last_days_brought(self) -> None:
        clock = Clock()
        with board() as it:
            for turn in range(2):
                it.send_letters("ann", [letter("ANN LEE", "ALL", f"{turn}"), letter("X", "ALL", "No")], "a.rep")
                _run(it, clock)
                it.fetch("ann")
                clock.now += _DAY
            it.send_letters("ann", [letter("ANN LEE", "ALL", "1"), letter("X", "ALL", "No")])
            _run(it, clock)
            self.assertEqual(["0 posted 1 refused 1", "0 posted 1 refused 1", "0 again posted 1 refused 1"],
                             it.logged("ann", "upload"))  # fmt: skip
            status, said, _ = _run(it, clock, "--report", "7")
            self.assertEqual(0, status)
            self.assertEqual("ann: 2 posted, 2 refused, 5 handed out", said.splitlines()[0])
            self.assertIn("0 GENERAL: 9994 slots left", said.splitlines())
            self.assertIn("ann: 1 posted, 1 refused, 1 handed out", _run(it, clock, "--report", "1")[1])
            shutil.rmtree(os.path.join(it.mail, "bob/kept"))
            it.write("mail/bob/kept", b"")
            counted = _run(it, clock, "--report", "7")[1].splitlines()
            self.assertRegex(counted[1], "bob: can't be counted: .*bob/kept: Not a directory")
            self.assertEqual(said.splitlines()[0], counted[0])

    def test_the_sysop_is_warned_before_a_conference_is_full(self) -> None:
        with board() as it, mock.patch("qwkdoor_scripts.day.FEW_SLOTS", 9997):
            it.post(["Another"])
            status, _, said = _run(it, Clock())
            self.assertEqual((1, "qwkdoor-day: 0 GENERAL: 9995 slots left\n"), (status, said))
            self.assertEqual(["1 0 GENERAL: 9995 slots left"], it.logged("-", "slots"))

    def test_the_words_of_a_call(self) -> None:
        with board() as it:
            bad = [["-w"], ["-w", "x"], ["-w", "86401"], ["--report", "0"], ["--report", "1", "-n"], ["-x"], ["more"]]
            for options in bad:
                status, _, said = _run(it, Clock(), *options)
                self.assertEqual((2, 1), (status, len(said.splitlines())), options)
            with contextlib.redirect_stderr(io.StringIO()):
                self.assertEqual(2, day_command.main([it.data], Clock()))
            failed = io.StringIO()
            with contextlib.redirect_stderr(failed):
                self.assertEqual(70, day_command.main([it.data, "/\x1b[2J\n\x9bnowhere"], Clock()))
            self.assertEqual("qwkdoor-day: /?[2J??nowhere isn't a folder that can be entered\n", failed.getvalue())

    def test_a_run_waits_for_another_and_then_gives_up(self) -> None:
        with board() as it:
            with day_command.Lock(os.path.join(it.mail, "lock")):
                status, _, said = _run(it, Clock(), "-w", "0")
            self.assertEqual((75, True), (status, "another run was at work" in said))

    def test_the_status_of_a_board_that_fails_ends_the_day(self) -> None:
        with board() as it:
            with open(os.path.join(it.data, "LEDGER.DAT"), "r+b") as file:
                file.write(b"?")
            status, _, said = _run(it, Clock())
            self.assertEqual((3, True, []), (status, "damaged" in said, it.names("ann")))


@needs_program
class BoardsThatChange(unittest.TestCase):
    """A caller misses nothing where the board, or what the day knows of it, isn't the one of yesterday."""

    def _settled(self, it: Board, clock: Clock) -> None:
        """Lets days pass until each caller has all."""
        for _ in range(3):
            _run(it, clock)
            for name in ("ann", "bob", "cy"):
                it.fetch(name)

    def test_a_board_that_was_put_back_and_has_grown_to_the_same_counts(self) -> None:
        clock = Clock()
        with board() as it:
            shutil.copytree(it.data, it.data + ".copy")
            it.post(["Lost"])
            self._settled(it, clock)
            shutil.rmtree(it.data)
            os.rename(it.data + ".copy", it.data)
            it.post(["Other"])
            self._settled(it, clock)
            old = ["Old 1", "Old 2", "Old 3"]
            self.assertEqual([*old, "Lost", *old, "Other"], it.has_received("bob"))

    def test_another_board_of_the_same_counts(self) -> None:
        clock = Clock()
        with board() as it:
            self._settled(it, clock)
            shutil.rmtree(it.data)
            time.sleep(1)
            it.door("batch", "begin.txt")
            it.post(["New 1", "New 2", "New 3"])
            it.door("export", "Ann Lee", "2000", "by-hand")
            self._settled(it, clock)
            self.assertEqual(["New 1", "New 2", "New 3"], it.has_received("ann")[3:])

    def test_where_the_totals_are_lost_or_are_none_the_board_is_asked(self) -> None:
        clock = Clock()
        with board() as it:
            self._settled(it, clock)
            count = len(it.logged("ann", "export"))
            for lost in (lambda path: os.unlink(path), lambda path: it.write(path, b'1\n{"seen": 7}\n')):
                lost(os.path.join(it.mail, "ann/work/seen"))
                self.assertEqual((0, "", ""), _run(it, clock))
                count += 1
                self.assertEqual(count, len(it.logged("ann", "export")))

    def test_a_message_that_was_deleted_before_he_got_it_and_one_behind_it(self) -> None:
        clock = Clock()
        with board() as it:
            self._settled(it, clock)
            it.post(["Gone"])
            it.door("kill", "0", "4")
            self._settled(it, clock)
            it.post(["There"])
            self._settled(it, clock)
            self.assertEqual(["Old 1", "Old 2", "Old 3", "There"], it.has_received("cy"))


class WhatIsNew(unittest.TestCase):
    """Whether the board can have something new for a caller since his last packet."""

    def _totals(self, slots: int, users: int = 3, uploads: int = 5, created: Optional[int] = 7) -> Totals:
        conference = f"0 A: 1 slots, 1 live: {slots} slots, 4 live"
        lines = ["board TESTBBS", conference, f"{users} users, {uploads} uploads, 9 bytes"]
        found = board_totals.read([line.encode() for line in lines])
        found.created = created
        return found

    def test_it_is_known_from_slots_alone_and_where_nothing_went_back(self) -> None:
        cases: list[tuple[Optional[Seen], bool]] = [
            (Seen(7, {0: 9}, 3, 5), True),
            (Seen(7, {0: 9}, 2, 4), True),
            (Seen(7, {0: 8}, 3, 5), False),
            (Seen(7, {0: 10}, 3, 5), False),
            (Seen(7, {0: 9}, 4, 5), False),
            (Seen(7, {0: 9}, 3, 6), False),
            (Seen(7, {0: 9, 1: 0}, 3, 5), False),
            (Seen(8, {0: 9}, 3, 5), False),
            (None, False),
        ]
        for seen, wanted in cases:
            self.assertEqual(wanted, self._totals(9).has_nothing_since(seen), seen)
        self.assertFalse(self._totals(9, created=None).has_nothing_since(self._totals(9, created=None).seen()))
        self.assertEqual("A: 1 slots, 1 live", self._totals(9).names[0])


if __name__ == "__main__":
    unittest.main()
