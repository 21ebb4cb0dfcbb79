"""bench/compare.py: the shapes that it makes, and the parts of its table. Nothing is timed here."""

from __future__ import annotations

import os
import shutil
import sys
import tempfile
import unittest
import zlib

from tests.support import PROGRAM, TOP, needs_program

sys.path.insert(0, os.path.join(TOP, "bench"))

import compare  # noqa: E402  (bench/ is found first)
import compare_shapes as shapes  # noqa: E402


class Texts(unittest.TestCase):
    def test_ids_of_one_crc_are_distinct(self) -> None:
        for count in (1, 2, 9999):
            ids = shapes.ids_of_one_crc(count)
            self.assertEqual(len(set(ids)), count)
            self.assertEqual(len({len(it) for it in ids}), 1)
            self.assertEqual(len({zlib.crc32(it.encode()) for it in ids}), 1)
            self.assertLessEqual(len(ids[0]), 80)

    def test_a_sheet_has_a_line_of_so_many_bytes_each(self) -> None:
        self.assertEqual(shapes.sheet(2, 3), b"From: Bob Ray\nTo: All\nSubject: Hello\n\nxx\n.\n" * 2)
        self.assertEqual(shapes.sheet(1, 2, ids=["a"]), b"From: Bob Ray\nTo: All\nSubject: Hello\nMsgid: a\n\nx\n.\n")

    def test_packets_have_so_many_messages(self) -> None:
        self.assertEqual(len(shapes.qwk(3)), 128 * 7)
        self.assertEqual(shapes.type2(3).count(b"AREA:TEST\r\1MSGID: "), 3)

    def test_upload_records_are_put_behind_a_ledger(self) -> None:
        ledger = b"QMDL" + bytes(range(1, 9)) + bytes(4) + b"rest"
        found = shapes.with_uploads(ledger, [7, 7])
        self.assertEqual(found[:20], ledger[:12] + b"\2\0\0\0rest")
        self.assertEqual((len(found), found[20:22], found[62:64]), (20 + 84, b"\7\0", b"\7\0"))
        self.assertNotEqual(found[22:54], found[64:96])
        with self.assertRaises(AssertionError):
            shapes.with_uploads(found, [1])


class Table(unittest.TestCase):
    def test_the_least_of_each_time_counts(self) -> None:
        runs = [compare.Ran(2.0, 3.0, 0, b"a"), compare.Ran(1.0, 4.0, 0, b"a")]
        self.assertEqual(compare.least(runs), compare.Ran(1.0, 3.0, 0, b"a"))

    def test_runs_that_differ_are_no_row(self) -> None:
        for other in (compare.Ran(1.0, 1.0, 0, b"b"), compare.Ran(1.0, 1.0, 1, b"a")):
            with self.assertRaises(ValueError):
                compare.least([compare.Ran(1.0, 1.0, 0, b"a"), other])

    def test_a_row_has_ratios(self) -> None:
        ours, hashed, anchor = (compare.Ran(it / 1000, 0.004, 0) for it in (3, 2, 1))
        row = ["list", "3.0", "4.0", "2.0", "1.50"]
        self.assertEqual(compare.cells("list", ours, hashed, None), row)
        self.assertEqual(compare.cells("list", ours, hashed, anchor), [*row, "1.0", "3.00"])

    def test_lines_are_of_one_width(self) -> None:
        widths = {len(compare.line(it)) for it in (compare.HEADS, [compare.ROWS[0].name, *"123456"])}
        self.assertEqual(len(widths), 1)


class Runs(unittest.TestCase):
    def setUp(self) -> None:
        self.place = tempfile.mkdtemp()
        self.addCleanup(shutil.rmtree, self.place)

    def test_a_run_has_its_status_and_its_reply(self) -> None:
        ran = compare.run(["sh", "-c", "echo said; exit 3"], self.place)
        self.assertEqual((ran.status, ran.reply), (3, b"said\n"))
        self.assertGreater(ran.clock, 0)

    @needs_program
    def test_a_row_is_run_on_a_copy_of_its_board(self) -> None:
        place = shapes.Shapes(os.path.join(self.place, "made"), PROGRAM)
        os.makedirs(place.shelf)
        place.put("single", shapes.setup("BENCH", [("local", "GENERAL")]))
        place.put("one", shapes.sheet(1, 7, ids=["one more"]))
        place.do("new", "init single")
        row = compare.Row("one post", "new", ("import", "0", "one"), ("one",))
        found = compare.Bench(place, 2, PROGRAM).row(row)
        self.assertEqual((found[0], len(found)), ("one post", 7))


if __name__ == "__main__":
    unittest.main()
