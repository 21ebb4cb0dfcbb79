"""What the program does where the files of DATA and calls of the system on them aren't as they should be."""

from __future__ import annotations

import itertools
import os
import shutil
import unittest

from tests.edge_support import NOBODY, EdgeCase, as_root, by_strace, failing

BOOT_ID = "/proc/sys/kernel/random/boot_id"
RESTART = "restart the machine"


class FailedOpens(EdgeCase):
    """A failed open is no failed sync."""

    @as_root
    def test_folder_that_may_not_be_read(self) -> None:
        for path in [self.data, *(self.at("data", name) for name in os.listdir(self.data))]:
            os.chown(path, NOBODY, NOBODY)
        os.chmod(self.data, 0o300)
        self.expect_of(self.door("check", user=NOBODY), 4, self.data)
        os.chmod(self.data, 0o700)
        self.expect(self.door("check", user=NOBODY), 0)

    @as_root
    def test_folder_above_that_may_not_be_read(self) -> None:
        os.mkdir(self.at("above"), 0o711)
        for path in [self.data, *(self.at("data", name) for name in os.listdir(self.data))]:
            os.chown(path, NOBODY, NOBODY)
        os.rename(self.data, self.at("above", "data"))
        self.expect(self.door("check", user=NOBODY, data=self.at("above", "data")), 0)

    def test_few_open_files(self) -> None:
        for most in range(4, 12):
            run = self.door("enroll", f"User {most}", "-", "0", before=["sh", "-c", f'ulimit -n {most} && exec "$@"', "sh"])
            with self.subTest(most=most):
                self.expect(run, 4, "Too many open files")
                self.assertNotIn(RESTART, run.stderr)
                self.expect_goes_on()

    @by_strace
    def test_opens_of_the_folders(self) -> None:
        errors = ("EMFILE", "ENFILE", "ENOMEM", "EIO", "ENOSPC")
        for path, error in itertools.product((self.data, f"{self.data}/.."), errors):
            with self.subTest(path=path, error=error):
                run = self.door("check", before=failing(path, openat=error))
                self.expect_of(run, 4, path)
                self.assertNotIn(RESTART, run.stderr)
                self.expect_goes_on()

    @by_strace
    def test_looks_at_the_folder(self) -> None:
        for error, status in (("EIO", 4), ("EACCES", 4), ("ENOMEM", 7)):
            self.expect(self.door("check", before=failing(self.data, statx=error)), status)
            self.expect_goes_on()


class FailedSyncs(EdgeCase):
    """A failed sync keeps later runs out, and says what failed."""

    @by_strace
    def test_each_part(self) -> None:
        for path in (self.at("data", "JOURNAL.DAT"), self.data, f"{self.data}/.."):
            with self.subTest(path=path):
                run = self.door("check", before=failing(path, fsync="EIO:when=1"))
                self.expect_of(run, 4, path)
                self.assertIn(RESTART, run.stderr)
                self.expect(self.door("check"), 4, RESTART)
                os.truncate(self.at("data", "LOCK"), 0)
                self.expect_goes_on()

    @by_strace
    def test_that_cannot_be_kept(self) -> None:
        lock = self.at("data", "LOCK")
        for fault in ({"pwrite64": "EIO"}, {"ftruncate": "EIO"}):
            run = self.door("check", before=failing(self.data, lock, fsync="EIO:when=1", **fault))
            self.expect(run, 4, "LOCK couldn't keep that")
            self.assertNotIn(RESTART, run.stderr)


class Links(EdgeCase):
    """No symbolic link is followed in DATA."""

    def test_lock_that_leads_nowhere(self) -> None:
        os.remove(self.at("data", "LOCK"))
        os.symlink("/run/gone/lock", self.at("data", "LOCK"))
        self.expect_of(self.door("check"), 4, f"{self.data}/LOCK")

    def test_lock_that_leads_elsewhere(self) -> None:
        os.rename(self.at("data", "LOCK"), self.at("elsewhere"))
        os.symlink(self.at("elsewhere"), self.at("data", "LOCK"))
        self.expect(self.door("check"), 4, "LOCK: a symbolic link")

    def test_files_that_lead_elsewhere(self) -> None:
        names = ("LEDGER.DAT", "JOURNAL.DAT", "C00.JDT")
        for name, target in itertools.product(names, (self.at("elsewhere"), "/run/gone")):
            os.rename(self.at("data", name), self.at("elsewhere"))
            os.symlink(target, self.at("data", name))
            self.expect(self.door("check"), 4, f"{name}: a symbolic link")
            os.replace(self.at("elsewhere"), self.at("data", name))
        self.expect_goes_on()

    def test_data_that_leads_nowhere(self) -> None:
        os.symlink("/run/gone/data", self.at("link"))
        for behind, words in itertools.product(("", "/", "//"), (["check"], ["init", "setup.txt"])):
            with self.subTest(behind=behind, words=words):
                run = self.door(*words, data=self.at("link") + behind)
                self.expect(run, 4, "LOCK: ")
                self.assertEqual(run.stdout, "")

    def test_data_that_is_not_there(self) -> None:
        for data in (self.at("none"), self.at("none") + "/"):
            run = self.door("check", data=data)
            self.assertEqual((run.returncode, run.stdout), (1, "refused notmade\n"))
            self.assertFalse(os.path.exists(data))

    def test_data_that_leads_to_the_board(self) -> None:
        os.symlink("data", self.at("link"))
        for data in (self.at("link"), self.at("link") + "/", self.data + "/"):
            self.expect(self.door("check", data=data), 0)


class LastStart(EdgeCase):
    """What is kept of a failed sync is of one start, and of one file."""

    def fail_a_sync(self) -> None:
        self.expect(self.door("check", before=failing(self.at("data", "JOURNAL.DAT"), fsync="EIO:when=1")), 4, RESTART)
        self.expect(self.door("check"), 4, RESTART)

    @by_strace
    def test_copy(self) -> None:
        self.fail_a_sync()
        shutil.copytree(self.data, self.at("copy"))
        self.expect(self.door("check", data=self.at("copy")), 0)
        os.rename(self.data, self.at("moved"))
        self.expect(self.door("check", data=self.at("moved")), 4, RESTART)

    @by_strace
    def test_other_start(self) -> None:
        self.fail_a_sync()
        with open(self.at("data", "LOCK"), "r+b") as lock:
            lock.write(b"00000000")
        self.expect_goes_on()

    def test_mark_of_program_1_0(self) -> None:
        with open(BOOT_ID, "rb") as boot_id, open(self.at("data", "LOCK"), "wb") as lock:
            lock.write(boot_id.read(36))
        self.expect(self.door("check"), 4, RESTART)

    def test_mark_of_another_file(self) -> None:
        with open(BOOT_ID, "rb") as boot_id, open(self.at("data", "LOCK"), "wb") as lock:
            lock.write(boot_id.read(36) + b" 0000000000000000 0000000000000000\n")
        self.expect_goes_on()

    @by_strace
    def test_lock_that_cannot_be_read(self) -> None:
        lock = self.at("data", "LOCK")
        self.expect_of(self.door("check", before=failing(lock, pread64="EIO")), 4, lock)
        self.expect_goes_on()


if __name__ == "__main__":
    unittest.main()
