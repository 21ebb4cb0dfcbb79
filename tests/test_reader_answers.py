"""Answers on a terminal: written, changed, dropped, sent, and what becomes of them where an editor or a line fails."""

from __future__ import annotations

import os
import signal
import time
import unittest

from tests.reader_support import Letter, letters_of
from tests.support import needs_program
from tests.test_reader_screens import ScreenCase


@needs_program
class Answers(ScreenCase):
    """What a caller does with what he writes."""

    def test_answers_are_listed_shown_edited_and_dropped(self) -> None:
        """The screen of texts and answers."""
        screen = self.open()
        screen.until("q end")
        screen.after("\r", "q back")
        screen.after("r", "kept answer 1 to BOB RAY: Key")
        screen.after("q", "q end")
        self.assertEqual(screen.after("t", "q back")[2], "  answer    1 to BOB RAY: Key (answers, GENERAL, private)")
        head = ["To:      BOB RAY", "Subject: Key", "Private: yes", ""]
        shown = [*head, " BR> The key lies under the stone", "An answer"]
        self.assertEqual(screen.after("\r", "any key")[:-1], shown)
        screen.after(" ", "q back")
        screen.after("e", "kept answer 1")
        self.assertEqual(screen.after("\r", "any key")[4:-1], [*shown[4:], "An answer"])
        screen.after(" ", "q back")
        self.assertEqual(screen.after("x", "which?")[0], "Drop 1 to BOB RAY: Key (answers, GENERAL, private)?")
        screen.after("n", "answer    1")
        screen.after("x", "which?")
        screen.after("y", "nothing was written")
        screen.after("q", "q end")
        screen.press("q")
        self.assertEqual(screen.end(), 0)
        self.assertEqual(self.archives(), [])

    def test_an_editor_that_fails_is_asked_about(self) -> None:
        """The text stays, also over the end of the reader, and goes on to its own message alone."""
        self.environment["EDITOR"] = self.editor('echo half >>"$1"; exit 3')
        screen = self.open()
        screen.until("q end")
        screen.after("\r", "q back")
        why = "the editor ended with status 3, so text 1 is no answer yet"
        asked = [why, "", "  k  keep as an answer", "  e  edit again"]
        self.assertEqual(screen.after("r", "which?")[:4], asked)
        screen.after("l", "text 1 is left for later")
        screen.after("q", "q end")
        screen.press("q")
        screen.end()
        self.environment["EDITOR"] = self.editor('echo whole >>"$1"')
        screen = self.open()
        begun = "Text 1 to BOB RAY: Key (answers, GENERAL, private) isn't an answer yet."
        self.assertEqual(screen.until("which?")[0], begun)
        screen.after("e", "kept answer 1 to BOB RAY: Key")
        screen.press("q")
        screen.end()
        text = b" BR> The key lies under the stone\nhalf\nwhole"
        wanted = [Letter("ANN LEE", "BOB RAY", "Key", text, 0, "0", "+", "1")]
        self.assertEqual(self.lying(), wanted)

    def test_an_archive_is_asked_about(self) -> None:
        """It lies there: it was sent, it stays, or it is taken back and its answer is changed."""
        self.read("r 1", "q")
        archive = self.box("TESTBBS-0001.REP")
        screen = self.open()
        shown = ["TESTBBS-0001.REP: 1 answer", "  1 to BOB RAY: Key (answers, GENERAL, private)", ""]
        self.assertEqual(screen.until("which?")[:3], shown)
        screen.after("n", "q end")
        self.assertEqual(screen.after("t", "q back")[2], "  archive   TESTBBS-0001.REP: 1 answer")
        screen.after("b", "  answer    1 to BOB RAY")
        self.assertFalse(os.path.exists(archive))
        screen.after("e", "kept answer 1")
        screen.after("q", "q end")
        screen.press("q")
        screen.end()
        self.assertEqual([os.path.basename(it) for it in self.archives()], ["TESTBBS-0002.REP"])
        self.assertEqual(len(self.lying()[0].text.split(b"\n")), 3)
        screen = self.open()
        screen.until("which?")
        screen.after("y", "q end")
        self.assertEqual(screen.after("t", "q back")[2], "  sent      1 to BOB RAY: Key (answers, GENERAL, private)")
        screen.after("q", "q end")
        screen.press("q")
        screen.end()
        self.assertEqual(self.archives(), [])

    def test_what_may_be_sent_is_asked_about_twice(self) -> None:
        """The reader was killed while it sent an archive, which is taken back by the caller's word alone."""
        self.read("r 1", "q")
        os.replace(self.box("archives", "0001.ready"), self.box("archives", "0001.going"))
        screen = self.open()
        self.assertEqual(screen.until("which?")[0], "TESTBBS-0001.REP: 1 answer, and it may have been sent")
        screen.after("b", "its answers may come twice")
        screen.after("n", "q end")
        self.assertEqual([os.path.basename(it) for it in self.archives()], ["TESTBBS-0001.REP"])
        screen.after("t", "archive   TESTBBS-0001.REP")
        screen.after("b", "its answers may come twice")
        screen.after("y", "answer    1 to BOB RAY")
        screen.after("q", "q end")
        self.end(screen)
        self.assertEqual([os.path.basename(it) for it in self.archives()], ["TESTBBS-0002.REP"])

    def test_letters_of_their_own(self) -> None:
        """A new letter, an answer with another subject, and net mail with its address line."""
        self.environment["EDITOR"] = self.editor('echo Text >>"$1"')
        screen = self.open()
        screen.until("q end")
        screen.after("w", "Area [GENERAL]:")
        screen.after("netmail\n", "To:")
        screen.after("Dee Far\n", "Subject:")
        screen.after("Greetings\n", "Private [no]:")
        screen.after("\n", "Address line of net mail, NAME@ZONE:NET/NODE:")
        screen.after("Dee Far@2:20/30\n", "kept answer 1 to Dee Far: Greetings")
        screen.after("\r", "q back")
        warning = "a letter of its own has no reference, so it stays out of the thread. Go on?"
        self.assertEqual(screen.after("R", "which?")[0], warning)
        screen.after("y", "Area [GENERAL]:")
        screen.after("\n", "To [BOB RAY]:")
        screen.after("\n", "Subject [Re: Key]:")
        screen.after("\n", "Private [yes]:")
        screen.after("no\n", "kept answer 2 to BOB RAY: Re: Key")
        screen.after("q", "q end")
        screen.press("q")
        screen.end()
        wanted = [
            Letter("ANN LEE", "Dee Far", "Greetings", b"Dee Far@2:20/30\nText", 1, "1", " ", "0"),
            Letter("ANN LEE", "BOB RAY", "Re: Key", b" BR> The key lies under the stone\nText", 0, "0", " ", "0"),
        ]
        self.assertEqual(self.lying(), wanted)

    def test_characters_that_the_packet_lacks_are_named(self) -> None:
        """They are named before the letter is kept, and `?` stands for them where the caller says so."""
        self.environment["EDITOR"] = self.editor("printf 'f\\303\\274r 3 \\342\\202\\254, \\317\\200\\n' >\"$1\"")
        screen = self.open()
        screen.until("q end")
        screen.after("\r", "q back")
        asked = screen.after("r", "which?")[0]
        self.assertEqual(asked, "the packet's characters (cp437) lack '€' in line 1, 'π' in line 1")
        screen.after("k", "kept answer 1")
        screen.after("q", "q end")
        screen.press("q")
        screen.end()
        self.assertEqual(self.lying()[0].text, b"f\x81r 3 ?, ?")

    def test_a_hangup_leaves_all_as_it_was(self) -> None:
        """The text that the editor wrote is a text still, and no answer; what was kept is kept."""
        self.environment["EDITOR"] = self.editor('echo typed >>"$1"; sleep 60')
        self.read("r 2", "k 1", editor=self.editor('echo first >>"$1"; exit 1'), status=-signal.SIGKILL)
        screen = self.open()
        screen.until("which?")
        screen.after("n", "q end")
        screen.after("\r", "q back")
        screen.press("r")
        while not any("typed" in it for it in self.kept_texts()):
            time.sleep(0.05)
        self.assertEqual(screen.hang_up(), 128 + signal.SIGHUP)
        self.assertEqual([it.count("typed") for it in self.kept_texts()], [1])
        self.assertEqual([it.recipient for path in self.archives() for it in letters_of(path)], ["CY DAY"])

    def test_ctrl_c_within_an_editor_is_the_editors(self) -> None:
        """An editor to which Ctrl-C is a key, as to vi, goes on, and its text is an answer."""
        self.environment["EDITOR"] = self.editor('trap "echo typed >>\\"$1\\"" INT; echo begun; sleep 3 & wait; wait')
        screen = self.open()
        screen.until("q end")
        screen.after("\r", "q back")
        screen.shown = b""
        screen.press("r")
        screen.until("begun")
        screen.after("\x03", "kept answer 1 to BOB RAY: Key")
        screen.after("q", "q end")
        self.end(screen)
        self.assertEqual([it.text.split(b"\n")[-1] for it in self.lying()], [b"typed"])

    def test_an_answer_is_put_back_as_it_was(self) -> None:
        """What the program refuses of a change goes into no letter, once the caller puts the answer back."""
        screen = self.open()
        screen.until("q end")
        screen.after("\r", "q back")
        screen.after("r", "kept answer 1")
        screen.after("q", "q end")
        screen.after("t", "answer    1")
        self.editor_at(self.environment["EDITOR"], 'head -c 20000 /dev/zero | tr "\\0" x >>"$1"')
        screen.after("e", "refused text 1: text 1 is no answer yet")
        screen.after("u", "answer    1")
        screen.after("q", "q end")
        self.end(screen)
        self.assertEqual([it.text for it in self.lying()], [b" BR> The key lies under the stone\nAn answer"])


if __name__ == "__main__":
    unittest.main()
