"""The command qwkdoor-read: its words, its page, and its end."""

from __future__ import annotations

import contextlib
import os
import signal
from dataclasses import dataclass, field
from typing import Any

from . import call, durable, program
from .characters import CHARACTERS
from .failure import DONE, REFUSED, WRONG_WORDS, Failure
from .reader_face import Face
from .reader_lines import PlainVoice
from .reader_opening import finish, go_on, send_all, take_up
from .reader_outbox import Outbox
from .reader_packet import Refused, open_packet
from .reader_plain import Plain
from .reader_screens import Screens
from .reader_session import Session
from .reader_settings import check_characters, config_path, data_path, read_settings
from .reader_shell import Ended, end_on_signals, without_ctrl_c
from .reader_state import Box, board_id_of
from .reader_terminal import Hangup, Terminal, encoding_of
from .reader_writing import Writing

VERSION = "2.0"
_USAGE = "usage: qwkdoor-read [OPTION..] PACKET (qwkdoor-read --help says more)"
PAGE = f"""\
usage: qwkdoor-read [OPTION..] PACKET
       qwkdoor-read --send FOLDER [--board BBSID]

Reads a QWK packet, an archive as BBSID.QWK or a folder with CONTROL.DAT and MESSAGES.DAT, and writes answers. On a
terminal it has screens: areas, the messages of one, and a message; h says the keys of each. Else it takes commands by
lines: h lists them.

An answer is kept as soon as that is said, and may be changed or dropped until it is packed, which the end of the reader
does. Each archive has a name of its own, BBSID-0001.REP and so on, and never changes. Send it by taking it away, or by
--send; the reader asks of one that still lies there whether it was sent. A text that isn't an answer yet, as where the
editor failed, is kept with the message that it answers.

--send FOLDER      sends archives to a folder and replaces nothing there: at the end, or at once without a PACKET
--board BBSID      sends those of this board alone
--one-name         names an archive BBSID.REP; the next one waits until it is gone
--plain            takes commands by lines on a terminal too, and says lines
--characters NAME  those of the packet: {', '.join(CHARACTERS)}; else cp437
--terminal NAME    those of the terminal; else those of LC_ALL, LC_CTYPE or LANG
--wrap-pictures    wraps lines of pictures and tables too
-h                 prints this page
--help             prints this page
--version          prints the version

The data are in $XDG_DATA_HOME/qwkdoor/BBSID, else HOME/.local/share/qwkdoor/BBSID; what an earlier reader left in
HOME/qwk/BBSID is taken over. QWKDOOR_HOME names another folder than the qwkdoor of these. The editor is VISUAL, EDITOR,
else vi. QWKDOOR names another program than the qwkdoor beside this script.

settings, in $XDG_CONFIG_HOME/qwkdoor/read.conf, else HOME/.config/qwkdoor/read.conf: sections [BBSID] and [DEFAULT],
  characters = NAME, terminal = NAME, wrap-pictures = yes, one-name = yes, send-folder = FOLDER, or
  send-command = COMMAND, which is carried out by sh with the archive's path as $1

files of a board's folder:
  BBSID-0001.REP  an archive that is to be sent
  sent            those that were sent and not taken away
  drafts          texts that aren't answers yet, each with what it answers
  answers         answers, those that were sent too
  archives        which answers are in which archive
  packets         the packet that was read last, and those that texts and answers need
  news            what the board wrote, by packet
  read, net       the messages that were read, and the areas of net mail
  form, last      the form of the folder, and the number of the last text
  lock            a file that a run holds

status:
  0  done
  1  the packet was refused: the line 'refused ..' says why
  2  not the words of a call, or of the settings
  3 to 7  the status with which a command of qwkdoor ended
 70  the packet has not both files, or is damaged; a file couldn't be read, written or sent, memory ran out, or the
     program didn't run or was killed
 75  another run is at work in the folder
"""


@dataclass
class Words:
    """The words of a call."""

    packet: str = ""
    board: str = ""
    plain: bool = False
    chosen: "dict[str, Any]" = field(default_factory=dict)


_WITH_VALUE = {"--send": "send_folder", "--characters": "characters", "--terminal": "terminal"}
_SWITCHES = {"--one-name": "one_name", "--wrap-pictures": "wrap_pictures"}


def parse(words: "list[str]") -> Words:
    """Reads the words of a call. Failure where they are none."""
    found = Words()
    left = list(words)
    while left and left[0].startswith("-") and left[0] != "--":
        word, equals, value = left.pop(0).partition("=")
        if word in _SWITCHES and not equals:
            found.chosen[_SWITCHES[word]] = True
        elif word == "--plain" and not equals:
            found.plain = True
        elif word in _WITH_VALUE or word == "--board":
            _take_value(found, word, value or (left.pop(0) if left else ""))
        else:
            raise Failure(_USAGE, WRONG_WORDS)
    left = left[1:] if left[:1] == ["--"] else left
    is_sending = not left and "send_folder" in found.chosen
    if len(left) != 1 and not is_sending or left == [""] or (found.board and not is_sending):
        raise Failure(_USAGE, WRONG_WORDS)
    found.packet = left[0] if left else ""
    return found


def _take_value(found: Words, word: str, value: str) -> None:
    if not value:
        raise Failure(_USAGE, WRONG_WORDS)
    if word == "--board":
        found.board = value
    else:
        found.chosen[_WITH_VALUE[word]] = value
    if word == "--characters":
        check_characters(value)


def main(words: "list[str]", script: str) -> int:
    """Carries out a call, and gives its status."""
    return call.carried_out("qwkdoor-read", PAGE, lambda: _to_its_end(words, script))


def _to_its_end(words: "list[str]", script: str) -> int:
    try:
        return _run(words, script)
    except Refused as error:
        voice = PlainVoice(encoding_of(os.environ, ""))
        for line in error.reply.lines:
            voice.say(line.decode("ascii", "replace"))
        if error.reply.status != REFUSED:
            raise Failure(error.reply.fault, error.reply.status) from error
        return error.reply.status
    except Hangup:
        return 128 + signal.SIGHUP
    except Ended as error:
        return error.status


def _run(words: "list[str]", script: str) -> int:
    if words in (["-h"], ["--help"]):
        raise call.HelpAsked()
    if words == ["--version"]:
        print(f"qwkdoor-read {VERSION}")
        return DONE
    wanted = parse(words)
    os.umask(0o077)
    base = os.path.realpath(data_path(os.environ))
    _make_folders(base)
    end_on_signals()
    path = program.find(script)
    return _read(wanted, base, path) if wanted.packet else _send(wanted, base, path)


def _make_folders(path: str) -> None:
    """Makes a folder, and those above it that are missing, and makes their names durable."""
    missing = []
    while not os.path.isdir(path):
        missing.append(path)
        path = os.path.dirname(path)
    for folder in reversed(missing):
        durable.make_folder(folder)


def _outbox(box: Box, path: str, one_name: bool) -> Outbox:
    door = program.Program(path, os.path.join(box.base, "none"), box.path)
    # A program whose reader was killed may write a reply packet still: the next run waits until it doesn't.
    door.held = box.held
    return Outbox(box, door, one_name)


def _read(wanted: Words, base: str, path: str) -> int:
    """Reads a packet, on a terminal or by lines."""
    with contextlib.ExitStack() as stack:
        packet = open_packet(wanted.packet, base, path, stack)
        settings = read_settings(config_path(os.environ), packet.box.board_id, wanted.chosen)
        encoding = encoding_of(os.environ, settings.terminal)
        outbox = _outbox(packet.box, path, settings.one_name)
        session = Session(packet, outbox, settings, "utf-8" if encoding == "ascii" else encoding)
        if wanted.plain or not _has_screens():
            return _by_lines(session, PlainVoice(encoding))
        return _on_screens(session, Terminal(encoding))


def _has_screens() -> bool:
    return os.isatty(0) and os.isatty(1) and os.environ.get("TERM") != "dumb"


def _by_lines(session: Session, voice: PlainVoice) -> int:
    writing = Writing(session, voice)
    take_up(session.outbox, session.packet.packet_id, voice.say)
    Plain(session, writing, voice).run()
    return finish(session, writing, voice.say)


def _on_screens(session: Session, terminal: Terminal) -> int:
    face = Face(terminal)
    terminal.by_key()
    try:
        take_up(session.outbox, session.packet.packet_id, face.say)
        Screens(session, Writing(session, face), face).run()
        terminal.clear()
    finally:
        terminal.by_line()
    voice = PlainVoice(terminal.encoding)
    return finish(session, Writing(session, voice), voice.say)


def _send(wanted: Words, base: str, path: str) -> int:
    """Packs and sends what was answered, without a packet. A board that can't doesn't keep the others."""
    boxes = [it for it in _boxes(base) if wanted.board.upper() in ("", it.board_id.upper())]
    if not boxes:
        raise Failure(f"there is no board {wanted.board}".rstrip() + f" in {base}")
    voice = PlainVoice(encoding_of(os.environ, ""))
    status = DONE
    for box in boxes:
        try:
            status = _send_of(box, wanted, path, voice) or status
        except Failure as error:
            voice.say(str(error))
            status = error.status
    return status


def _send_of(box: Box, wanted: Words, path: str, voice: PlainVoice) -> int:
    with contextlib.ExitStack() as stack, without_ctrl_c():
        box.hold(stack)
        box.make()
        settings = read_settings(config_path(os.environ), box.board_id, wanted.chosen)
        outbox = _outbox(box, path, settings.one_name)
        go_on(outbox, voice.say)
        outbox.pack(voice.say)
        return send_all(outbox, settings, voice.say)


def _boxes(base: str) -> "list[Box]":
    """Gives the boards' folders: those that have a form."""
    names = [it for it in sorted(os.listdir(base)) if os.path.exists(os.path.join(base, it, "form"))]
    return [Box(base, board_id_of(it)) for it in names]
