"""A caller's folder for a board, in which nothing that he wrote is lost or doubled.

Every step is one rename behind a sync, so a run that is killed leaves the state before the step or the one after it.

    packets/ID/       CONTROL.DAT and MESSAGES.DAT of a packet, kept while a text or an unsent answer needs it
    drafts/N/         a text that isn't an answer yet: `about` says what it answers, or that it is a new letter; `was`
                      and `was-letter` are the text and the letter of an answer that is being changed
    answers/N/        an answer: `about`, `text` as it was typed, and `letter`, the bytes for the program
    archives/A.list   the answers that go into archive A, which is being made
    archives/A.zip    the archive, whole, before it is put out
    archives/A.msg    the reply packet of an older reader, which archive A is made of
    archives/A.ready  its answers. It is put out: it was taken away where it lies neither here nor in the folder
    archives/A.going  its answers. It is put out, and the reader began to send it: it may have been sent
    archives/A.sent   its answers. It was sent
    archives/A.back   it was taken back before it was sent: its answers are kept ones again, its number stays used
    BBSID-A.REP       an archive that is to be sent
    sent/             archives of which the caller said that they were sent
    read              the messages that he has read, by area and number
    news/             what the board wrote to him, by packet
    net               the areas of net mail, as he said
    last              the number of the text that was begun last: an editor that outlives its run, and writes its text
                      later, writes it nowhere else
    form, lock        the form of this folder, and a file that a run holds

    step              the rename
    begin a text      drafts/.new -> drafts/N
    keep an answer    drafts/N -> answers/N
    change an answer  answers/N -> drafts/N
    drop either       drafts/N -> drafts/.gone, or answers/N -> answers/.gone
    choose an archive's answers    archives/A.list.new -> archives/A.list
    make it           archives/A.zip.new -> archives/A.zip, then archives/A.list -> archives/A.ready
    put it out        archives/A.zip -> BBSID-A.REP
    send it           archives/A.ready -> archives/A.going
    it was sent       archives/A.ready or A.going -> archives/A.sent
    take it back      BBSID-A.REP -> archives/A.zip, then archives/A.ready or A.going -> archives/A.back

An answer is kept, and may be changed or dropped, while no list, ready, going or sent file names it. A name that begins
with a dot is half-made or half-removed, and the next run removes it.
"""

from __future__ import annotations

import contextlib
import os
import re
import shutil
from typing import Iterator

from . import durable
from .failure import FAILED, Failure
from .locks import Lock

FORM = b"qwkdoor-read 2\n"
_FOLDERS = ("packets", "drafts", "answers", "archives", "sent", "news", "work")
# What is written anew stands beside what it replaces until it is whole.
_HALF_WRITTEN = ("form.new", "read.new", "net.new", "last.new")
_HALF_WRITTEN_OF_TEXTS = ("about.new", "text.new", "letter.new", "was.new", "was-letter.new")
_ODD = re.compile(r"[^A-Za-z0-9_-]")
_CODED = re.compile(r"%([0-9A-F]{2})")


def folder_name(board_id: str) -> str:
    """Gives the name of a board's folder: its id, in which any odd character is written as `%` and its number."""
    return _ODD.sub(lambda found: f"%{ord(found.group()):02X}", board_id)


def board_id_of(name: str) -> str:
    """Gives the id of the board whose folder has a name."""
    return _CODED.sub(lambda found: chr(int(found.group(1), 16)), name)


class Box:
    """A board's folder."""

    def __init__(self, base: str, board_id: str) -> None:
        self.base = base
        self.board_id = board_id
        self.name = folder_name(board_id)
        self.path = os.path.join(base, self.name)
        self.held: "tuple[int, ...]" = ()

    def at(self, *parts: str) -> str:
        """Gives the path of a file in the folder."""
        return os.path.join(self.path, *parts)

    def hold(self, stack: contextlib.ExitStack) -> None:
        """Locks the folder until the stack ends. Failure where another run is at work in it."""
        self.held = (stack.enter_context(Lock(self.at("lock"))).handle,)

    def make(self) -> None:
        """Makes the folder where it isn't there. The form comes first: a folder without it may be an older one."""
        durable.make_folder(self.path)
        if not os.path.exists(self.at("form")):
            durable.write_whole(self.at("form"), FORM)
        elif self.read("form") != FORM:
            raise Failure(f"another version of qwkdoor-read made {self.path}", FAILED)
        for name in _FOLDERS:
            durable.make_folder(self.at(name))

    def clean(self) -> None:
        """Removes what a killed run left half-made, or half-removed."""
        for folder in ("packets", "drafts", "answers"):
            for name in os.listdir(self.at(folder)):
                if name.startswith("."):
                    shutil.rmtree(self.at(folder, name))
        shutil.rmtree(self.at("work"))
        durable.make_folder(self.at("work"))
        for path in filter(os.path.lexists, self._half_written()):
            os.unlink(path)

    def _half_written(self) -> "Iterator[str]":
        for name in _HALF_WRITTEN:
            yield self.at(name)
        for folder in ("archives", "news"):
            for name in os.listdir(self.at(folder)):
                if name.endswith(".new"):
                    yield self.at(folder, name)
        for folder in ("drafts", "answers"):
            for number in self.numbers(folder):
                yield from (self.at(folder, str(number), name) for name in _HALF_WRITTEN_OF_TEXTS)

    def read(self, *parts: str) -> bytes:
        """Gives the bytes of a file, and none where it isn't there."""
        try:
            with open(self.at(*parts), "rb") as file:
                return file.read()
        except FileNotFoundError:
            return b""

    def numbers(self, folder: str) -> "list[int]":
        """Gives the numbers of the texts in `drafts` or `answers`, in the order in which they were begun."""
        return sorted(int(name) for name in os.listdir(self.at(folder)) if name.isdigit())

    def next_number(self) -> int:
        """Gives the number of a new text, which no text had before. That it is used is on the disk."""
        last = self.read("last").strip()
        before = int(last) if last.isdigit() else 0
        number = max(before, *self.numbers("drafts"), *self.numbers("answers"), 0) + 1
        durable.write_whole(self.at("last"), b"%d\n" % number)
        return number

    def remove_folder(self, *parts: str) -> None:
        """Removes a folder in one step, and then what was in it."""
        gone = self.at(parts[0], ".gone")
        if os.path.lexists(gone):
            shutil.rmtree(gone)
        durable.replace(self.at(*parts), gone)
        shutil.rmtree(gone)


def is_old(path: str) -> bool:
    """Whether a folder is one of the first qwkdoor-read: it had a folder `packet`, and no form."""
    return os.path.isdir(os.path.join(path, "packet")) and not os.path.exists(os.path.join(path, "form"))


def free_name(path: str) -> str:
    """Gives a path that nothing has: this one, else with a number behind it."""
    number = 2
    free = path
    while os.path.lexists(free):
        free = f"{path}-{number}"
        number += 1
    return free
