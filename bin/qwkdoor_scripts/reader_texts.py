"""Texts that aren't answers yet, and answers: each is a folder of its own, which says what it answers."""

from __future__ import annotations

import dataclasses
import hashlib
import json
import os
import shutil
from dataclasses import dataclass
from typing import Any

from . import durable
from .failure import FAILED, Failure
from .reader_state import Box

REPLY = "reply"
LETTER = "letter"
# A text of the first qwkdoor-read, which didn't say what it answered.
UNKNOWN = "unknown"
_OWN_FILES = frozenset(("about", "text", "letter", "was", "was-letter"))


@dataclass(frozen=True)
class About:
    """What a text is: the message of a packet that it answers, or the area to which a new letter goes."""

    kind: str
    packet: str
    place: int
    area: int
    to: str
    subject: str
    private: bool
    address: str
    begun: str


@dataclass(frozen=True)
class Text:
    """A draft or an answer, by its number and the folder in which it lies."""

    box: Box
    folder: str
    number: int
    about: About

    def at(self, name: str) -> str:
        """Gives the path of one of its files."""
        return self.box.at(self.folder, str(self.number), name)

    def shelf_name(self, name: str) -> str:
        """Gives the name by which the program finds one of its files."""
        return f"{self.folder}/{self.number}/{name}"

    def read(self) -> bytes:
        """Gives what the editor left. A file that is gone is an empty text."""
        return self.bytes_of("text")

    def has_recovery(self) -> bool:
        """Whether an editor left a file from which it recovers what wasn't written. Its backups end with `~`."""
        names = os.listdir(os.path.dirname(self.at("about")))
        return any(name.removesuffix(".new") not in _OWN_FILES and not name.endswith("~") for name in names)

    def is_as_begun(self) -> bool:
        """Whether the text is still the one with which it began."""
        return digest_of(self.read()) == self.about.begun

    def was_answer(self) -> bool:
        """Whether it was an answer before it was changed. An answer that was changed has its file `was` still."""
        return self.folder == "drafts" and os.path.exists(self.at("was"))

    def is_as_it_was(self) -> bool:
        """Whether it was an answer, and is still the text of that."""
        return self.was_answer() and digest_of(self.read()) == digest_of(self.bytes_of("was"))

    def bytes_of(self, name: str) -> bytes:
        """Gives one of its files: none where it isn't there."""
        return self.box.read(self.folder, str(self.number), name)


def digest_of(data: bytes) -> str:
    """Gives what a text is known by. Blanks at its end don't count: an editor may add or drop some."""
    return hashlib.sha256(data.rstrip()).hexdigest()


def begin(box: Box, about: About, text: bytes, is_begun: bool = True) -> Text:
    """Begins a draft. The text with which it begins is no answer, unless the caller wrote it already."""
    number = box.next_number()
    new = box.at("drafts", ".new")
    # Ctrl-C may have come while another one was begun.
    shutil.rmtree(new, ignore_errors=True)
    durable.make_folder(new)
    about = dataclasses.replace(about, begun=digest_of(text) if is_begun else "")
    durable.write_new(os.path.join(new, "about"), json.dumps(dataclasses.asdict(about)).encode())
    durable.write_new(os.path.join(new, "text"), text)
    durable.sync_folder(new)
    durable.replace(new, box.at("drafts", str(number)))
    return Text(box, "drafts", number, about)


def load(box: Box, folder: str, number: int) -> Text:
    """Reads a draft or an answer."""
    path = box.at(folder, str(number), "about")
    try:
        with open(path, encoding="utf-8") as file:
            return Text(box, folder, number, About(**json.load(file)))
    except (ValueError, TypeError) as error:
        raise Failure(f"{path} is damaged: {error}", FAILED) from error


def drafts(box: Box) -> "list[Text]":
    """Gives the texts that aren't answers yet."""
    return [load(box, "drafts", number) for number in box.numbers("drafts")]


def change_about(text: Text, **values: Any) -> Text:
    """Says anew what a draft is."""
    about = dataclasses.replace(text.about, **values)
    durable.write_whole(text.at("about"), json.dumps(dataclasses.asdict(about)).encode())
    return dataclasses.replace(text, about=about)


def keep(text: Text, data: bytes) -> Text:
    """Makes a draft an answer: of its text, and of its letter, which is there. It is one once this is done."""
    durable.write_whole(text.at("text"), data)
    return _move(text, "answers")


def to_draft(answer: Text) -> Text:
    """Makes an answer a draft again, so that it can be changed. Its text and its letter as they were stay beside it."""
    durable.write_whole(answer.at("was-letter"), answer.bytes_of("letter"))
    durable.write_whole(answer.at("was"), answer.read())
    return _move(answer, "drafts")


def restore(draft: Text) -> Text:
    """Makes a draft the answer that it was before it was changed."""
    durable.write_whole(draft.at("text"), draft.bytes_of("was"))
    durable.write_whole(draft.at("letter"), draft.bytes_of("was-letter"))
    return _move(draft, "answers")


def _move(text: Text, folder: str) -> Text:
    moved = dataclasses.replace(text, folder=folder)
    durable.replace(text.box.at(text.folder, str(text.number)), text.box.at(folder, str(text.number)))
    return moved


def drop(text: Text) -> None:
    """Drops a draft or an answer."""
    text.box.remove_folder(text.folder, str(text.number))
