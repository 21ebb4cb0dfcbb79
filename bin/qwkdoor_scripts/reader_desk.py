"""The screen of what the caller wrote: texts that aren't answers yet, answers, and archives."""

from __future__ import annotations

from typing import Union

from . import reader_texts
from .reader_face import BACK, Face
from .reader_outbox import Archive
from .reader_session import Session
from .reader_texts import Text
from .reader_writing import Writing

_HINT = "Enter show  e edit  k keep  x drop  y was sent  b take back  h help  q back"
_HELP = """\
Texts that aren't answers yet, answers, archives that aren't sent, and answers
that are in an archive.

Enter  shows it
e      edits a text or an answer
k      keeps a text as an answer as it stands
x      drops a text or an answer
a      says which message a text of an earlier reader answers
y      says that an archive was sent
b      takes an archive back, so that its answers can be changed
h      says this
q      goes back

Answers are packed when the reader ends. An archive never changes once it is
there."""
_ARCHIVE = {
    "y": "yes, it was sent",
    "n": "not yet: it stays where it is",
    "b": "no: take it back, so that its answers can be changed",
}
_DRAFT = {"e": "go on with it", "x": "drop it", "l": "leave it for later"}
_UNKNOWN = {"a": "say which message it answers", "x": "drop it", "l": "leave it for later"}

Item = Union[Text, Archive]


class Desk:
    """What the caller wrote, and what is done with it."""

    def __init__(self, session: Session, writing: Writing, face: Face) -> None:
        self.session = session
        self.writing = writing
        self.face = face
        self.outbox = session.outbox

    def ask_for_archives(self) -> None:
        """Asks of each archive that still lies there whether it was sent."""
        for archive in self.outbox.lying():
            for line in self.writing.describe_archive(archive):
                self.face.say(line)
            self.face.say("")
            path = self.outbox.path_of(archive)
            choices = _ARCHIVE if archive.answers else {it: _ARCHIVE[it] for it in "yn"}
            self._settle(self.face.choose(f"It lies in {path}. Was it sent?", choices, "n"), archive)

    def _settle(self, key: str, archive: Archive) -> None:
        if key == "y":
            self.outbox.mark_sent(archive)
        elif key == "b":
            self.writing.take_back(archive)

    def ask_for_drafts(self) -> None:
        """Asks of each text that isn't an answer yet what is to be done with it."""
        for draft in self.writing.drafts():
            is_unknown = draft.about.kind == reader_texts.UNKNOWN
            question = f"Text {self.writing.describe(draft)} isn't an answer yet."
            key = self.face.choose(question, _UNKNOWN if is_unknown else _DRAFT, "l")
            if key != "l":
                self._on_draft(key, draft)

    def _items(self) -> "list[tuple[str, Item]]":
        kept = self.outbox.kept()
        numbers = {it.number for it in kept}
        others = [it for it in self.outbox.all_answers() if it.number not in numbers]
        unsent = {it for archive in self.outbox.archives() if archive.is_put_out for it in archive.answers}
        return [
            *((f"text      {self.writing.describe(it)}", it) for it in self.writing.drafts()),
            *((f"answer    {self.writing.describe(it)}", it) for it in kept),
            *((f"archive   {self.writing.describe_archive(it)[0]}", it) for it in self.outbox.lying()),
            *((f"packed    {self.writing.describe(it)}", it) for it in others if it.number in unsent),
            *((f"sent      {self.writing.describe(it)}", it) for it in reversed(others) if it.number not in unsent),
        ]

    def run(self) -> None:
        """The screen, until the caller goes back."""
        at = 0
        while True:
            items = self._items()
            rows = [f"  {row}" for row, _ in items] or ["  nothing was written"]
            key, at = self.face.pick("Texts, answers and archives", rows, min(at, len(rows) - 1), _HINT)
            if key in BACK:
                return
            if key == "h":
                self.face.page(_HELP.split("\n"), "any key goes back")
            elif items:
                self._on_item(key, items[at][1])

    def _on_item(self, key: str, item: Item) -> None:
        if isinstance(item, Archive):
            self._on_archive(key, item)
        elif key == "enter":
            self.face.page(self.writing.lines_of(item), "any key goes back")
        elif item.folder == "drafts":
            self._on_draft(key, item)
        elif item.number in {it.number for it in self.outbox.kept()}:
            self._on_answer(key, item)
        else:
            self.face.say("it is in an archive: press b on that to take it back, unless it was sent")

    def _on_archive(self, key: str, archive: Archive) -> None:
        if key == "enter":
            self.face.page(self.writing.describe_archive(archive), "any key goes back")
        elif key == "y" or (key == "b" and archive.answers):
            self._settle(key, archive)

    def _on_draft(self, key: str, draft: Text) -> None:
        if key == "e":
            self.writing.finish(draft)
        elif key == "k":
            self.writing.settle(draft)
        elif key == "a":
            self._assign(draft)
        elif key == "x":
            self._drop(draft)

    def _on_answer(self, key: str, answer: Text) -> None:
        if key == "e":
            self.writing.change(answer)
        elif key == "x":
            self._drop(answer)

    def _drop(self, text: Text) -> None:
        question = f"Drop {self.writing.describe(text)}?"
        if self.face.choose(question, {"y": "drop it", "n": "leave it"}, "n") == "y":
            reader_texts.drop(text)

    def _assign(self, draft: Text) -> None:
        if draft.about.kind != reader_texts.UNKNOWN:
            return
        self.face.page(self.writing.lines_of(draft), "any key goes on")
        words = self.face.ask("It answers the message in place")
        entry = self.session.listing.entry(int(words)) if words and words.isdigit() else None
        if entry is None:
            self.face.say("the packet has no such message")
            return
        self.writing.finish(self.writing.assign(draft, entry))
