"""How a caller answers, writes, changes and drops: each text goes to what it was begun for, and to nothing else."""

from __future__ import annotations

import dataclasses
import os
from typing import Optional

from . import program, reader_letters, reader_texts
from .reader_listing import Entry
from .reader_outbox import Archive
from .reader_quoting import address_line, quoted
from .reader_session import Session
from .reader_texts import About, Text
from .reader_voice import Voice

_KEEP, _EDIT, _DROP, _LEAVE, _UNDO = "k", "e", "x", "l", "u"
_WORDS = {_KEEP: "keep as an answer", _EDIT: "edit again", _DROP: "drop", _LEAVE: "leave it for later"}
_NO_LETTER = "no letter was begun"
_NO_REFERENCE = "a letter of its own has no reference, so it stays out of the thread"


class Writing:
    """What is done with texts in a session."""

    def __init__(self, session: Session, voice: Voice) -> None:
        self.session = session
        self.voice = voice
        self.box = session.box

    def drafts(self) -> "list[Text]":
        """Gives the texts that aren't answers yet."""
        return reader_texts.drafts(self.box)

    def answer(self, entry: Entry) -> None:
        """Answers a message: the subject, the area, whether it is private, and the reference stay."""
        begun = [it for it in self.drafts() if self._answers(it, entry)]
        if begun:
            self.voice.say(f"text {begun[-1].number} for this message was begun before")
            self.finish(begun[-1])
            return
        message = self.session.message(entry)
        address = self._address(entry.area, address_line(message))
        if address is not None:
            self._begin(About(
                reader_texts.REPLY, self.session.packet.packet_id, entry.place, entry.area, message.sender,
                message.subject, entry.is_private, address, "",
            ), quoted(message))

    def _answers(self, draft: Text, entry: Entry) -> bool:
        about = draft.about
        same = (about.packet, about.place) == (self.session.packet.packet_id, entry.place)
        return same and about.kind == reader_texts.REPLY

    def answer_apart(self, entry: Entry) -> None:
        """Answers a message by a letter of its own, with another subject, area or privacy."""
        if not self.voice.confirm(_NO_REFERENCE):
            return
        message = self.session.message(entry)
        subject = message.subject if message.subject.upper().startswith("RE:") else f"Re: {message.subject}"
        about = self._letter(message.sender, subject, entry.area, entry.is_private, address_line(message))
        if about is not None:
            self._begin(about, quoted(message))

    def letter(self, area: int) -> None:
        """Writes a new letter."""
        about = self._letter("", "", area, False, "")
        if about is not None:
            self._begin(about, "")

    def _letter(self, to: str, subject: str, area: int, private: bool, address: str) -> Optional[About]:
        """Asks for the header of a letter. None where the caller gives up."""
        name = self.session.area_name(area)
        given = self.voice.ask("Area", name)
        # Another area may have the same name, so the one that is proposed goes by its number.
        chosen = area if given == name else self.session.area_of(given or "")
        if chosen is None:
            missing = f"the packet has no area {given}, or several of that name: say its number"
            self.voice.say(_NO_LETTER if given is None else missing)
            return None
        to_given = self.voice.ask("To", to)
        subject_given = self.voice.ask("Subject", subject) if to_given else None
        if not to_given or subject_given is None:
            self.voice.say(_NO_LETTER)
            return None
        is_private = self.voice.ask("Private", "yes" if private else "no")
        line = self._address(chosen, address)
        if is_private is None or line is None:
            return None
        packet = self.session.packet.packet_id
        wants = is_private.lower().startswith("y")
        return About(reader_texts.LETTER, packet, 0, chosen, to_given, subject_given, wants, line, "")

    def _address(self, area: int, known: str) -> Optional[str]:
        """Gives the address line of net mail, and an empty one elsewhere. None where the caller gives up."""
        if not self.session.is_net(area):
            return ""
        line = self.voice.suggest("Address line of net mail, NAME@ZONE:NET/NODE", known)
        if line == "":
            self.voice.say("no address is known: write NAME@ZONE:NET/NODE as the first line of the text")
        return line

    def _begin(self, about: About, text: str) -> None:
        data = text.encode(self.session.editing, "replace")
        self.finish(reader_texts.begin(self.box, about, data))

    def finish(self, draft: Text) -> None:
        """Lets the editor at a draft until it is an answer, dropped, or left for later."""
        if not self._is_open(draft):
            return
        choice = _EDIT
        while choice == _EDIT:
            before = reader_texts.digest_of(draft.read())
            choice = self._after_editor(draft, self.voice.edit(draft.at("text")), before)
            if choice == _KEEP:
                choice = self.keep(draft)
        self._end(draft, choice)

    def _after_editor(self, draft: Text, status: int, before: str) -> str:
        """Says what to do with what the editor left."""
        after = reader_texts.digest_of(draft.read())
        if status != 0:
            end = f"with status {status}" if status > 0 else f"by signal {-status}"
            return self._ask(draft, f"the editor ended {end}, so text {draft.number} is no answer yet")
        if draft.read().strip() and after != before:
            return _KEEP
        if draft.has_recovery():
            return self._ask(draft, f"the editor left a file to recover text {draft.number}, which is no answer yet")
        if not draft.read().strip():
            self.voice.say("the text is empty, so it is no answer")
            return _DROP
        if draft.is_as_it_was():
            self.voice.say("the text wasn't changed, so the answer stays as it was")
            return _UNDO
        if draft.is_as_begun():
            self.voice.say("the text wasn't changed, so it is no answer")
            return _DROP
        return self._ask(draft, f"the text wasn't changed, so text {draft.number} is no answer yet")

    def _ask(self, draft: Text, question: str) -> str:
        words = {**_WORDS, _UNDO: "put it back as it was"} if draft.was_answer() else _WORDS
        return self.voice.choose(question, words, _LEAVE)

    def _end(self, draft: Text, choice: str) -> None:
        if choice == _DROP:
            reader_texts.drop(draft)
        elif choice == _UNDO:
            reader_texts.restore(draft)
        elif choice == _LEAVE:
            self.voice.say(f"text {draft.number} is left for later")

    def keep(self, draft: Text) -> str:
        """Makes a draft an answer. Gives what to do with one that can't be, and nothing where it is one now."""
        if not self._is_open(draft):
            return _LEAVE
        data = draft.read()
        lines = reader_letters.typed_lines(data, self.session.editing)
        heads = [draft.about.address] if draft.about.kind == reader_texts.REPLY else [
            draft.about.to, draft.about.subject, draft.about.address
        ]
        characters = self.session.settings.characters
        found = {**reader_letters.unwritable_in(heads, characters), **reader_letters.unwritable_in(lines, characters)}
        if found:
            words = {_EDIT: "edit", _KEEP: "keep with ? for them", _LEAVE: "leave it for later"}
            names = reader_letters.names_of(found)
            choice = self.voice.choose(f"the packet's characters ({characters}) lack {names}", words, _LEAVE)
            if choice != _KEEP:
                return choice
        letter = reader_letters.letter_of(draft, lines, characters)
        answer, reply = reader_letters.keep(draft, data, letter, self.session.door)
        if reply.status != program.DONE:
            return self._ask(draft, f"{reply.last}: text {draft.number} is no answer yet")
        self.voice.say(f"kept answer {answer.number} to {answer.about.to}: {answer.about.subject}")
        return ""

    def settle(self, draft: Text) -> None:
        """Keeps a draft as it stands, where it can be an answer."""
        choice = self.keep(draft)
        if choice == _EDIT:
            self.finish(draft)
        else:
            self._end(draft, choice)

    def _is_open(self, draft: Text) -> bool:
        """Whether a text says what it answers, and that is there."""
        if draft.about.kind == reader_texts.UNKNOWN:
            self.voice.say(f"text {draft.number} doesn't say which message it answers: say that first")
            return False
        if not os.path.isdir(self.box.at("packets", draft.about.packet)):
            self.voice.say(f"the packet that text {draft.number} answers isn't kept any more")
            return False
        return True

    def assign(self, draft: Text, entry: Entry) -> Text:
        """Says which message a text answers that doesn't say it."""
        message = self.session.message(entry)
        return reader_texts.change_about(
            draft, kind=reader_texts.REPLY, packet=self.session.packet.packet_id, place=entry.place, area=entry.area,
            to=message.sender, subject=message.subject, private=entry.is_private,
        )

    def change(self, answer: Text) -> None:
        """Lets the editor at an answer."""
        self.finish(reader_texts.to_draft(answer))

    def take_back(self, archive: Archive) -> None:
        """Takes an archive back, so that its answers can be changed."""
        question = f"{archive.name} may have been sent: its answers may come twice if it is taken back"
        choices = {"y": "take it back", "n": "leave it"}
        if archive.may_be_sent and self.voice.choose(question, choices, "n") == "n":
            return
        self.session.outbox.take_back(archive)
        self.voice.say(f"{archive.name} was taken back, and its answers may be changed")

    def describe(self, text: Text) -> str:
        """Says in a line what a text answers."""
        about = text.about
        if about.kind == reader_texts.UNKNOWN:
            return f"{text.number} from an earlier reader, which didn't note what it answers"
        what = "answers" if about.kind == reader_texts.REPLY else "new letter"
        private = ", private" if about.private else ""
        return f"{text.number} to {about.to}: {about.subject} ({what}, {self.session.area_name(about.area)}{private})"

    def describe_archive(self, archive: Archive) -> "list[str]":
        """Says what is in an archive."""
        answers = self.session.outbox.answers_of(archive)
        count = f"{len(answers)} answer{'' if len(answers) == 1 else 's'}"
        count = count if answers else "answers from an earlier reader"
        sent = ", and it may have been sent" if archive.may_be_sent else ""
        return [f"{archive.name}: {count}{sent}", *(f"  {self.describe(it)}" for it in answers)]

    def lines_of(self, text: Text) -> "list[str]":
        """Gives a text with its header, to be looked at."""
        about = dataclasses.asdict(text.about)
        heads = [f"{name.capitalize() + ':':<9}{about[name]}" for name in ("to", "subject", "address") if about[name]]
        lines = reader_letters.typed_lines(text.read(), self.session.editing)
        return [*heads, f"Private: {'yes' if text.about.private else 'no'}", "", *lines]
