"""Archives of answers: each is made once, put out under a name of its own, and never changed.

The states of an archive, and the step between them, stand at the head of reader_state.
"""

from __future__ import annotations

import hashlib
import json
import os
import re
from dataclasses import dataclass
from typing import Callable, Optional

from . import archives, durable, program, reader_texts
from .failure import FAILED, Failure
from .reader_state import Box
from .reader_texts import Text

_STATES = ("list", "ready", "going", "sent", "back")
_PUT_OUT = ("ready", "going")
_UNSAFE = re.compile(r'[/\\:*?"<>|]')


@dataclass(frozen=True)
class Archive:
    """An archive: its number, its state, the name under which it is put out, and the numbers of its answers."""

    number: int
    state: str
    name: str
    answers: "tuple[int, ...]"
    digest: str

    @property
    def is_put_out(self) -> bool:
        """Whether it is one that is to be sent, or was taken away."""
        return self.state in _PUT_OUT

    @property
    def may_be_sent(self) -> bool:
        """Whether the reader began to send it, and doesn't know what came of it."""
        return self.state == "going"


class Outbox:
    """The archives of a board's folder."""

    def __init__(self, box: Box, door: program.Program, one_name: bool) -> None:
        self.box = box
        self.door = door
        self.one_name = one_name

    def archives(self) -> "list[Archive]":
        """Gives all archives, by their numbers."""
        found = []
        for file in os.listdir(self.box.at("archives")):
            number, _, state = file.partition(".")
            if number.isdigit() and state in _STATES:
                found.append(self._load(int(number), state))
        return sorted(found, key=lambda it: it.number)

    def _load(self, number: int, state: str) -> Archive:
        path = self._at(number, state)
        try:
            with open(path, encoding="utf-8") as file:
                values = json.load(file)
            return Archive(number, state, values["name"], tuple(values["answers"]), values["digest"])
        except (ValueError, KeyError, TypeError) as error:
            raise Failure(f"{path} is damaged: {error}", FAILED) from error

    def _at(self, number: int, ending: str) -> str:
        return self.box.at("archives", f"{number:04}.{ending}")

    def _bound(self) -> "set[int]":
        return {it for archive in self.archives() if archive.state != "back" for it in archive.answers}

    def kept(self) -> "list[Text]":
        """Gives the answers that are in no archive: those that may be changed and dropped."""
        bound = self._bound()
        return [reader_texts.load(self.box, "answers", it) for it in self.box.numbers("answers") if it not in bound]

    def answers_of(self, archive: Archive) -> "list[Text]":
        """Gives the answers in an archive. That of an older reader names none."""
        return [reader_texts.load(self.box, "answers", it) for it in archive.answers]

    def all_answers(self) -> "list[Text]":
        """Gives all answers, those that were sent too."""
        return [reader_texts.load(self.box, "answers", it) for it in self.box.numbers("answers")]

    def unsent_answers(self) -> "list[Text]":
        """Gives the answers that the program may have to write once more."""
        sent = {it for archive in self.archives() if archive.state == "sent" for it in archive.answers}
        return [reader_texts.load(self.box, "answers", it) for it in self.box.numbers("answers") if it not in sent]

    def path_of(self, archive: Archive) -> str:
        """Gives where an archive lies that was put out."""
        return self.box.at(archive.name)

    def lying(self) -> "list[Archive]":
        """Gives the archives that are put out and weren't taken away."""
        return [it for it in self.archives() if it.is_put_out and self._lies(it)]

    def _lies(self, archive: Archive) -> bool:
        return os.path.lexists(self.path_of(archive)) and not self._is_held(archive)

    def _is_held(self, archive: Archive) -> bool:
        return os.path.lexists(self._at(archive.number, "zip"))

    def go_on(self) -> "list[Archive]":
        """Takes each archive to where its last run would have. Gives those that were taken away since."""
        gone = []
        for archive in self.archives():
            held = self._is_held(archive)
            if archive.state == "list":
                self._put_out(self._make(archive, self._write_again(archive)))
            elif archive.is_put_out and held:
                self._put_out(archive)
            elif archive.is_put_out and not self._lies(archive):
                gone.append(self._change(archive, "sent"))
            elif held:
                self._lay_aside(archive)
        return gone

    def _change(self, archive: Archive, state: str) -> Archive:
        durable.replace(self._at(archive.number, archive.state), self._at(archive.number, state))
        return self._load(archive.number, state)

    def pack(self, say: Callable[[str], None]) -> None:
        """Makes archives of the kept answers and puts them out. One that the program refuses stays, and is named."""
        self.go_on()
        faults: "list[str]" = []
        answers = self._write(self.kept(), faults.append)
        while answers:
            data = self._msg()
            self._put_out(self._make(self._choose([it.number for it in answers], data), data))
            faults.clear()
            answers = self._write(self.kept(), faults.append)
        for fault in faults:
            say(fault)

    def _write(self, answers: "list[Text]", say: Callable[[str], None]) -> "list[Text]":
        """Has the program write a fresh reply packet of these answers, and gives those that are in it."""
        durable.remove(self.box.at("work", "answers.msg"))
        written: "list[Text]" = []
        for answer in answers:
            reply = write_answer(self.door, answer, "work/answers.msg")
            if reply.status == program.DONE:
                written.append(answer)
            elif written and reply.last.startswith("refused toolarge work/"):
                return written
            else:
                say(f"answer {answer.number} isn't packed: {reply.last}")
        return written

    def _next(self) -> int:
        return max((it.number for it in self.archives()), default=0) + 1

    def _choose(self, answers: "list[int]", data: bytes) -> Archive:
        """Says on the disk which answers are in the next archive. From here on they are in no other."""
        number = self._next()
        values = {
            "name": self._name(number),
            "answers": answers,
            "digest": hashlib.sha256(data).hexdigest(),
        }
        durable.write_whole(self._at(number, "list"), json.dumps(values).encode())
        return self._load(number, "list")

    def _name(self, number: int) -> str:
        return f"{self.box.name}.REP" if self.one_name else f"{self.box.name}-{number:04}.REP"

    def _msg(self) -> bytes:
        return self.box.read("work", "answers.msg")

    def _write_again(self, archive: Archive) -> bytes:
        """Writes the packet of an archive that a killed run was making. Nobody has seen the one before."""
        if not archive.answers:
            return self.box.read("archives", f"{archive.number:04}.msg")
        faults: "list[str]" = []
        answers = self.answers_of(archive)
        if self._write(answers, faults.append) != answers:
            raise Failure(f"{archive.name} can't be made again: {'; '.join(faults)}", FAILED)
        return self._msg()

    def _make(self, archive: Archive, data: bytes) -> Archive:
        new = self._at(archive.number, "zip.new")
        durable.remove(new)
        archives.write(new, {f"{_UNSAFE.sub('_', self.box.board_id)}.MSG": data})
        durable.replace(new, self._at(archive.number, "zip"))
        ready = self._change(archive, "ready")
        durable.remove(self._at(archive.number, "msg"))
        return ready

    def _put_out(self, archive: Archive) -> None:
        """Puts an archive where the caller takes it. Where another of its name lies there, it waits."""
        if not os.path.lexists(self.path_of(archive)):
            durable.replace(self._at(archive.number, "zip"), self.path_of(archive))

    def begin_to_send(self, archive: Archive) -> Archive:
        """Says on the disk that an archive may be sent from here on, whatever becomes of the run."""
        return archive if archive.may_be_sent else self._change(archive, "going")

    def stay(self, archive: Archive) -> None:
        """Says that an archive, which was to be sent, wasn't."""
        self._change(archive, "ready")

    def mark_sent(self, archive: Archive) -> None:
        """Takes an archive as sent. One that still lies there is laid aside."""
        self._hold(archive)
        self._change(archive, "sent")
        self.go_on()

    def take_back(self, archive: Archive) -> None:
        """Takes an archive back, so that its answers can be changed. Its number is used all the same."""
        if not archive.answers:
            raise Failure(f"{archive.name} is from an earlier reader, and can't be taken apart", FAILED)
        if not self._hold(archive):
            raise Failure(f"{archive.name} was taken away meanwhile, so it counts as sent", FAILED)
        self._change(archive, "back")
        self.go_on()

    def _hold(self, archive: Archive) -> bool:
        """Moves an archive from where it lies. A run that is killed then finds it as one that is to be put out."""
        if not self._lies(archive):
            return False
        durable.replace(self.path_of(archive), self._at(archive.number, "zip"))
        return True

    def _lay_aside(self, archive: Archive) -> None:
        """Keeps the bytes of an archive that was sent. Those of one that was taken back go."""
        held = self._at(archive.number, "zip")
        if archive.state == "sent":
            durable.replace(held, self.box.at("sent", f"{archive.number:04}-{archive.name}"))
        else:
            os.unlink(held)

    def take_over(self, data: bytes) -> Optional[str]:
        """Puts out the reply packet of an older reader, once. Gives the archive's name."""
        digest = hashlib.sha256(data).hexdigest()
        if any(it.digest == digest for it in self.archives()):
            return None
        durable.write_whole(self._at(self._next(), "msg"), data)
        archive = self._choose([], data)
        self._put_out(self._make(archive, data))
        return archive.name


def write_answer(door: program.Program, answer: Text, rep: str) -> program.Reply:
    """Has the program add an answer to a reply packet. Failure where it met a fault."""
    about = answer.about
    packet = f"packets/{about.packet}"
    if about.kind == reader_texts.REPLY:
        reply = door.run("reply", packet, str(about.place), answer.shelf_name("letter"), rep)
    else:
        reply = door.run("compose", packet, str(about.area), answer.shelf_name("letter"), rep)
    if reply.status > program.REFUSED:
        raise Failure(f"the program ended with status {reply.status}: {reply.fault}", reply.status)
    return reply
