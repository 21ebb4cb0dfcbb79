"""The reader by lines, for a call without a terminal: commands in, and what they say out. It asks no question."""

from __future__ import annotations

from typing import Callable, Optional

from . import reader_texts
from .failure import Failure, reason
from .reader_lines import PlainVoice
from .reader_listing import Entry
from .reader_opening import state_lines
from .reader_outbox import Archive
from .reader_session import Session
from .reader_texts import Text
from .reader_writing import Writing

KEYS = """\
N          shows message N            Enter      shows the next message
r N, r     answers message N          R N        answers it by a letter of its own
w AREA     writes a new letter        l, l AREA  lists the packet, or an area
a          lists the areas            /WORDS     lists what has these words
u          shows the first unread     news       shows what the board wrote
t          lists texts, answers and archives     s N  shows text or answer N
g N        goes on with text N        k N        keeps text N as an answer
e N        changes answer N           x N        drops text or answer N
for N M    says that text N answers message M    sent N  archive N was sent
back N     takes archive N back       net AREA   says that an area is of net mail, or isn't
h          says this                  q          ends"""


class Plain:
    """The commands by lines."""

    def __init__(self, session: Session, writing: Writing, voice: PlainVoice) -> None:
        self.session = session
        self.writing = writing
        self.voice = voice
        self.at = 0
        self.words: "dict[str, Callable[[str], None]]" = {
            "l": self.say_messages, "a": self.areas, "u": self.first_unread, "news": self.news, "t": self.texts,
            "h": self.help, "r": self.answer, "R": self.answer_apart, "w": self.write, "s": self.show_text,
            "g": self.go_on, "k": self.keep, "e": self.change, "x": self.drop, "for": self.assign,
            "sent": self.sent, "back": self.back, "net": self.net,
        }

    def run(self) -> None:
        """Carries out commands until the end."""
        for line in self.session.news():
            self.voice.say(line)
        for line in state_lines(self.session, self.writing):
            self.voice.say(line)
        self.say_lines(self.session.packet.listing)
        line = self._next()
        while line is not None and line != "q":
            self.obey(line)
            line = self._next()
        if line is None:
            self.voice.say("")

    def _next(self) -> Optional[str]:
        """Gives the next command. Ctrl-C begins the line anew."""
        while True:
            try:
                return self.voice.prompt(f"{self.session.box.board_id}> ")
            except KeyboardInterrupt:
                self.voice.say("")

    def obey(self, line: str) -> None:
        """Carries out a command. A fault of one doesn't end the others, and Ctrl-C ends it alone."""
        first, _, rest = line.partition(" ")
        try:
            if line == "":
                self.show(self.at + 1)
            elif line.isdigit() and len(line) < 9:
                self.show(int(line))
            elif line.startswith("/"):
                self.search(line[1:])
            else:
                self.words.get(first, self.help)(rest.strip())
        except KeyboardInterrupt:
            self.voice.say("")
        except Failure as error:
            self.voice.say(str(error))
        except OSError as error:
            self.voice.say(reason(error))

    def say_lines(self, lines: "list[bytes]") -> None:
        """Says lines of the program in the terminal's characters."""
        for line in lines:
            self.voice.say(line.decode(self.session.settings.characters, "replace"))

    def show(self, place: int) -> None:
        """Shows a message, and marks it as read."""
        entry = self.session.listing.entry(place)
        self.say_lines(self.session.read(place))
        if entry is not None:
            self.at = place
            self.session.marks.mark(entry.area, entry.number)

    def first_unread(self, rest: str) -> None:
        """Shows the first message that isn't read."""
        unread = self.session.unread(self.session.listing.entries)
        if unread:
            self.show(unread[0].place)
        else:
            self.voice.say("all messages are read")

    def say_messages(self, rest: str) -> None:
        """Lists the packet, or an area of it."""
        area = self.session.area_of(rest) if rest else None
        if not rest:
            self.say_lines(self.session.packet.listing)
        elif area is None:
            self._say_missing("area", rest, f"the packet has no area {rest}", "a")
        else:
            self.say_entries([it for it in self.session.listing.entries if it.area == area])

    def say_entries(self, entries: "list[Entry]") -> None:
        """Says the lines of some messages as the listing has them."""
        self.say_lines([self.session.packet.listing[it.place + 1] for it in entries])
        self.voice.say(f"{len(entries)} messages")

    def areas(self, rest: str) -> None:
        """Lists the areas with how many messages are there and unread."""
        found = self.session.listing.areas()
        for area in self.session.packet.control.areas:
            entries = found.get(area, [])
            unread = len(self.session.unread(entries))
            self.voice.say(f"{area} {self.session.area_name(area)}: {len(entries)} messages, {unread} unread")

    def search(self, words: str) -> None:
        """Lists what has some words."""
        self.say_entries(self.session.having(words, lambda place: None))

    def news(self, rest: str) -> None:
        """Says what the board wrote."""
        for line in self.session.old_news() or ["the board wrote nothing"]:
            self.voice.say(line)

    def texts(self, rest: str) -> None:
        """Lists texts, answers and archives."""
        for line in state_lines(self.session, self.writing) or ["no texts, no answers, no archives"]:
            self.voice.say(line)

    def help(self, rest: str) -> None:
        """Says the commands."""
        for line in KEYS.split("\n"):
            self.voice.say(line)

    def _entry(self, rest: str) -> Optional[Entry]:
        place = int(rest) if rest.isdigit() and len(rest) < 9 else self.at
        entry = self.session.listing.entry(place) if rest.isdigit() or not rest else None
        if entry is None:
            self._say_missing("message", rest, f"the packet has no message {rest}", "l")
        return entry

    def _say_missing(self, what: str, rest: str, missing: str, lister: str) -> None:
        """Says that nothing has that number or name, or that one is wanted, and which command lists them."""
        self.voice.say(f"{missing if rest else f'say which {what}'}: {lister} lists them")

    def answer(self, rest: str) -> None:
        """Answers a message."""
        entry = self._entry(rest)
        if entry is not None:
            self.writing.answer(entry)

    def answer_apart(self, rest: str) -> None:
        """Answers a message by a letter of its own."""
        entry = self._entry(rest)
        if entry is not None:
            self.writing.answer_apart(entry)

    def write(self, rest: str) -> None:
        """Writes a new letter."""
        area = self.session.area_of(rest)
        if area is None:
            self._say_missing("area", rest, f"the packet has no area {rest}", "a")
        else:
            self.writing.letter(area)

    def _found(self, rest: str, *groups: "list[Text]") -> Optional[Text]:
        for text in (it for group in groups for it in group):
            if str(text.number) == rest:
                return text
        self._say_missing("text", rest, f"there is no text {rest} for that", "t")
        return None

    def show_text(self, rest: str) -> None:
        """Shows a text or an answer."""
        text = self._found(rest, self.writing.drafts(), self.session.outbox.all_answers())
        for line in self.writing.lines_of(text) if text else ():
            self.voice.say(line)

    def go_on(self, rest: str) -> None:
        """Goes on with a text that isn't an answer yet."""
        text = self._found(rest, self.writing.drafts())
        if text:
            self.writing.finish(text)

    def keep(self, rest: str) -> None:
        """Keeps a text as an answer as it stands."""
        text = self._found(rest, self.writing.drafts())
        if text:
            self.writing.settle(text)

    def change(self, rest: str) -> None:
        """Lets the editor at an answer."""
        text = self._found(rest, self.session.outbox.kept())
        if text:
            self.writing.change(text)

    def drop(self, rest: str) -> None:
        """Drops a text or an answer."""
        text = self._found(rest, self.writing.drafts(), self.session.outbox.kept())
        if text:
            reader_texts.drop(text)
            self.voice.say(f"dropped {self.writing.describe(text)}")

    def assign(self, rest: str) -> None:
        """Says which message a text of an earlier reader answers."""
        number, _, place = rest.partition(" ")
        unknown = [it for it in self.writing.drafts() if it.about.kind == reader_texts.UNKNOWN]
        text = self._found(number, unknown)
        entry = self._entry(place) if text else None
        if text and entry:
            self.voice.say(f"text {self.writing.describe(self.writing.assign(text, entry))}")

    def _archive(self, rest: str) -> Optional[Archive]:
        for archive in self.session.outbox.lying():
            if rest.lstrip("0") == str(archive.number):
                return archive
        self._say_missing("archive", rest, f"no archive {rest} waits to be sent", "t")
        return None

    def sent(self, rest: str) -> None:
        """Takes an archive as sent."""
        archive = self._archive(rest)
        if archive:
            self.session.outbox.mark_sent(archive)
            self.voice.say(f"{archive.name} was sent")

    def back(self, rest: str) -> None:
        """Takes an archive back."""
        archive = self._archive(rest)
        if archive:
            self.writing.take_back(archive)

    def net(self, rest: str) -> None:
        """Turns round whether an area is one of net mail."""
        area = self.session.area_of(rest)
        if area is None:
            self._say_missing("area", rest, f"the packet has no area {rest}", "a")
            return
        self.session.say_net(area, not self.session.is_net(area))
        kind = "an" if self.session.is_net(area) else "no"
        self.voice.say(f"{self.session.area_name(area)} is {kind} area of net mail")
