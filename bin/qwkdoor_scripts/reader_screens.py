"""The screens of areas and of messages in a list, and what a packet's opening asks."""

from __future__ import annotations

from .failure import Failure, reason
from .reader_columns import padded
from .reader_desk import Desk
from .reader_face import BACK, Face
from .reader_listing import Entry, list_line
from .reader_session import Session
from .reader_view import View
from .reader_writing import Writing

_AREAS_HINT = "Enter open  u first unread  w write  / search  t texts  h help  q end"
_LIST_HINT = "Enter show  u first unread  r answer  w write  / search  h help  q back"
_AREAS_HELP = """\
The areas of the packet: how many messages are there, and how many of them are
unread. The first are letters to you.

Enter  opens an area (Up and Down choose it)
u      shows the first unread message, of letters to you before others
w      writes a new letter
/      searches names, subjects and texts
t      texts that aren't answers yet, answers, and archives
v      what the board wrote to you, as why it refused a letter
m      says that an area is one of net mail, or isn't
c      marks all messages of the area as read
h      says this
q      ends, and packs the answers
Ctrl-C comes back to this screen from any other"""
_LIST_HELP = """\
Messages: * is unread, P private, - killed.

Enter  shows a message (Up and Down choose it)
u      shows the first unread one
r      answers it: subject, area, privacy and the reference stay
R      answers it by a letter of its own, as with another subject or area
w      writes a new letter
/      searches names, subjects and texts
m      marks it as unread, or as read
h      says this
q      goes back"""


class Screens:
    """A packet on a terminal."""

    def __init__(self, session: Session, writing: Writing, face: Face) -> None:
        self.session = session
        self.writing = writing
        self.face = face
        self.view = View(session, writing, face)
        self.desk = Desk(session, writing, face)

    def run(self) -> None:
        """Reads the packet until the caller ends. Ctrl-C comes back to the areas."""
        is_open = False
        while True:
            try:
                if not is_open:
                    is_open = True
                    self._open()
                self.areas()
                return
            except KeyboardInterrupt:
                continue
            except Failure as error:
                self.face.say(str(error))
            except OSError as error:
                self.face.say(reason(error))

    def _open(self) -> None:
        """Shows what the board wrote, and asks what is to be done with what an earlier run left."""
        news = self.session.news()
        if news:
            self.face.page([f"From the board {self.session.listing.board}:", "", *news], "any key goes on")
        self.desk.ask_for_archives()
        self.desk.ask_for_drafts()

    def _groups(self) -> "list[tuple[str, int, list[Entry]]]":
        """Gives the areas with a name, their number, and their messages: first the letters to the caller."""
        listing = self.session.listing
        found = listing.areas()
        areas = sorted({*found, *self.session.packet.control.areas})
        groups = [(self.session.area_name(it), it, found.get(it, [])) for it in areas]
        first = groups[0][1] if groups else 0
        return [("Letters to you", first, listing.personal()), *groups]

    def _row(self, name: str, area: int, entries: "list[Entry]") -> str:
        columns = self.face.terminal.size()[0]
        net = " (net mail)" if self.session.is_net(area) and name == self.session.area_name(area) else ""
        room = max(columns - 20, 8)
        return f"  {padded(name + net, room)}{len(entries):>6}{len(self.session.unread(entries)):>8}"

    def areas(self) -> None:
        """The screen of the areas."""
        at = self._first_group()
        while True:
            groups = self._groups()
            listing = self.session.listing
            title = f"{listing.board}, {listing.user}: {len(listing.entries)} messages"
            columns = self.face.terminal.size()[0]
            rows = [self._row(*it) for it in groups]
            head = padded(title, max(columns - 18, 8)) + "  here  unread"
            key, at = self.face.pick(head, rows, at, _AREAS_HINT)
            if key == "q":
                return
            self._on_areas(key, *groups[at])

    def _first_group(self) -> int:
        """Gives the first area with a message that isn't read, else the first with a message."""
        groups = self._groups()
        unread = [place for place, it in enumerate(groups) if self.session.unread(it[2])]
        filled = [place for place, it in enumerate(groups) if it[2]]
        return [*unread, *filled, 0][0]

    def _on_areas(self, key: str, name: str, area: int, entries: "list[Entry]") -> None:
        if key in ("enter", "right"):
            self.messages(name, entries, area)
        elif key == "u":
            self._first_unread()
        elif key == "m":
            self.session.say_net(area, not self.session.is_net(area))
        elif key == "c":
            self.session.marks.mark_all([(it.area, it.number) for it in entries])
        elif key == "v":
            self.face.page(self.session.old_news() or ["The board wrote nothing."], "any key goes back")
        elif key == "t":
            self.desk.run()
        elif key == "h":
            self.face.page(_AREAS_HELP.split("\n"), "any key goes back")
        else:
            self._on_any(key, area)

    def _on_any(self, key: str, area: int) -> None:
        if key == "w":
            self.writing.letter(area)
        elif key == "/":
            self.search(area)

    def _first_unread(self) -> None:
        listing = self.session.listing
        for entries in (listing.personal(), listing.entries):
            unread = self.session.unread(entries)
            if unread:
                self.view.run(entries, entries.index(unread[0]))
                return
        self.face.say("all messages are read")

    def search(self, area: int) -> None:
        """Asks for words, and lists what has them. Ctrl-C stops it."""
        words = self.face.ask("Search for")
        if not words:
            return
        found = self.session.having(words, self._say_progress)
        if found:
            self.messages(f"'{words}'", found, area)
        else:
            self.face.say(f"nothing has '{words}'")

    def _say_progress(self, place: int) -> None:
        total = len(self.session.listing.entries)
        self.face.terminal.draw([], f"text {place} of {total}; Ctrl-C stops")

    def messages(self, name: str, entries: "list[Entry]", area: int) -> None:
        """The screen of the messages of an area, or of those that a search found."""
        unread = self.session.unread(entries)
        at = entries.index(unread[0]) if unread else 0
        while True:
            columns = self.face.terminal.size()[0]
            rows = [list_line(it, self.session.is_read(it), columns - 1) for it in entries]
            key, at = self.face.pick(f"{name}: {len(entries)} messages", rows, at, _LIST_HINT)
            if key in BACK:
                return
            at = self._on_list(key, entries, at, area)

    def _on_list(self, key: str, entries: "list[Entry]", at: int, area: int) -> int:
        """Carries out a key of the list, and gives the row after it."""
        if key == "h":
            self.face.page(_LIST_HELP.split("\n"), "any key goes back")
        elif key in ("w", "/"):
            self._on_any(key, area)
        elif entries and key in ("enter", "right"):
            return self.view.run(entries, at)
        elif entries and key == "u":
            unread = self.session.unread(entries)
            return self.view.run(entries, entries.index(unread[0])) if unread else at
        elif entries:
            self._on_entry(key, entries[at])
        return at

    def _on_entry(self, key: str, entry: Entry) -> None:
        if key == "r":
            self.writing.answer(entry)
        elif key == "R":
            self.writing.answer_apart(entry)
        elif key == "m" and self.session.is_read(entry):
            self.session.marks.unmark(entry.area, entry.number)
        elif key == "m":
            self.session.marks.mark(entry.area, entry.number)
