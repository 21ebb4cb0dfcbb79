"""The screen of a message."""

from __future__ import annotations

from .reader_face import BACK, Face
from .reader_listing import Entry
from .reader_message import Message, header, text_lines, view
from .reader_session import Session
from .reader_writing import Writing

_HINT = "p previous  n next  r answer  R apart  h help  q list"
_HELP = """\
Enter  shows more, and then the next message (so does Space)
b      shows what was before (so does Page Up; Up and Down move by a line)
n, p   next message, previous message
u      next message that isn't read
r      answers it: subject, area, privacy and the reference stay
R      answers it by a letter of its own, as with another subject or area
w      writes a new letter in this area
m      marks it as unread
k      shows the lines for programs too, or hides them
h      says this
q      goes back to the list"""


class View:
    """Messages, one after the other."""

    def __init__(self, session: Session, writing: Writing, face: Face) -> None:
        self.session = session
        self.writing = writing
        self.face = face
        self.with_control = False
        self.top = 0

    def run(self, entries: "list[Entry]", at: int) -> int:
        """Shows a message and those after it. Gives the place of the one that was shown last."""
        while True:
            entry = entries[at]
            message = self.session.message(entry)
            self.session.marks.mark(entry.area, entry.number)
            self.top = 0
            step = self._show(entry, message, f"{at + 1} of {len(entries)}")
            if step == 0:
                return at
            if step == 2:
                at = self._next_unread(entries, at)
            elif 0 <= at + step < len(entries):
                at += step
            else:
                self.face.say("this is the last message" if step > 0 else "this is the first message")

    def _next_unread(self, entries: "list[Entry]", at: int) -> int:
        for place in [*range(at + 1, len(entries)), *range(at)]:
            if not self.session.is_read(entries[place]):
                return place
        self.face.say("all messages of this list are read")
        return at

    def _lines(self, entry: Entry, message: Message) -> "list[str]":
        columns = self.face.terminal.size()[0]
        area = self.session.area_name(entry.area)
        text = message.lines if self.with_control else text_lines(message.lines)
        heads = [it for line in header(message, area, entry.is_private) for it in view([line], columns - 1, True)]
        return [*heads, "", *view(text, columns - 1, self.session.settings.wrap_pictures)]

    def _show(self, entry: Entry, message: Message, place: str) -> int:
        """Shows a message until a key leaves it.

        Gives 1 where the next one comes, -1 the previous, 2 one that isn't read, and 0 where the caller goes back.
        """
        lines: "list[str]" = []
        shape = None
        while True:
            if shape != (self.face.terminal.size(), self.with_control):
                shape = (self.face.terminal.size(), self.with_control)
                lines = self._lines(entry, message)
            room = self.face.terminal.size()[1] - 1
            self.top = max(min(self.top, len(lines) - room), 0)
            is_end = self.top + room >= len(lines)
            hint = f"{place}  Enter {'on' if is_end else 'more'}  {_HINT}"
            key = self.face.draw(lines[self.top : self.top + room], hint)
            if key in ("enter", " ", "page down") and not is_end:
                self.top += room - 1
            elif key in BACK:
                return 0
            elif key in _STEPS:
                return _STEPS[key]
            else:
                self._on_key(key, entry, room)

    def _on_key(self, key: str, entry: Entry, room: int) -> None:
        moves = {"b": -room + 1, "page up": -room + 1, "down": 1, "up": -1, "home": -self.top, "end": 1 << 30}
        if key in moves:
            self.top += moves[key]
        elif key == "k":
            self.with_control = not self.with_control
        elif key == "h":
            self.face.page(_HELP.split("\n"), "any key goes back")
        elif key == "m":
            self.session.marks.unmark(entry.area, entry.number)
            self.face.say("marked as unread")
        elif key == "r":
            self.writing.answer(entry)
        elif key == "R":
            self.writing.answer_apart(entry)
        elif key == "w":
            self.writing.letter(entry.area)


_STEPS = {"enter": 1, " ": 1, "n": 1, "right": 1, "p": -1, "u": 2}
