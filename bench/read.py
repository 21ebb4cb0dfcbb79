#!/usr/bin/env python3
"""Kills runs of bin/qwkdoor-read, and looks at what was sent.

Each run answers two messages, and perhaps changes an answer, takes an archive back, or sends what lies there. It is
killed with all that it started (SIGKILL): a third of the runs after a random time, a third in the editor, before or
after it wrote, and a third before a rename, a link, a removal, a new folder or a sync, whichever comes at a random
place. After some runs the archives are taken away, as ones that are sent. In the end:

- each answer that was said to be kept was sent once, to the message that it answers;
- no text was sent twice, and none to a message that it doesn't quote;
- an archive that lay there never changed, and what was sent under its name has its bytes;
- nothing half-made is left in the reader's folders. Where the archives go, a copy that was cut off has a name with a
  dot in front, and stays where its archive is taken there by hand.

usage: bench/read.py KILLS. QWKDOOR names the program.
"""

from __future__ import annotations

import os
import random
import re
import signal
import subprocess
import sys
import tempfile
import time
import zipfile

TOP = os.path.dirname(os.path.dirname(os.path.abspath(__file__)))
READER = os.path.join(TOP, "bin", "qwkdoor-read")
SENDERS = ("BOB RAY", "CY DAY", "DEE FAR")
KEPT = re.compile(r"kept answer (\d+) to ([A-Z ]+): ")
EDITOR = """#!/bin/sh
[ "$KILL" != before ] || kill -KILL 0
n=$(($(cat "$COUNT") + 1))
echo "$n" >"$COUNT.new" && mv "$COUNT.new" "$COUNT"
echo "Answer $n." >>"$1"
[ "$KILL" != after ] || kill -KILL 0
"""
# Python imports it before the reader. It ends the group of the reader before the call of a number.
CALLS = """
import os, signal

left = int(os.environ.get("STOP", "0"))

def stopping(call):
    def stop(*words, **named):
        global left
        left -= 1
        if left == 0:
            os.killpg(0, signal.SIGKILL)
        return call(*words, **named)
    return stop

for name in ("replace", "link", "unlink", "mkdir", "fsync"):
    setattr(os, name, stopping(getattr(os, name)))
"""
MOST_CALLS = 100
WAYS = ("at random", "in the editor", "before a call")


def message(place: int) -> bytes:
    """Gives a message of a packet: its header, and one block of text."""
    sender = SENDERS[place - 1].encode().ljust(25)
    number = str(place).encode().ljust(7)
    head = b" " + number + b"09-09-0101:46" + b"ALL".ljust(25) + sender + b"Note".ljust(25) + b" " * 20
    return head + b"2     \xe1\x00\x00" + bytes([place, 0]) + b" " + f"Message {place}\xe3".encode("latin-1").ljust(128)


def write_packet(path: str) -> None:
    """Writes a packet of three messages."""
    lines = ["Board", "", "", "Sysop", "1,TESTBBS", "09-09-2001,01:46:40", "ANN LEE", "", "0", "3", "0", "0", "GENERAL"]
    with zipfile.ZipFile(path, "w") as archive:
        archive.writestr("CONTROL.DAT", "".join(f"{line}\r\n" for line in lines))
        archive.writestr("MESSAGES.DAT", b" " * 128 + b"".join(message(place) for place in (1, 2, 3)))


def letters(path: str) -> "list[tuple[str, str]]":
    """Gives the letters of an archive: to whom, and the text."""
    with zipfile.ZipFile(path) as archive:
        data = archive.read("TESTBBS.MSG")
    found = []
    at = 128
    while at < len(data):
        size = 128 * int(data[at + 116 : at + 122])
        text = data[at + 128 : at + size].decode("latin-1").replace("\xe3", "\n")
        found.append((data[at + 21 : at + 46].decode().rstrip(), text))
        at += size
    return found


class Trial:
    """Runs that are killed, in a folder."""

    def __init__(self, home: str) -> None:
        self.home = home
        self.packet = os.path.join(home, "packet.QWK")
        self.box = os.path.join(home, "data", "TESTBBS")
        self.got = os.path.join(home, "got")
        self.wrong: "list[str]" = []
        self.said: "dict[str, str]" = {}
        self.lay: "dict[str, bytes]" = {}
        self.kills = dict.fromkeys(WAYS, 0)
        os.mkdir(self.got)
        write_packet(self.packet)
        for name, text in (("editor", EDITOR), ("count", "0"), ("sitecustomize.py", CALLS)):
            with open(os.path.join(home, name), "w", encoding="ascii") as file:
                file.write(text)
        os.chmod(os.path.join(home, "editor"), 0o700)
        self.environment = {
            **os.environ, "QWKDOOR_HOME": os.path.join(home, "data"), "HOME": home, "PYTHONPATH": home,
            "VISUAL": os.path.join(home, "editor"), "COUNT": os.path.join(home, "count"),
        }

    def run(self, lines: "list[str]", words: "list[str]", way: str, seconds: float = 0, **more: str) -> None:
        """Runs the reader, and kills it after some seconds, or as the environment says."""
        running = subprocess.Popen(
            [READER, *words, self.packet], env={**self.environment, **more}, stdin=subprocess.PIPE,
            stdout=subprocess.PIPE, stderr=subprocess.PIPE, start_new_session=True,
        )
        try:
            out, error = running.communicate("".join(f"{it}\n" for it in lines).encode(), seconds or None)
        except subprocess.TimeoutExpired:
            os.killpg(running.pid, signal.SIGKILL)
            out, error = running.communicate()
        if running.returncode == -signal.SIGKILL:
            self.kills[way] += 1
        elif running.returncode != 0:
            self.wrong.append(f"a run ends with {running.returncode}: {error.decode()}")
        self._note(out.decode())

    def _note(self, out: str) -> None:
        """Notes which answers were said to be kept, by the number of the text in them."""
        for draft, recipient in KEPT.findall(out):
            for folder in ("answers", "drafts"):
                path = os.path.join(self.box, folder, draft, "text")
                if os.path.exists(path):
                    with open(path, encoding="utf-8") as file:
                        self.said[re.findall(r"Answer (\d+)\.", file.read())[-1]] = recipient

    def lying(self) -> "list[str]":
        """Gives the archives that lie there, which must be as they were."""
        found = []
        for name in sorted(os.listdir(self.box)) if os.path.isdir(self.box) else ():
            if name.endswith(".REP"):
                with open(os.path.join(self.box, name), "rb") as file:
                    data = file.read()
                if self.lay.setdefault(name, data) != data:
                    self.wrong.append(f"{name} has changed")
                found.append(name)
        return found

    def take(self) -> None:
        """Takes the archives away, as `mv -n` does. One that a killed run has sent stays until the next one sends."""
        for name in self.lying():
            there = os.path.join(self.got, name)
            if not os.path.exists(there):
                os.rename(os.path.join(self.box, name), there)

    def turn(self, taken: float) -> None:
        """One run that is killed, and what the caller does after it."""
        lines = [f"r {random.randint(1, 3)}", f"r {random.randint(1, 3)}"]
        act = random.randint(0, 4)
        if act == 0:
            lines.insert(1, f"e {self.last_text() + 1}")
        elif act == 1:
            lines.insert(1, f"back {max((int(name[8:12]) for name in self.lay), default=0)}")
        words = ["--send", self.got] if random.random() < 0.3 else []
        way = random.choice(WAYS)
        if way == "at random":
            self.run([*lines, "q"], words, way, 0.001 + random.random() * taken * 1.2)
        elif way == "in the editor":
            self.run([*lines, "q"], words, way, KILL=random.choice(("before", "after")))
        else:
            self.run([*lines, "q"], words, way, STOP=str(random.randint(1, MOST_CALLS)))
        if random.random() < 0.4:
            self.take()
        else:
            self.lying()

    def last_text(self) -> int:
        """Gives the number of the text that was begun last."""
        path = os.path.join(self.box, "last")
        if not os.path.exists(path):
            return 0
        with open(path, encoding="ascii") as file:
            return int(file.read())

    def end(self) -> None:
        """Keeps each answer whose change was killed, sends all that is there, and takes what another run put out."""
        folder = os.path.join(self.box, "drafts")
        changed = [name for name in os.listdir(folder) if os.path.exists(os.path.join(folder, name, "was"))]
        self.run([*(f"k {name}" for name in changed), "t", "q"], ["--send", self.got], "not at all")
        self.wrong += [f"{name} lies there still" for name in self.lying()]

    def is_as_it_lay(self, path: str) -> bool:
        """Whether what was sent is what lay there under this name, where that was seen."""
        with open(path, "rb") as file:
            data = file.read()
        return self.lay.get(os.path.basename(path), data) == data

    def look(self) -> int:
        """Looks at all that was sent. Gives how many letters there were."""
        paths = [os.path.join(self.got, name) for name in sorted(os.listdir(self.got)) if name.endswith(".REP")]
        self.wrong += [f"{it} was sent with other bytes" for it in paths if not self.is_as_it_lay(it)]
        found = [it for path in paths for it in letters(path)]
        numbers: "dict[str, list[str]]" = {}
        for recipient, text in found:
            if f"Message {SENDERS.index(recipient) + 1}\n" not in text:
                self.wrong.append(f"a letter to {recipient} quotes another message: {text}")
            for number in re.findall(r"Answer (\d+)\.", text):
                numbers.setdefault(number, []).append(recipient)
        self.wrong += [f"answer {it} was sent to {to}" for it, to in numbers.items() if len(to) > 1]
        self.wrong += [
            f"answer {it} to {to} was said to be kept, and was sent to {numbers.get(it)}"
            for it, to in self.said.items() if numbers.get(it) != [to]
        ]
        for folder, _, names in os.walk(os.path.join(self.home, "data")):
            self.wrong += [f"{folder}/{it} is left" for it in names if it.endswith((".new", ".gone", ".part"))]
        return len(found)


def main(kills: int) -> int:
    """Makes the trial, and gives the status."""
    with tempfile.TemporaryDirectory() as home:
        trial = Trial(os.path.realpath(home))
        began = time.monotonic()
        trial.run(["r 1", "r 2", "q"], [], "not at all")
        taken = time.monotonic() - began
        runs = 0
        while sum(trial.kills.values()) < kills:
            trial.turn(taken)
            runs += 1
        trial.end()
        count = trial.look()
        for line in trial.wrong:
            print(f"WRONG: {line}")
        ways = ", ".join(f"{count} {way}" for way, count in trial.kills.items())
        print(f"a run takes {taken:.2f} s; of {runs} runs {sum(trial.kills.values())} were killed: {ways}")
        print(f"{len(trial.said)} answers said to be kept, {count} letters sent, each once and to its message")
        return 1 if trial.wrong else 0


if __name__ == "__main__":
    sys.exit(main(int(sys.argv[1])))
