"""Runs the lines of a page of recipes in a folder that stands for the machine.

A block of indented lines is one of five things. Lines behind `$ ` are a session: what stands behind one is what it
shows, where `..` is any lines. Lines that begin with five fields of times are cron's. Lines that begin with `command="`
are those of keys, which ssh carries out. Lines behind `[NAME]` are settings, which must read as such. Any other block
is a script, which may print what it likes.

A file that `cat` shows, and that isn't there yet, is one that a person writes as it is shown.
"""

from __future__ import annotations

import configparser
import os
import re
import subprocess
from dataclasses import dataclass
from typing import Iterator, Mapping, Optional, Sequence

# The folders of a machine that a page may name. Each stands below the folder of the test.
FOLDERS = re.compile(r"(?<![\w.])/(?=(?:srv|tmp|etc|usr/local|var/spool)\b)")
MOMENT = re.compile(r"\b[0-9]{8}T[0-9]{6}Z\b")
CRON_FIELD = r"(?:\*|[0-9]+(?:-[0-9]+)?(?:,[0-9]+)*)(?:/[0-9]+)?"
CRON_LINE = re.compile(rf"((?:{CRON_FIELD} +){{5}})(.+)")
CRON_LIMITS = ((0, 59), (0, 23), (1, 31), (1, 12), (0, 7))
KEY_LINE = re.compile(r'command="(.*)"')
SETTINGS_LINE = re.compile(r"\[.+\]")
SHOWN_FILE = re.compile(r"cat (/\S+)")


@dataclass(frozen=True)
class Step:
    """A command of the page, or a script, and what the page shows of it."""

    section: str
    line: int
    kind: str
    command: str
    shown: tuple[str, ...] = ()


@dataclass(frozen=True)
class Person:
    """The account that a command is run by, in the system's numbers."""

    user: int
    group: int
    groups: tuple[int, ...] = ()


def blocks_of(text: str) -> Iterator[tuple[str, int, list[str]]]:
    """Gives the blocks of indented lines of a page, each with its section and the number of its first line."""
    section, block = "", ""
    for number, line in enumerate([*text.split("\n"), "end"], 1):
        if line.startswith("    ") or (block and not line):
            block += line[4:] + "\n"
        elif block:
            lines = block.rstrip("\n").split("\n")
            yield section, number - block.count("\n"), lines
            block = ""
        if line.startswith("## "):
            section = line[3:]


def steps_of(text: str) -> Iterator[Step]:
    """Gives the commands and scripts of a page, in order."""
    for section, number, lines in blocks_of(text):
        if lines[0].startswith("$ "):
            yield from _session(section, number, lines)
        elif CRON_LINE.fullmatch(lines[0]):
            yield from (Step(section, number + at, "cron", line) for at, line in enumerate(lines))
        elif KEY_LINE.fullmatch(lines[0]):
            yield from (Step(section, number + at, "key", line) for at, line in enumerate(lines))
        else:
            kind = "settings" if SETTINGS_LINE.fullmatch(lines[0]) else "script"
            yield Step(section, number, kind, "\n".join(lines))


def _session(section: str, number: int, lines: Sequence[str]) -> Iterator[Step]:
    starts = [at for at, line in enumerate(lines) if line.startswith("$ ")]
    for at, end in zip(starts, [*starts[1:], len(lines)]):
        behind = at + 1
        while behind < end and lines[behind].startswith("> "):
            behind += 1
        command = "\n".join(line[2:] for line in lines[at:behind])
        yield Step(section, number + at, "session", command, tuple(lines[behind:end]))


def is_shown(printed: Sequence[str], shown: Sequence[str]) -> bool:
    """Whether lines are those that a page shows, where its line `..` stands for any lines."""
    pattern = "".join("(?:.*\n)*" if line == ".." else re.escape(line) + "\n" for line in shown)
    return re.fullmatch(pattern, "".join(line + "\n" for line in printed)) is not None


def fault_of_times(times: str) -> str:
    """Says what is wrong with the five fields of a line of cron's, or nothing."""
    for word, (first, last) in zip(times.split(), CRON_LIMITS):
        if any(not first <= int(number) <= last for number in re.findall("[0-9]+", word.split("/")[0])):
            return f"no time of cron's: {word}"
    return ""


def fault_of_settings(text: str) -> str:
    """Says why a text doesn't read as settings, or nothing."""
    try:
        configparser.ConfigParser(interpolation=None).read_string(text)
    except configparser.Error as error:
        return str(error)
    return ""


class Machine:
    """A folder that stands for a machine, in which the lines of a page are run."""

    def __init__(self, root: str, accounts: Mapping[str, Person], not_run: Mapping[str, str]) -> None:
        self.root = root
        self.accounts = accounts
        self.not_run = not_run
        self.home = self.path("/home/board")

    def path(self, name: str) -> str:
        """Gives where a name of the machine is."""
        return self.root + name

    def mapped(self, text: str) -> str:
        """Gives the text of a command or a file for the folder: with its paths, its accounts, and its newest copy."""
        copies = self.path("/srv/copies")
        found = sorted(it for it in os.listdir(copies) if MOMENT.fullmatch(it)) if os.path.isdir(copies) else []
        if found:
            text = MOMENT.sub(found[-1], text)
        for name, person in self.accounts.items():
            text = re.sub(rf"-o {name}\b", f"-o {person.user}", text)
            text = re.sub(rf"(-g|chgrp|chgrp -R) {name}\b", rf"\1 {person.group}", text)
        return FOLDERS.sub(lambda match: self.root + match.group(), text)

    def write_shown(self, step: Step) -> None:
        """Writes the file that `cat` shows, where it isn't there."""
        match = SHOWN_FILE.fullmatch(step.command)
        if match is None or not step.shown or os.path.exists(self.path(match.group(1))):
            return
        with open(self.path(match.group(1)), "w", encoding="ascii") as file:
            file.write(self.mapped("".join(line + "\n" for line in step.shown)))

    def environment(self, kind: str) -> dict[str, str]:
        given = {"HOME": self.home, "LOGNAME": "board", "SHELL": "/bin/sh", "PATH": "/usr/bin:/bin"}
        if kind == "cron":
            return given
        commands = f"{self.path('/shims')}:{self.path('/usr/local/bin')}"
        return {**given, "PATH": f"{commands}:/usr/sbin:{given['PATH']}", "EDITOR": "vi", "LC_ALL": "C"}

    def call(
        self, kind: str, command: str, given: bytes = b"", person: Optional[Person] = None
    ) -> tuple[int, str, str]:
        """Runs a shell's command: gives its status, what it prints, and what it says on standard error."""
        ran = subprocess.run(
            ["/bin/sh", "-e", "-c", command] if kind == "script" else ["/bin/sh", "-c", command],
            input=given,
            capture_output=True,
            check=False,
            cwd=self.home,
            env=self.environment(kind),
            umask=0o022,
            user=person.user if person else None,
            group=person.group if person else None,
            extra_groups=person.groups if person else None,
        )
        printed, said = (it.decode("latin-1").replace(self.root, "") for it in (ran.stdout, ran.stderr))
        return ran.returncode, printed, said

    def runs(self, step: Step, given: bytes = b"", person: Optional[Person] = None) -> str:
        """Runs a step. Gives what is wrong with it, or nothing."""
        command = step.command
        fault = ""
        if step.kind == "settings":
            return fault_of_settings(command)
        if step.kind == "cron":
            match = CRON_LINE.fullmatch(command)
            if match is None or re.search(r"(?<!\\)%", command):
                return "no line of cron's"
            fault, command = fault_of_times(match.group(1)), match.group(2)
        elif step.kind == "key":
            key = KEY_LINE.fullmatch(command)
            if key is None:
                return "no line of a key"
            command = key.group(1).replace('\\"', '"')
        lines = [line for line in command.split("\n") if line.split(" ")[0] not in self.not_run]
        if fault or not lines:
            return fault
        self.write_shown(step)
        status, printed, said = self.call(step.kind, self.mapped("\n".join(lines)), given, person)
        return self._judged(step, status, printed, said)

    def _judged(self, step: Step, status: int, printed: str, said: str) -> str:
        lines = printed.removesuffix("\n").split("\n") if printed else []
        is_refused = any("refused" in line for line in step.shown)
        if said or (status != 0 and not (status == 1 and is_refused)):
            return f"ends with {status}: {said or printed}"
        if step.kind == "session":
            shown = self.mapped("\n".join(step.shown)).replace(self.root, "")
            is_same = is_shown(lines, shown.split("\n") if step.shown else [])
            return "" if is_same else "prints:\n" + printed
        return f"prints: {printed}" if step.kind == "cron" and printed else ""
