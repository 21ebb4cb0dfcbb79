"""The program that was compiled without a proof, kept for the calls that come.

It lies in `.build/unproved` under the sum of what it was compiled of, and comes there by one rename, so that what has
that name is whole. A call that finds none compiles, and keeps it for the others.
"""

from __future__ import annotations

import fcntl
import os
import shutil
import tempfile
from contextlib import contextmanager
from typing import BinaryIO, Callable, Iterator, Optional

from qwkdoor_scripts import durable
from qwkdoor_scripts.failure import Failure

from . import sources, trial


@contextmanager
def work_folder() -> Iterator[str]:
    """Gives a folder of the call's own, which goes at its end."""
    try:
        place = tempfile.mkdtemp(prefix="qwkdoor-")
    except OSError as error:
        raise Failure(f"there is no folder to compile in: {error.strerror}") from error
    try:
        yield place
    finally:
        shutil.rmtree(place, ignore_errors=True)


def _write_program(program: BinaryIO, path: str) -> None:
    """Writes a program to a file that isn't there, and has it on the disk."""
    program.seek(0)
    durable.write_new(path, program.read(), 0o755)


class Keeper:
    """Keeps the program of a checkout's sources, and says what it does."""

    def __init__(self, top: str, say: Callable[[str], None]) -> None:
        self.top = top
        self.say = say
        self.folder = os.path.join(top, ".build/unproved")
        self.sum = sources.sum_of(top)
        self.path = os.path.join(self.folder, self.sum)

    def is_kept(self) -> bool:
        """Says whether the program of these sources is there, and may be run."""
        return os.access(self.path, os.X_OK)

    def obtain(self, place: str) -> Optional[str]:
        """Gives the program's path: the kept one, or one below a folder where none can be kept.

        Compiles where none is kept. None where the compiled program wasn't seen.
        """
        with self._alone():
            if self.is_kept():
                return self.path
            program = self._compiled(place)
            if program is None:
                return None
            with program:
                return self._put(program, place)

    @contextmanager
    def _alone(self) -> Iterator[None]:
        """Waits until no other call compiles here. Where nothing can be written here, each compiles for itself."""
        try:
            os.makedirs(self.folder, exist_ok=True)
            handle = os.open(self.folder, os.O_RDONLY | os.O_DIRECTORY | os.O_CLOEXEC)
        except OSError:
            yield
            return
        try:
            self._wait(handle)
            yield
        finally:
            os.close(handle)

    def _wait(self, handle: int) -> None:
        try:
            fcntl.flock(handle, fcntl.LOCK_EX | fcntl.LOCK_NB)
        except BlockingIOError:
            self.say("another call compiles the sources, and this one waits for it")
            fcntl.flock(handle, fcntl.LOCK_EX)
        except OSError:
            # A file system without locks: there calls at once each compile.
            pass

    def _compiled(self, place: str) -> Optional[BinaryIO]:
        self.say("compiling the sources without a proof, which takes a minute or two")
        held = trial.Held(place)
        ended = trial.compile_held(self.top, place, held)
        if ended.status != 0:
            self.say(f"rt says: {ended.said.decode('utf-8', 'replace').strip()}")
            raise Failure("the sources couldn't be compiled")
        if sources.sum_of(self.top) != self.sum:
            raise Failure("a source or the toolchain changed while the sources were compiled: call again")
        return held.file

    def _put(self, program: BinaryIO, place: str) -> str:
        try:
            self._keep(program, place)
            return self.path
        except OSError as error:
            self.say(f"each call compiles, since the program can't be kept in {self.folder}: {error.strerror}")
        path = os.path.join(place, "qwkdoor")
        _write_program(program, path)
        return path

    def _keep(self, program: BinaryIO, place: str) -> None:
        """Puts a program in place of those of other sources, once it has run from there."""
        os.makedirs(self.folder, exist_ok=True)
        part = self.path + ".new"
        durable.remove(part)
        try:
            _write_program(program, part)
            if not trial.reads(part, place):
                raise OSError(0, "it doesn't run there")
            durable.replace(part, self.path)
        finally:
            durable.remove(part)
        for name in os.listdir(self.folder):
            if name != self.sum:
                durable.remove(os.path.join(self.folder, name))
