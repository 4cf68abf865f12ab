"""Sessions of a program of their own, over a file."""

from __future__ import annotations

import errno
import os
import subprocess
from io import BufferedReader
from typing import Union, cast
from uuid import UUID, uuid4

from .refusals import Ended, refused
from .seconds import timeout_of
from .session import Session
from .silence import TIMEOUT

Path = Union[str, "os.PathLike[str]"]


class FileSession(Session):
    """A session of a program of its own, which holds the file alone."""

    def __init__(self, program: Path, file: Path, timeout: float | None = TIMEOUT) -> None:
        # Before the program runs: it would keep the file.
        timeout = timeout_of(timeout)
        self._program = started(program, "edit", file)
        self._is_killed = False
        self._said = ""
        assert self._program.stdin and self._program.stdout
        super().__init__(self._program.stdin, cast(BufferedReader, self._program.stdout), timeout)

    def close(self) -> None:
        """Ends the session and waits for the program. `Refused` if it ends by a refusal, as 54 if another program has the file."""
        super().close()
        assert self._program.stderr
        # A session that is closed again tells the same.
        if not self._program.stderr.closed:
            self._said = self._program.stderr.read().decode(errors="replace")
            self._program.stderr.close()
        status = self._program.wait()
        if self._is_killed:
            raise Ended(f"the session has ended ({self._end})")
        check(status, self._said)

    def _abandon(self) -> None:
        # What it answered is in the file, which is free then.
        self._is_killed = True
        self._program.kill()


def started(program: Path, *words: Path) -> subprocess.Popen[bytes]:
    """The program, running."""
    try:
        return subprocess.Popen([program, *words], stdin=subprocess.PIPE, stdout=subprocess.PIPE, stderr=subprocess.PIPE)
    except FileNotFoundError:
        raise FileNotFoundError(errno.ENOENT, "no such program; build it with `make peritext`, and put it on the path or name it by program=", program) from None


def check(status: int, said: str) -> None:
    """Raises what a program's end tells, if it isn't a good one."""
    if status == 0:
        return
    number, _, word = said.removeprefix("peritext: ").strip().partition(" ")
    if number.isdigit():
        raise refused(int(number), word)
    raise Ended(said.strip() or f"the program ended with status {status}")


def init(file: Path, replica: UUID | None = None, program: Path = "peritext") -> UUID:
    """Makes the file of a new replica, with an id that nobody else has, and gives that id."""
    replica = replica or uuid4()
    program_run = started(program, "init", file, "--replica", str(replica))
    _, said = program_run.communicate()
    check(program_run.returncode, said.decode(errors="replace"))
    return replica


def open(file: Path, program: Path = "peritext", timeout: float | None = TIMEOUT) -> FileSession:
    """A session over a file, which no other program can have open meanwhile. `Refused` if it can't be opened, as 54 if another program has it.

    `timeout` is how many seconds may pass without a byte while an answer is due; None waits as long as it takes.
    """
    session = FileSession(program, file, timeout)
    try:
        session.ask(op="status")
    except BaseException:
        session.close()
        raise
    return session
