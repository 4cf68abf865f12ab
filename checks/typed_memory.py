"""What typed text takes in memory, of which no contract speaks: in a session whose edits have tokens, as the clients send them, and while a file
is opened."""

import os
import subprocess
import uuid

from beside import resident
from formats import file_of
from frames import typed
from program import NAME, line, new_file, write

# Edits of one character each, and how many more bytes of memory each may take: it took 304 where each character was a record.
FIRST, EDITS, MOST = 4_000, 20_000, 200
# Operations of a file, and how much memory each may take while it is opened: it took 93 where the whole stream was in memory.
COUNT, OPENING = 46_000, 75
# The disk costs little here.
SHARED = "/dev/shm"


class Typing:
    """A session that types at the end of a text."""

    def __init__(self, program, name):
        self.run = subprocess.Popen([program, "edit", name], stdin=subprocess.PIPE, stdout=subprocess.PIPE)
        self.at = 0

    def type(self, count):
        """Types so many characters, and gives how many of them were made."""
        made = 0
        for _ in range(count):
            self.run.stdin.write(line(op="insert", doc=1, at=self.at, text="x", token=str(uuid.uuid4())))
            self.run.stdin.flush()
            self.at += 1
            made += b'"ok":true' in self.run.stdout.readline()
        return made

    def end(self):
        self.run.stdin.close()
        self.run.stdout.read()
        return self.run.wait()


def check_session(checks, program, name):
    new_file(program, name)
    session = Typing(program, name)
    checks.same("the first typed characters", session.type(FIRST), FIRST)
    before = resident(session.run.pid)
    checks.same("more typed characters", session.type(EDITS), EDITS)
    more = (resident(session.run.pid) - before) / EDITS
    checks.holds(f"a typed character with a token takes {more:.0f} bytes, at most {MOST}", more <= MOST)
    checks.same("the end of a session that typed", session.end(), 0)


def opened(program, name):
    """The greatest memory of a session that opens a file, and its status. (That of a process that has ended may be its parent's.)"""
    session = Typing(program, name)
    session.run.stdin.write(line(op="status"))
    session.run.stdin.flush()
    session.run.stdout.readline()
    with open(f"/proc/{session.run.pid}/status", encoding="ascii") as file:
        most = next(int(said.split()[1]) * 1024 for said in file if said.startswith("VmHWM:"))
    return most, session.end()


def check_opening(checks, program, name):
    new_file(program, name)
    before, status = opened(program, name)
    checks.same("a session of an empty file", status, 0)
    write(name, file_of(b"".join(typed(NAME, COUNT)), COUNT, 3))
    most, status = opened(program, name)
    checks.same("a session of a file of typed text", status, 0)
    more = (most - before) / COUNT
    checks.holds(f"a typed character takes {more:.0f} bytes while its file is opened, at most {OPENING}", more <= OPENING)


def check(checks, program, _until):
    if not os.access(SHARED, os.W_OK):
        checks.skip("memory of typed text", f"{SHARED} isn't there")
        return
    name = f"{SHARED}/peritext-typed-{os.getpid()}"
    try:
        check_session(checks, program, name)
        check_opening(checks, program, name)
    finally:
        if os.path.exists(name):
            os.remove(name)
