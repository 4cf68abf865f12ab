"""Runs of the program in which requests for memory are refused, by the library of refuse_memory.c."""

import os
import select
import shutil
import socket
import struct
import subprocess
import time

from daemon import HOST, PATIENCE, Daemon, Talk
from program import fault

SOURCE = os.path.join(os.path.dirname(os.path.abspath(__file__)), "refuse_memory.c")
MEMORY = fault(1)


class Wrong(Exception):
    """What a run did that it may not do."""


def compiled():
    """The library, or None where there is no compiler."""
    compiler = shutil.which("gcc")
    if not compiler:
        return None
    name = os.path.abspath("refuse_memory.so")
    subprocess.run([compiler, "-shared", "-fPIC", "-O1", "-o", name, SOURCE], check=True)
    return name


class Refusal:
    """So many requests for memory in a row are refused, from one on, none where that is 0; and each for so many bytes or more, if that isn't 0.
    It counts those of a run."""

    def __init__(self, library, name, first=0, many=1, size=0):
        with open(name, "wb") as file:
            file.write(bytes(8))
        self.name = os.path.abspath(name)
        numbers = {"REFUSE_FROM": str(first), "REFUSE_MANY": str(many), "REFUSE_SIZE": str(size)}
        self.around = dict(os.environ, LD_PRELOAD=library, REFUSE_COUNT=self.name, **numbers)

    def count(self):
        with open(self.name, "rb") as file:
            return struct.unpack("l", file.read(8))[0]


def ended(run):
    """How a run ended: its status and what it said. A run that doesn't end by itself is wrong."""
    try:
        output, faults = run.communicate(timeout=PATIENCE)
    except subprocess.TimeoutExpired:
        run.kill()
        run.communicate()
        raise Wrong("it didn't end") from None
    return run.returncode, output, faults


class Pipe:
    """A session of `edit`, asked line by line."""

    def __init__(self, program, name, around=None):
        pipes = {"stdin": subprocess.PIPE, "stdout": subprocess.PIPE, "stderr": subprocess.PIPE}
        self.run = subprocess.Popen([program, "edit", name], bufsize=0, env=around, **pipes)
        self.rest = b""

    def ask(self, request):
        """The answer to a line, or None where the program ended before it."""
        try:
            self.run.stdin.write(request)
        except BrokenPipeError:
            return None
        while b"\n" not in self.rest:
            if not select.select([self.run.stdout], [], [], PATIENCE)[0]:
                self.run.kill()
                raise Wrong(f"no answer to {request[:60]}")
            more = self.run.stdout.read(65_536)
            if not more:
                return None
            self.rest += more
        answer, self.rest = self.rest.split(b"\n", 1)
        return answer + b"\n"

    def end(self):
        """The end of the input, and how the program ended."""
        return ended(self.run)


class RefusedDaemon(Daemon):
    """A daemon that may find no memory, and is started again where it ends for that."""

    def __init__(self, program, name, around, link=None):
        super().__init__(program, name, link=link, env=around)

    def start(self):
        self.run_it()

    def start_again(self):
        """After an end when out of memory; with all memory."""
        end = ended(self.run)
        if end != MEMORY:
            raise Wrong(f"it ended with {end}")
        self.how = {}
        self.start()

    def talk(self):
        """A session with it, once it listens."""
        until = time.monotonic() + PATIENCE
        while time.monotonic() < until:
            if self.run.poll() is not None:
                self.start_again()
            try:
                return Talk(self.sessions, socket.create_connection((HOST, self.sessions), timeout=PATIENCE))
            except OSError:
                time.sleep(0.002)
        raise Wrong("nobody listens")

    def kill(self):
        if self.run.poll() is None:
            super().kill()
