"""A session that keeps the rules while others don't, and what the daemon costs meanwhile."""

import os
import socket
import threading
import time

from daemon import HOST, PATIENCE
from frames import Peer
from program import insert, line

PAUSE = 0.005
PAGE = 4096
SYNCS = 3
# An edit waits for the commit under way and for its own: so often the machine's own time is given it, and once more.
ROUNDS = 3
STATUS = line(op="status")


def resident(process):
    """The resident memory of a process in bytes."""
    with open(f"/proc/{process}/status", encoding="ascii") as file:
        return next(int(line.split()[1]) * 1024 for line in file if line.startswith("VmRSS:"))


def together(*calls):
    """Makes these calls at once, each on a thread of its own; the first error of one is given on."""
    errors = []

    def guarded(call):
        try:
            call()
        except Exception as error:  # It is raised again by the one that waits.
            errors.append(error)

    threads = [threading.Thread(target=guarded, args=(call,)) for call in calls]
    for thread in threads:
        thread.start()
    for thread in threads:
        thread.join()
    if errors:
        raise errors[0]


def again(what, call):
    """What a call gives, once it gives something: a daemon has places for so many, and those who left give theirs back a little later."""
    until = time.monotonic() + PATIENCE
    while time.monotonic() < until:
        try:
            found = call()
        except OSError:
            found = None
        if found:
            return found
        time.sleep(0.02)
    raise TimeoutError(what)


def seat(daemon):
    """A session that is served."""

    def served():
        talk = daemon.talk()
        answer = talk.ask(STATUS)
        if answer and answer["ok"]:
            return talk
        talk.close()
        return None

    return again("a place for a session", served)


def link(daemon, maker=None):
    """A link that is greeted, and what was heard of it already."""

    def greeted():
        peer = Peer(daemon.peers, maker)
        found, is_over = peer.frames(1)
        if found and not is_over:
            return peer
        peer.close()
        return None

    return again("a place for a link", greeted)


class Yardstick:
    """What the machine itself takes at its longest, without any daemon, for what an edit asks of it: a line over a socket, a page that
    is written and synced three times, and a line back. A disk that stands still for seconds, as one that others use may do, shows here."""

    def __init__(self):
        self.longest, self.over = 0.0, threading.Event()
        self.threads = [threading.Thread(target=it) for it in (self.serve, self.ask)]

    def __enter__(self):
        with socket.create_server((HOST, 0)) as server:
            self.near = socket.create_connection(server.getsockname())
            self.far, _ = server.accept()
        for thread in self.threads:
            thread.start()
        return self

    def __exit__(self, *_):
        self.over.set()
        for thread in self.threads:
            thread.join()
        self.near.close()

    def serve(self):
        with self.far, open("yardstick", "wb", buffering=0) as file:
            while received := self.far.recv(PAGE):
                for _ in range(SYNCS):
                    os.pwrite(file.fileno(), bytes(PAGE), 0)
                    os.fsync(file.fileno())
                self.far.sendall(received)

    def ask(self):
        while not self.over.is_set():
            begun = time.monotonic()
            self.near.sendall(STATUS)
            self.near.recv(PAGE)
            self.longest = max(self.longest, time.monotonic() - begun)
            self.over.wait(PAUSE)
        self.near.shutdown(socket.SHUT_WR)


class Beside:
    """Edits a document of its own all the while: how many edits, how long the longest answer took, and the greatest resident memory."""

    def __init__(self, daemon, doc):
        self.talk, self.process, self.doc = seat(daemon), daemon.run.pid, doc
        self.edits, self.longest, self.wrong = 0, 0.0, None
        self.over, self.machine = threading.Event(), Yardstick()

    def __enter__(self):
        self.before = self.most = resident(self.process)
        self.thread = threading.Thread(target=self.edit)
        self.thread.start()
        self.machine.__enter__()
        return self

    def __exit__(self, *_):
        self.over.set()
        self.thread.join()
        self.machine.__exit__()
        self.talk.close()

    def edit(self):
        while not self.over.is_set() and not self.wrong:
            begun = time.monotonic()
            try:
                answer = self.talk.ask(insert(0, "b", self.doc))
            except OSError as error:
                answer = repr(error)
            self.longest = max(self.longest, time.monotonic() - begun)
            self.edits += 1
            if answer != {"ok": True, "rev": self.edits}:
                self.wrong = answer
            self.most = max(self.most, resident(self.process))
            self.over.wait(PAUSE)

    def told(self, checks, what, seconds, memory):
        """Checks that its edits were answered within so many seconds beyond what the machine itself took, and that the daemon took so
        many bytes more at most."""
        checks.same(f"{what}: edits beside it", self.wrong, None)
        took = f"the longest of {self.edits} answers took {self.longest:.2f} s, and the machine's own {self.machine.longest:.2f} s"
        checks.holds(f"{what}: {took}", self.longest < seconds + ROUNDS * self.machine.longest)
        more = self.most - self.before
        checks.holds(f"{what}: {more / 1e6:.1f} MB more", more < memory)
