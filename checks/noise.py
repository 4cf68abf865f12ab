"""Links over which nothing but HAVEs is said, as fast as they are taken, beside sessions that edit as fast as they are answered: the sessions
keep a good part of the edits that they make beside links over which nothing is said.
"""

import subprocess
import threading
import time

from beside import link, seat, together
from daemon import new_daemon
from frames import have, replica
from program import NAME, insert, line

SESSIONS, LINKS = 8, 8
SECONDS, TURNS = 1.0, 3
# Of the edits beside silent links; on a machine with four processors it is about all of them.
PART = 1 / 4
CHUNK = 65_536
FIRST_DOC = 300
# HAVEs that lack all, so that all is told again; others count what there is as they begin, for more of a daemon's own operations would
# say that its file was put back from an older copy.
LACK_ALL = have()
NOISES = {
    "HAVEs that lack the newest": lambda count: have((NAME, count)), "HAVEs in turn": lambda count: have((NAME, count)) + have((NAME, count - 1)),
    "HAVEs that lack all": lambda _count: LACK_ALL,
}


class Noise:
    """Peers that say this as fast as it is taken, and take what they are told; nothing, if it is empty. First they say what they have."""

    def __init__(self, daemon, count, said):
        self.has, self.data = have((NAME, count)), said * (CHUNK // len(said)) if said else b""
        self.peers = [link(daemon, replica(90 + number)) for number in range(LINKS)]
        self.over, self.wrong = threading.Event(), []
        calls = [self.hear] + ([self.say] if said else [])
        self.threads = [threading.Thread(target=call, args=(peer,)) for peer in self.peers for call in calls]

    def __enter__(self):
        for peer in self.peers:
            peer.say(self.has)
            peer.socket.settimeout(0.2)
        for thread in self.threads:
            thread.start()
        return self

    def __exit__(self, *_):
        self.over.set()
        for thread in self.threads:
            thread.join()
        for peer in self.peers:
            peer.reset()

    def say(self, peer):
        """A chunk is cut anywhere: what wasn't taken of it comes first the next time."""
        left = self.data
        while not self.over.is_set():
            try:
                left = left[peer.socket.send(left) :] or self.data
            except TimeoutError:
                pass
            except OSError as error:
                return self.wrong.append(repr(error))
        return None

    def hear(self, peer):
        while not self.over.is_set():
            try:
                if not peer.socket.recv(CHUNK):
                    return self.wrong.append("a link ended")
            except TimeoutError:
                pass
            except OSError as error:
                return self.wrong.append(repr(error))
        return None


class Sessions:
    """Sessions that edit as fast as they are answered, each a document of its own."""

    def __init__(self, daemon):
        self.talks = [seat(daemon) for _ in range(SESSIONS)]
        self.edits, self.wrong = [0] * SESSIONS, []

    def count(self):
        """How many edits were made so far."""
        return sum(self.edits)

    def edit_for(self, seconds):
        """How many edits were made in this time."""
        before, until = sum(self.edits), time.monotonic() + seconds
        together(*[lambda number=number: self.edit(number, until) for number in range(SESSIONS)])
        return sum(self.edits) - before

    def edit(self, number, until):
        while time.monotonic() < until:
            answer = self.talks[number].ask(insert(0, "n", FIRST_DOC + number))
            self.edits[number] += 1
            if answer != {"ok": True, "rev": self.edits[number]}:
                return self.wrong.append(answer)
        return None

    def texts(self, daemon):
        """How many characters each document has, to another session."""
        talk = seat(daemon)
        found = [talk.ask(line(op="text", doc=FIRST_DOC + number))["text"] for number in range(SESSIONS)]
        talk.close()
        return found


def check_noise(checks, daemon, sessions, what, said):
    """In turns with silence, since a machine isn't always as fast."""
    silent = noisy = 0
    for _ in range(TURNS):
        with Noise(daemon, sessions.count(), b"") as silence:
            silent += sessions.edit_for(SECONDS / 2)
        count = sessions.count()
        with Noise(daemon, count, said(count)) as noise:
            noisy += sessions.edit_for(SECONDS / 2)
        checks.same(f"{what}: the links", silence.wrong + noise.wrong, [])
    checks.holds(f"{what}: {noisy} edits beside them, {silent} without", noisy >= PART * silent)


def check(checks, program, _until):
    daemon = new_daemon(program, "noise")
    try:
        sessions = Sessions(daemon)
        sessions.edit_for(SECONDS / 2)
        for what, said in NOISES.items():
            check_noise(checks, daemon, sessions, what, said)
        checks.same("answers beside noise", sessions.wrong, [])
        checks.same("texts after noise", sessions.texts(daemon), ["n" * count for count in sessions.edits])
        for talk in sessions.talks:
            talk.close()
        checks.same("a stop after noise", daemon.stop(), ({"ok": True}, (0, b"", b"")))
    except (OSError, TimeoutError, subprocess.TimeoutExpired) as error:
        checks.same("noise comes to its end", repr(error), None)
    finally:
        if daemon.run.poll() is None:
            daemon.kill()
