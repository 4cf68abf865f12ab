"""Two daemons whose link is parted and joined again and again while sessions edit at both: what they show afterwards, and how many bytes
the link moved beside those that were new.

python3 bench/parted.py PROGRAM [MINUTES [FOLDER]]. 10 minutes, if none are given; the files are made in FOLDER, or here. Somebody stands
between the daemons, reads the frames of both, and parts them after up to 20 seconds, for up to 5: by closing both connections at once,
whatever is under way. New is each record with an operation that didn't go over the link before; all else are greetings, clocks and records
told again. At the end both have to show the same texts, with each answered token once.
"""

import collections
import os
import random
import socket
import sys
import tempfile
import threading
import time

from followers import OPS, ids, records
from servers import HOST, REPLICAS, Daemon, Refused
from soak import DOCUMENTS, TOKEN, Tokens

SESSIONS = 8
# Seconds between two edits of a session, of a link, and apart, at most.
PAUSE, TOGETHER, APART = 0.5, 20, 5
# Seconds until two daemons that are left alone have to show the same.
LONGEST = 120
CHUNK = 65_536


class Between:
    """Hands on what one daemon says to the other, and counts it."""

    def __init__(self, peers):
        self.peers, self.lock = peers, threading.Lock()
        self.moved = self.new = self.again = self.links = 0
        self.known, self.open = set(), []
        self.server = socket.create_server((HOST, 0))
        self.port = self.server.getsockname()[1]
        self.parted = threading.Event()
        threading.Thread(target=self.accept, daemon=True).start()

    def accept(self):
        while True:
            joining, _ = self.server.accept()
            if self.parted.is_set():
                joining.close()
                continue
            try:
                joined = socket.create_connection((HOST, self.peers))
            except OSError:
                joining.close()
                continue
            self.links += 1
            self.open = [joining, joined]
            for one, other in ((joining, joined), (joined, joining)):
                threading.Thread(target=self.hand_on, args=(one, other), daemon=True).start()

    def hand_on(self, one, other):
        """Counts the frames that came whole."""
        heard = b""
        try:
            while data := one.recv(CHUNK):
                other.sendall(data)
                heard += data
                while len(heard) >= 4 and len(heard) >= (end := 4 + int.from_bytes(heard[:4], "big")):
                    self.count(heard[:end])
                    heard = heard[end:]
        except OSError:
            pass
        for it in (one, other):
            try:
                it.shutdown(socket.SHUT_RDWR)
            except OSError:
                pass

    def count(self, frame):
        with self.lock:
            self.moved += len(frame)
            if frame[4] == OPS:
                for record in records(frame[5:]):
                    if self.known.issuperset(names := ids(record)):
                        self.again += len(record)
                    else:
                        self.known.update(names)
                        self.new += len(record)

    def part(self):
        """Ends the link, and lets nobody in."""
        self.parted.set()
        for it in self.open:
            try:
                it.shutdown(socket.SHUT_RDWR)
            except OSError:
                pass

    def join(self):
        self.parted.clear()


def edit(daemon, tokens, over):
    """A session that types one token after another, in documents by chance."""
    talk = daemon.talk()
    while not over.is_set():
        doc, name = random.randrange(DOCUMENTS), tokens.take()
        tokens.open[doc].add(name)
        began = time.monotonic()
        try:
            talk.ask(op="insert", doc=doc + 1, at=0, text=name)
            tokens.keep(doc, name, time.monotonic() - began)
        except Refused as refusal:
            tokens.refuse(doc, name, refusal.args[0])
        time.sleep(random.random() * PAUSE)
    talk.close()


def texts(daemon):
    talk = daemon.talk()
    shown = [talk.ask(op="text", doc=doc + 1)["text"] for doc in range(DOCUMENTS)]
    talk.close()
    return shown


def agree(one, other):
    """The texts that both show, or None if they don't come to."""
    until = time.monotonic() + LONGEST
    while time.monotonic() < until:
        if (shown := texts(one)) == texts(other):
            return shown
        time.sleep(1)
    return None


def has_each_once(text, names):
    """Whether each of these tokens is there once: nobody writes inside one, so the text is one token after another."""
    there = collections.Counter(text[at : at + TOKEN] for at in range(0, len(text), TOKEN))
    return all(there[name] == 1 for name in names)


def main():
    program, minutes = os.path.abspath(sys.argv[1]), float(sys.argv[2]) if len(sys.argv) > 2 else 10
    with tempfile.TemporaryDirectory(dir=sys.argv[3] if len(sys.argv) > 3 else ".") as folder:
        one = Daemon(program, f"{folder}/one", REPLICAS[0]).start()
        between = Between(one.peers)
        other = Daemon(program, f"{folder}/other", REPLICAS[1]).start(link=between.port)
        tokens, over = Tokens(), threading.Event()
        sessions = [threading.Thread(target=edit, args=(it, tokens, over)) for it in (one, other) for _ in range(SESSIONS // 2)]
        for session in sessions:
            session.start()
        until = time.monotonic() + 60 * minutes
        while time.monotonic() < until:
            time.sleep(random.random() * TOGETHER)
            between.part()
            time.sleep(random.random() * APART)
            between.join()
        over.set()
        for session in sessions:
            session.join()
        shown = agree(one, other)
        answered = sum(map(len, tokens.answered))
        once = shown and all(has_each_once(text, names) for text, names in zip(shown, tokens.answered))
        print(f"{minutes:g} minutes, {between.links} links, {answered:,} answered edits, {sum(tokens.refused.values())} refused")
        print(f"both show the same: {shown is not None}; each answered edit once: {bool(once)}")
        print(f"{between.moved:,} bytes moved, {between.moved / max(1, between.new):.2f} times the {between.new:,} of new records; "
              f"{between.again:,} of records told again")
        for daemon in (one, other):
            daemon.stop()
    return 0 if once and between.moved < 2 * between.new else 1


if __name__ == "__main__":
    sys.exit(main())
