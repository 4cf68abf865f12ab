"""A daemon goes on when its steps are used up (10): it opens its file anew by itself, and nothing that was answered is lost or there twice.
First an edit meets the end of the steps, then a peer's operation does. Where there is a compiler its device calls are recorded meanwhile.
"""

import itertools
import struct
import threading
import time

from call_order import anew, short_faults
from daemon import new_daemon, within
from frames import HAVE, OPS, Peer, replica
from program import insert, line, run
from recorded import SHORT, around, compiled

STATUS = line(op="status")
# The steps of one opening are 1,048,576, those of commits too. So many operations of a peer leave the others to edits, however often they
# were committed; so many more are over that again.
BEFORE, BEHIND = 980_000, 1_150_000
TOLD, AHEAD, EDITORS, FIRST_DOC, MORE = 64, 8_192, 8, 10, 10
# Seconds that each part may take on a slow machine.
LONG = 300
DOC, MAKER = 1, replica(7)
STEPS, BUSY = {"code": 10, "error": "steps", "ok": False}, {"code": 8, "error": "busy", "ok": False}
# How many times as long as an opening takes a connection may wait, and how many seconds more on a busy machine.
TIMES, SLACK = 3, 5


def record(k):
    """The record of the k-th insert of a peer, each at the start of the text."""
    known = b"\1" + MAKER + (k - 1).to_bytes(8, "big") if k > 1 else b"\0"
    body = b"\1" + struct.pack(">IQ", DOC, k) + MAKER + known + b"\0" + struct.pack(">I", 97 + k % 26)
    return struct.pack(">I", len(body)) + body


def frame(first, last):
    """A frame of the inserts from one to another."""
    records = [record(it) for it in range(first, last + 1)]
    content = struct.pack(">H", len(records)) + b"".join(records)
    return struct.pack(">IB", len(content) + 1, OPS) + content


def had(content):
    """How many operations of the peer a HAVE counts."""
    entries = [content[1 + k * 24 : 25 + k * 24] for k in range(content[0])]
    return sum(int.from_bytes(it[16:], "big") for it in entries if it[:16] == MAKER)


def tell_over(peer, last):
    """Tells the peer's inserts up to one over a link, from what the daemon has, and so many ahead of that as have room to wait for a
    commit; whether it has all before the link ends."""
    count, told, is_over = None, None, False
    while not is_over and count != last:
        ahead = last if count is None else min(last, count + AHEAD)
        found, is_over = peer.frames(0 if told is not None and told < ahead else 0.5)
        for kind, content in found:
            if kind == HAVE:
                count = had(content)
                told = count if told is None else told
        if told is not None and told < ahead:
            first, told = told + 1, min(told + TOLD, ahead)
            peer.socket.sendall(frame(first, told))
    return count == last


def tell(daemon, last):
    """Tells the peer's inserts up to one, over one link after another. How many links it took, or None where it took too long."""
    until = time.monotonic() + LONG
    for links in itertools.count(1):
        peer = Peer(daemon.peers, MAKER)
        try:
            if tell_over(peer, last):
                return links
        except OSError:
            pass  # The daemon opens its file anew.
        finally:
            peer.close()
        if time.monotonic() > until:
            return None


class Editor(threading.Thread):
    """Inserts numbers into a document of its own, and comes again where the connection ends."""

    def __init__(self, daemon, number):
        super().__init__()
        self.daemon, self.doc = daemon, FIRST_DOC + number
        self.answered, self.refused, self.longest, self.wrong = [], [], 0.0, []
        self.over = threading.Event()

    def run(self):
        number, talk = 0, None
        begun = time.monotonic()
        while not self.over.is_set():
            number += 1
            try:
                talk = talk or self.daemon.talk()
                answer = talk.ask(insert(0, f"{number}.", self.doc))
            except OSError:
                answer = None
            if answer is None or answer == BUSY:
                # It may have come just as nobody was let in any more.
                talk = None
            elif answer.get("ok"):
                self.answered.append(number)
                self.longest = max(self.longest, time.monotonic() - begun)
                begun = time.monotonic()
            elif answer == STEPS:
                self.refused.append(number)
            else:
                self.wrong.append(answer)
        if talk:
            talk.close()

    def told(self, checks, text):
        """Checks its document: each edit that was answered is there once, none that was refused is there."""
        found = [int(it) for it in text.split(".") if it]
        there = set(found)
        checks.same(f"document {self.doc}: other answers", self.wrong, [])
        checks.same(f"document {self.doc}: edits that are there twice", len(found) - len(there), 0)
        checks.same(f"document {self.doc}: answered and not there", sorted(set(self.answered) - there)[:5], [])
        checks.same(f"document {self.doc}: refused and there", sorted(set(self.refused) & there)[:5], [])


def edit_through(daemon):
    """Some sessions edit at once until one was refused for want of steps, and all of them were answered a few times more."""
    editors = [Editor(daemon, number) for number in range(EDITORS)]
    for it in editors:
        it.start()
    try:
        within("an edit that finds no steps", lambda: any(it.refused for it in editors), LONG)
        counts = [len(it.answered) for it in editors]
        within("edits behind it", lambda: all(len(it.answered) > n + MORE for it, n in zip(editors, counts)), LONG)
    finally:
        for it in editors:
            it.over.set()
        for it in editors:
            it.join()
    return editors


def opening(program, name):
    """How long the file of a daemon that has ended takes to be opened, and how many operations it has."""
    begun = time.monotonic()
    status, output, _ = run(program, "edit", name, lines=STATUS)
    return time.monotonic() - begun, (status, output)


def check(checks, program, _until):
    library = compiled()
    daemon = new_daemon(program, "renewal", env=around(library, "renewal.calls", pause=0, most=SHORT) if library else None)
    try:
        checks.holds("a peer's operations before", tell(daemon, BEFORE))
        process = daemon.run.pid
        editors = edit_through(daemon)
        talk = daemon.talk()
        for it in editors:
            it.told(checks, talk.ask(line(op="text", doc=it.doc))["text"])
        talk.close()
        links = tell(daemon, BEFORE + BEHIND)
        checks.holds(f"a peer's operations behind it, over {links} links", links)
        checks.same("the same process", (daemon.run.pid, daemon.run.poll()), (process, None))
        checks.same("the end", daemon.stop(), ({"ok": True}, (0, b"", b"")))
        if library:
            checks.same("its device calls", short_faults(anew("renewal.calls", "renewal"))[:5], [])
        took, _ = opening(program, "renewal")
        longest = max(it.longest for it in editors)
        checks.holds(f"no session waited longer than {longest:.2f} s; an opening takes {took:.2f} s", longest < TIMES * took + SLACK)
    except (OSError, TimeoutError, TypeError) as error:
        checks.same("a renewal comes to its end", repr(error), None)
    finally:
        if daemon.run.poll() is None:
            daemon.kill()
