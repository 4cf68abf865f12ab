"""Told of changes: a session that watches a document has a line for its number of settled operations, and one whenever that has risen."""

import json
import socket
import time

from agreed import LIMITS, refused
from beside import again, seat
from daemon import PATIENCE, connection, new_daemon, within
from program import insert, line, new_file, run

PLACES = LIMITS["sessions"]
# Edits in a row for which a reader reads nothing.
MANY = 1_000
# Seconds within which a line comes after the edit's answer, in half of the cases: a watch that only looks now and then takes longer. And those in
# which none is to come.
SOON, QUIET = 0.1, 0.6
BUSY, REQUEST = refused(8), refused(3)
PEERS, STATUS, TEXT = line(op="peers"), line(op="status"), line(op="text", doc=1)


def watch(doc=1):
    return line(op="watch", doc=doc)


def at(rev):
    """The line for this number."""
    return {"ok": True, "rev": rev}


class Told:
    """A session whose lines are read as they come."""

    def __init__(self, daemon, data):
        self.socket = connection(daemon.sessions)
        self.held = b""
        self.send(data)

    def send(self, data):
        self.socket.sendall(data)

    def read(self):
        """Whether something more came, and not the end."""
        try:
            data = self.socket.recv(65_536)
        except ConnectionResetError:
            data = b""
        self.held += data
        return data != b""

    def answer(self):
        """The next line, or None at the end."""
        while b"\n" not in self.held:
            if not self.read():
                return None
        first, _, self.held = self.held.partition(b"\n")
        return json.loads(first)

    def is_quiet(self):
        """Whether nothing comes for a while, and no end."""
        if self.held:
            return False
        self.socket.settimeout(QUIET)
        try:
            self.read()
            return False
        except TimeoutError:
            return True
        finally:
            self.socket.settimeout(PATIENCE)

    def ended(self):
        """Whether the end is next."""
        return self.answer() is None and not self.held

    def close(self):
        self.socket.close()


def watching(daemon, doc=1):
    return Told(daemon, watch(doc))


def up_to(talk, rev):
    """The lines of a watch up to this number."""
    found = [talk.answer()["rev"]]
    while found[-1] < rev:
        found.append(talk.answer()["rev"])
    return found


def rises(revs):
    return all(before < after for before, after in zip(revs, revs[1:]))


def check_lines(checks, daemon):
    """The first line comes at once, one more after each edit of another session; none for another document; two are told alike."""
    talk = daemon.talk()
    one = watching(daemon)
    checks.same("the first line of an empty document", one.answer(), at(0))
    checks.holds("then none", one.is_quiet())
    talk.ask(insert(0, "ab"))
    checks.same("the line after an edit", one.answer(), at(2))
    two = watching(daemon)
    checks.same("the first line of another one", two.answer(), at(2))
    talk.ask(insert(0, "x", doc=2))
    checks.holds("an edit of another document gives none", one.is_quiet())
    talk.send(b"".join(insert(0, "y") for _ in range(200)))
    for who in (one, two):
        revs = up_to(who, 202)
        checks.holds("the lines of many edits rise, and the last names the newest", rises(revs) and revs[-1] == 202)
    checks.holds("no more comes", one.is_quiet() and two.is_quiet())
    for _ in range(200):
        talk.answer()
    checks.same("watches are sessions", talk.ask(PEERS)["sessions"], 3)
    one.close()
    two.close()
    within("their places are free", lambda: talk.ask(PEERS)["sessions"] == 1)
    talk.close()


def check_soon(checks, daemon):
    """A line comes as soon as the edit is answered, or nearly."""
    talk, one = daemon.talk(), watching(daemon, doc=3)
    one.answer()
    waits = []
    for rev in range(1, 51):
        talk.ask(insert(0, "z", doc=3))
        answered = time.monotonic()
        checks.same("its line", one.answer(), at(rev))
        waits.append(time.monotonic() - answered)
    checks.holds(f"lines come soon, not after {sorted(waits)[25]:.3f} s", sorted(waits)[25] < SOON)
    talk.close()
    one.close()


def check_merged(checks, daemon):
    """What a peer's operations make of a document is told too."""
    one = watching(daemon, doc=4)
    checks.same("before", one.answer(), at(0))
    other = new_daemon(daemon.program, "watching-other", "00000000-0000-4000-8000-000000000002", link=daemon.peers)
    talk = other.talk()
    talk.ask(insert(0, "merged", doc=4))
    checks.holds("a merge is told", up_to(one, 6)[-1] == 6)
    one.close()
    talk.close()
    checks.same("the other's end", other.stop(), ({"ok": True}, (0, b"", b"")))


def check_ends(checks, daemon):
    """More input ends a watch, also an end of it; the newest number is told before."""
    for what, more in (("a second line", STATUS), ("a byte", b"x"), ("the same line", watch())):
        one = watching(daemon)
        rev = one.answer()["rev"]
        one.send(more)
        checks.holds(f"{what} ends it", one.ended())
        one.close()
    one = Told(daemon, watch() + STATUS)
    checks.same("with a line right behind it", (one.answer(), one.ended()), (at(rev), True))
    one.close()
    one = watching(daemon)
    one.socket.shutdown(socket.SHUT_WR)
    checks.same("with an end of input", (one.answer(), one.ended()), (at(rev), True))
    one.close()


def check_asked(checks, daemon):
    """A watch that isn't the first line is no request, nor is one that has more or less. It may come by the byte."""
    talk = daemon.talk()
    talk.ask(STATUS)
    checks.same("as a second request", [talk.ask(watch()), talk.ask(STATUS)["ok"]], [REQUEST, True])
    talk.close()
    others = {
        "no document": line(op="watch"), "document 0": watch(0), "another field": line(op="watch", doc=1, rev=1), "a text": line(op="watch", doc="1"),
        "a long line": b" " * 16_384 + watch(),
    }
    for what, data in others.items():
        talk = daemon.talk()
        checks.same(f"a watch with {what}, and the session goes on", [talk.ask(data), talk.ask(STATUS)["ok"]], [REQUEST, True])
        talk.close()
    one = Told(daemon, b"")
    for byte in b' {  "doc" : 1 , "op" : "watch" }\n':
        one.send(bytes([byte]))
        time.sleep(0.001)
    checks.same("by the byte", one.answer()["ok"], True)
    checks.holds("and it goes on", one.is_quiet())
    one.close()


def check_by_bytes(checks, daemon):
    """Whatever its pieces, a session that doesn't watch is served as before."""
    data = line(op="text", doc=9) + STATUS + b'{"op":"spans","doc":9}\n'
    talk = daemon.talk()
    talk.send(data)
    whole = [talk.answer() for _ in range(3)]
    talk.close()
    for size in (1, 2, 7, 20, 21, 22, 64):
        talk = daemon.talk()
        for start in range(0, len(data), size):
            talk.send(data[start : start + size])
            time.sleep(0.001)
        checks.same(f"in pieces of {size}", [talk.answer() for _ in range(3)], whole)
        talk.close()
    talk = daemon.talk()
    checks.same("a long first line", talk.ask(b" " * 5_000 + STATUS)["ok"], True)
    talk.close()


def check_slow(checks, daemon):
    """A reader that doesn't read holds up nobody, and then sees rising numbers up to the newest."""
    talk, slow = daemon.talk(), watching(daemon, doc=5)
    slow.answer()
    for _ in range(0, MANY, 100):
        talk.send(b"".join(insert(0, "s", doc=5) for _ in range(100)))
        checks.holds("edits go on", all(talk.answer()["ok"] for _ in range(100)))
    revs = up_to(slow, MANY)
    checks.holds("it sees the newest at last", rises(revs) and revs[-1] == MANY)
    slow.close()
    talk.close()


def check_places(checks, daemon):
    """Watches take places like any session, and give them back; the last place isn't for one."""

    def first(is_served):
        """The first line of a watch, once it is one for which there is a place, or none."""
        one = watching(daemon)
        answer = one.answer()
        if answer is not None and answer["ok"] == is_served:
            return one, answer
        one.close()
        return None

    kept = [again("a watch in a place", lambda: first(True))[0] for _ in range(PLACES - 1)]
    one, answer = again("a watch in the last place", lambda: first(False))
    checks.same("a watch in the last place", (answer, one.ended()), (BUSY, True))
    for it in (one, *kept):
        it.close()
    for it in [seat(daemon) for _ in range(PLACES)]:
        it.close()


def check_stop(checks, daemon):
    """A stop ends a watch, after the newest number."""
    talk, one = daemon.talk(), watching(daemon, doc=6)
    one.answer()
    talk.send(b"".join(insert(0, "e", doc=6) for _ in range(20)) + line(op="stop"))
    checks.same("the last line names the newest", up_to(one, 20)[-1], 20)
    checks.holds("then it ends", one.ended())
    one.close()
    for _ in range(20):
        talk.answer()
    checks.same("the stop", talk.answer(), {"ok": True})
    talk.close()
    checks.same("the end", daemon.ended(), (0, b"", b""))


def check_file(checks, program):
    """A session over a file has no watches."""
    new_file(program, "watching-file")
    checks.same("over a file", run(program, "edit", "watching-file", lines=watch()), (0, b'{"code":3,"error":"request","ok":false}\n', b""))


def check(checks, program, _until):
    check_file(checks, program)
    daemon = new_daemon(program, "watching")
    try:
        for part in (check_lines, check_soon, check_merged, check_ends, check_asked, check_by_bytes, check_slow, check_places, check_stop):
            part(checks, daemon)
    except (OSError, TimeoutError, TypeError) as error:
        checks.same("watching comes to its end", repr(error), None)
        daemon.kill()
