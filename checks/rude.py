"""Sessions and peers that are rude to a daemon over sockets: they trickle, never read, stop in the middle, come and go by the thousand, and
say what breaks the rules. Meanwhile the edits of a session that keeps the rules are answered soon, and the daemon's memory stays where it is.
"""

import socket
import subprocess
import threading
import time

from beside import STATUS, Beside, link, seat, together
from daemon import PATIENCE, connection, new_daemon
from frames import BYE, OPS, Peer, framed, have, hello, inserted, name, ops, record, replica, run_record, typed
from malformed import ENDED_BY, REFUSED, US
from program import insert, line, run

SOON = 2
SECONDS = 2
# Between two bytes of a line that trickles: all of it takes longer than what is soon.
TRICKLE = 0.1
CONNECTIONS = 2_000
# How many links there may be; seconds after which a peer that takes nothing is let go, and how many more it may be on a busy machine.
LINKS, TAKES_NOTHING, SLACK = 8, 30, 10
MANY = 8_000
MEGABYTE = 1_000_000
BESIDE, READ, TRICKLED, PEERS, RUNS = 50, 51, 52, 53, 49
STOP = line(op="stop")
OK = {"ok": True}


def trickle(daemon, number):
    """A request that comes a byte at a time is answered."""
    talk = daemon.talk()
    for byte in insert(0, "t", TRICKLED + number):
        talk.send(bytes([byte]))
        time.sleep(TRICKLE)
    if talk.answer() != {"ok": True, "rev": 1}:
        raise OSError("a request that came by the byte isn't answered")
    talk.close()


def never_read(daemon, held):
    """Asks until nothing more is taken, and reads nothing."""
    talk = daemon.talk()
    held.append(talk)
    talk.socket.settimeout(0.5)
    try:
        for _ in range(200_000):
            talk.send(line(op="text", doc=READ) * 100)
    except TimeoutError:
        return


def half_lines(daemon, held):
    for part in (b'{"op":"ins', b'{"op":"insert","doc":50,"at":0,"text":"b"}', b"\xff" * 60_000, b"{"):
        held.append(daemon.talk())
        held[-1].send(part)


def without_end(daemon):
    """A line of megabytes is refused once, and the next one is read."""
    talk = daemon.talk()
    for _ in range(64):
        talk.send(b"x" * 65_536)
    talk.send(b"\n" + STATUS)
    if talk.answer() != {"code": 11, "error": "line", "ok": False} or not talk.answer()["ok"]:
        raise OSError("a line without end is answered wrongly")
    talk.close()


def come_and_go(daemon, count):
    """Opens connections and closes them at once, some in the middle of a line or of a frame, some so that they are reset."""
    for number in range(count):
        port = daemon.peers if number % 4 == 3 else daemon.sessions
        made = connection(port)
        try:
            made.sendall((b"", b'{"op":"te', STATUS * 20, hello(replica(9)) + b"\0\0")[number % 4])
            if number % 3 == 0:
                made.setsockopt(socket.SOL_SOCKET, socket.SO_LINGER, b"\1\0\0\0\0\0\0\0")
        except OSError:
            pass  # The daemon closes those that it has no place for.
        made.close()


def check_sessions(checks, daemon):
    held = []
    daemon.talk().ask(insert(0, "r" * 256, READ))
    with Beside(daemon, BESIDE) as beside:
        together(
            *[lambda number=number: trickle(daemon, number) for number in range(4)], *[lambda: never_read(daemon, held)] * 4,
            lambda: half_lines(daemon, held), lambda: without_end(daemon),
        )
        together(*[lambda: come_and_go(daemon, CONNECTIONS // 4)] * 4)
    beside.told(checks, "rude sessions", SOON, 24 * MEGABYTE)
    return held


def for_a_while(port, maker, data, held):
    """A peer that says this for some seconds, again and again, and again over another link where the daemon ends it; it reads what comes."""
    until, links, heard = time.monotonic() + SECONDS, 0, 0
    while time.monotonic() < until:
        peer = Peer(port, maker)
        peer.socket.settimeout(0.2)
        links += 1
        is_over = False
        while not is_over and time.monotonic() < until:
            try:
                peer.say(data)
                found, is_over = peer.frames(0)
            except OSError:
                break
            heard += len(found)
        peer.close()
        time.sleep(0.02)
    held.append((links, heard))


def deaf(port, maker, data, held):
    """A peer that says this until nothing is taken any more, and reads nothing."""
    peer = Peer(port, maker)
    held.append(peer)
    peer.socket.settimeout(0.3)
    until = time.monotonic() + SECONDS
    try:
        while time.monotonic() < until and peer.say(data):
            pass
    except OSError:
        pass


def told_before(daemon, maker, count=64):
    """What a peer told once, so that it is known from then on: the first frame of it. None of it is typed behind another, so that each
    takes a record of its own."""
    records = typed(maker, count, PEERS, at_start=True)
    peer = link(daemon, maker)
    for data in framed(records):
        peer.say(data)
    talk, until = seat(daemon), time.monotonic() + PATIENCE
    while talk.ask(line(op="text", doc=PEERS))["rev"] < count and time.monotonic() < until:
        time.sleep(0.01)
    talk.close()
    peer.close()
    return ops(*records[:64])


def check_peers(checks, daemon):
    """Storms of frames from as many peers as there are links."""
    known, port, held, early = told_before(daemon, replica(21)), daemon.peers, [], []
    ahead = ops(record(1, replica(22), 9, inserted("e"), [(replica(22), 7)], PEERS))
    greatest = (131_068).to_bytes(4, "big") + bytes([OPS]) + b"\0\1" + bytes(131_065)
    sixteen = have(*[(replica(number), 2**24) for number in range(30, 46)])
    storms = {
        "known operations for ever": (for_a_while, known * 8, held), "frames of the greatest length": (for_a_while, greatest, held),
        "operations that come too early": (for_a_while, ahead, early), "haves": (for_a_while, have() + have((replica(21), 1)), held),
        "haves, deaf": (deaf, have() * 100, held), "a frame that never ends": (deaf, greatest[:-1], held),
        "sixteen replicas": (for_a_while, sixteen, held),
    }
    with Beside(daemon, BESIDE + 100) as beside:
        together(*[lambda n=n, it=it: it[0](port, replica(30 + n), it[1], it[2]) for n, it in enumerate(storms.values())])
    beside.told(checks, "storms of peers", SOON, 32 * MEGABYTE)
    links, heard = early[0]
    checks.holds(f"early operations for {SECONDS} s over {links} links bring {heard} frames", heard < 100 * SECONDS)
    return [it for it in held if isinstance(it, Peer)]


def check_runs(checks, daemon):
    """What a peer typed in one edit is taken from one record, with a token too."""
    maker, talk, first = replica(23), seat(daemon), "r" * 256
    peer = link(daemon, maker)
    behind = run_record(maker, 257, "ab", [(maker, 256)], RUNS, name(256, maker), replica(24))
    peer.say(ops(run_record(maker, 1, first, doc=RUNS), behind))
    until = time.monotonic() + PATIENCE
    while (found := talk.ask(line(op="text", doc=RUNS)))["rev"] < 258 and time.monotonic() < until:
        time.sleep(0.01)
    checks.same("the text of runs that a peer told", found["text"], first + "ab")
    talk.close()
    peer.close()


def check_malformed(checks, daemon):
    """Each frame that breaks a rule ends its link, and nothing of it is taken."""
    talk = seat(daemon)
    before = talk.ask(STATUS)["applied"]
    for what, data in ENDED_BY.items():
        peer = link(daemon)
        try:
            peer.say(data)
        except OSError:
            pass  # It may have ended the link before all was sent.
        checks.holds(f"a link ends behind {what}", peer.has_ended(PATIENCE))
        peer.close()
    for what, data in REFUSED.items():
        peer = link(daemon, US)
        peer.say(ops(data))
        said, is_over = [], False
        while not is_over:
            found, is_over = peer.frames(PATIENCE)
            said += [kind for kind, _ in found]
            is_over = is_over or not found
        checks.same(f"the last frame behind {what}", said[-1:], [BYE])
        peer.close()
    checks.same("operations after all malformed frames", talk.ask(STATUS)["applied"], before)
    talk.close()


class LetGo(threading.Thread):
    """A daemon of its own, one of whose peers takes nothing of what it is told: whether that one has a place, and when it is given back."""

    def __init__(self, program):
        super().__init__()
        self.program, self.error, self.is_full, self.took = program, None, False, None

    def run(self):
        daemon = new_daemon(self.program, "deaf")
        held = []
        try:
            # So much that it fills the sockets soon, asked for a few times.
            told_before(daemon, replica(21), MANY)
            deaf(daemon.peers, replica(61), have() * 100, held)
            begun = time.monotonic()
            held += [link(daemon, replica(62 + number)) for number in range(LINKS - 1)]
            self.is_full = not self.is_greeted(daemon)
            while not self.is_greeted(daemon) and time.monotonic() < begun + 2 * TAKES_NOTHING:
                time.sleep(0.5)
            self.took = time.monotonic() - begun
        except (OSError, TimeoutError) as error:
            self.error = repr(error)
        finally:
            for peer in held:
                peer.close()
            daemon.kill()

    def is_greeted(self, daemon):
        peer = Peer(daemon.peers, replica(80))
        found, is_over = peer.frames(2)
        peer.close()
        return bool(found) and not is_over

    def told(self, checks):
        self.join()
        checks.same("a peer that takes nothing is tried to its end", (self.error, self.is_full), (None, True))
        checks.holds(f"its place is given back behind {self.took or 0:.0f} s", self.took and self.took < TAKES_NOTHING + SLACK)


def check_end(checks, program, daemon, docs):
    """The daemon ends while rude ones are still there, and the file opens."""
    talk = seat(daemon)
    shown = {doc: talk.ask(line(op="text", doc=doc)) for doc in docs}
    begun = time.monotonic()
    checks.same("a stop beside them", talk.ask(STOP), OK)
    checks.same("the end", daemon.ended(), (0, b"", b""))
    checks.holds("it ends soon", time.monotonic() - begun < 8)
    for doc, text in shown.items():
        status, output, faults = run(program, "dump", daemon.name, str(doc))
        checks.same(f"document {doc} of the file", (status, output.split(b"\n")[0] + b"\n", faults), (0, line(**text), b""))


def check(checks, program, _until):
    let_go = LetGo(program)
    let_go.start()
    daemon = new_daemon(program, "rude")
    held = []
    try:
        held += check_sessions(checks, daemon)
        held += check_peers(checks, daemon)
        check_runs(checks, daemon)
        check_malformed(checks, daemon)
        check_end(checks, program, daemon, (BESIDE, BESIDE + 100, READ, TRICKLED, PEERS, RUNS))
    except (OSError, TimeoutError, subprocess.TimeoutExpired) as error:
        checks.same("rude ones come to their end", repr(error), None)
    finally:
        for it in held:
            it.close()
        if daemon.run.poll() is None:
            daemon.kill()
    let_go.told(checks)
