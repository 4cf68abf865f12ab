"""Who is connected to a daemon: the request `peers` tells of each peer that is linked what it has and lacks, and how many sessions there are."""

from daemon import new_daemon, within
from frames import Peer, have, replica
from program import REPLICA, insert, line, new_file, run

PEERS, STATUS = line(op="peers"), line(op="status")
NAMES = [REPLICA[:-1] + digit for digit in "234"]
ALONE = {"ok": True, "peers": [], "sessions": 1}


def row(name, has, lacks):
    return {"has": has, "lacks": lacks, "replica": name}


def rows(talk):
    """The peers of a daemon, by name."""
    return sorted(talk.ask(PEERS)["peers"], key=lambda it: it["replica"])


def check_file(checks, program):
    """A session over a file is the only one, and has no peers. The request has no other fields."""
    new_file(program, "peers-file")
    lines = PEERS + line(op="peers", doc=1)
    said = b'{"ok":true,"peers":[],"sessions":1}\n{"code":4,"error":"field","ok":false}\n'
    checks.same("peers of a file", run(program, "edit", "peers-file", lines=lines), (0, said, b""))


def check_linked(checks, program):
    """Daemons that are linked tell of each other, and agree once both have all."""
    one = new_daemon(program, "peers-one", NAMES[0])
    talk = one.talk()
    within("it is alone", lambda: talk.ask(PEERS) == ALONE)
    talk.ask(insert(0, "abc"))
    other = new_daemon(program, "peers-other", NAMES[1], link=one.peers)
    beside = other.talk()
    within("both have all", lambda: rows(talk) == [row(NAMES[1], 3, 0)] and rows(beside) == [row(NAMES[0], 3, 0)])
    beside.ask(insert(0, "de"))
    within("both have more", lambda: rows(talk) == [row(NAMES[1], 5, 0)] and rows(beside) == [row(NAMES[0], 5, 0)])
    third = new_daemon(program, "peers-third", NAMES[2], link=one.peers)
    within("a third one", lambda: rows(talk) == [row(NAMES[1], 5, 0), row(NAMES[2], 5, 0)])
    third.kill()
    within("it is gone", lambda: rows(talk) == [row(NAMES[1], 5, 0)])
    more = [one.talk() for _ in range(4)]
    for it in more:
        it.ask(STATUS)
    checks.same("sessions", talk.ask(PEERS)["sessions"], 5)
    for it in more:
        it.close()
    within("one is left", lambda: talk.ask(PEERS)["sessions"] == 1)
    for daemon in (one, other):
        checks.same("the end", daemon.stop(), ({"ok": True}, (0, b"", b"")))


def check_lacking(checks, program):
    """A peer that says what it has, and takes nothing, lacks the rest."""
    daemon = new_daemon(program, "peers-lacking")
    talk = daemon.talk()
    talk.ask(insert(0, "abcd"))
    peer = Peer(daemon.peers, replica(2))
    peer.say(have())
    within("it has nothing", lambda: rows(talk) == [row(NAMES[0], 0, 4)])
    peer.say(have((replica(1), 3)))
    within("it has three", lambda: rows(talk) == [row(NAMES[0], 3, 1)])
    talk.ask(insert(0, "efg"))
    checks.same("more is here", rows(talk), [row(NAMES[0], 3, 4)])
    peer.socket.close()
    within("it is gone", lambda: rows(talk) == [])
    checks.same("the end", daemon.stop(), ({"ok": True}, (0, b"", b"")))


def check(checks, program, _until):
    try:
        check_file(checks, program)
        check_linked(checks, program)
        check_lacking(checks, program)
    except (OSError, TimeoutError) as error:
        checks.same("peers come to their end", repr(error), None)
