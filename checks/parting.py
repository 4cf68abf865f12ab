"""How sessions and links of a daemon part from it: what was answered arrives at a stop, a peer that is of no use is joined seldom, the peer
of `--link` has a place of its own, and a session for which there is no thread is answered 8.
"""

import resource
import socket
import threading
import time

from beside import link
from daemon import HOST, PATIENCE, Daemon, new_daemon, within
from frames import BYE, frame, have, hello, ops, replica, typed
from program import REPLICA, insert, line

STATUS, STOP, TEXT = line(op="status"), line(op="stop"), line(op="text", doc=1)
OTHER = REPLICA[:-1] + "2"
STOPPED, BUSY = {"ok": True}, {"code": 8, "error": "busy", "ok": False}
ASKED = 300
# A text so long that its answers fill the sockets.
LONG = 40
LINKS = 8
# A peer that takes and tells nothing is joined at once, and then with pauses of 2 and 8 seconds; one that tells something new, every 0.1 seconds.
WATCHED, JOINS, MANY = 3, 2, 7
# Room for a few stacks of threads, and tries.
ROOM, SESSIONS = 40_000_000, 16


def check_answers_arrive(checks, program):
    """A session asks much, asks for a stop, asks more, and reads only later: all that was answered arrives, with the end behind it."""
    for text, before in (("", 0), ("x" * 256, 0.5), ("", 0.5)):
        daemon = new_daemon(program, "answers")
        talk = daemon.talk()
        for _ in range(LONG if text else 0):
            talk.ask(insert(0, text))
        wanted = talk.ask(TEXT)
        talk.send(TEXT * ASKED + STOP + TEXT * ASKED)
        time.sleep(before)
        found = []
        try:
            while answer := talk.answer():
                found.append(answer)
        except OSError as error:
            checks.same("a connection that ends at a stop", repr(error), None)
        checks.same(f"answers before a stop, {len(found)} in all", found[:ASKED], [wanted] * ASKED)
        checks.same("the answer to the stop", found[ASKED : ASKED + 1], [STOPPED])
        checks.holds("answers behind it are whole", all(it == wanted for it in found[ASKED + 1 :]))
        talk.close()
        checks.same("the end", daemon.ended(), (0, b"", b""))


def greet(server, joins, more, over):
    """A peer that says HELLO, and what is given for each link, and ends each link."""
    while not over.is_set():
        try:
            made, _ = server.accept()
        except OSError:
            return
        joins.append(time.monotonic())
        try:
            made.sendall(hello(replica(9)) + more(len(joins)))
            made.shutdown(socket.SHUT_WR)
            made.settimeout(PATIENCE)
            while made.recv(65_536):
                pass
        except OSError:
            pass  # It ended the link first.
        made.close()


def count_joins(program, more):
    """How often a daemon joins such a peer in some seconds."""
    joins, over = [], threading.Event()
    with socket.create_server((HOST, 0)) as server:
        peer = threading.Thread(target=greet, args=(server, joins, more, over))
        server.settimeout(WATCHED + PATIENCE)
        peer.start()
        daemon = new_daemon(program, "joins", link=server.getsockname()[1])
        time.sleep(WATCHED)
        ended = daemon.stop()
        over.set()
        server.shutdown(socket.SHUT_RDWR)
        peer.join()
    return len(joins), ended


def told(number):
    """The operation of a peer that comes next, the first one with number 1."""
    return have() + ops(typed(replica(9), number)[-1])


def check_joins(checks, program):
    idle = {"HELLO": b"", "HELLO and BYE": frame(BYE), "a HAVE": have(), "the same operation again": told(1)}
    for what, more in idle.items():
        count, ended = count_joins(program, lambda _number, more=more: more)
        # The first time an operation is new.
        checks.holds(f"a peer that says {what} is joined {count} times in {WATCHED} s", count <= JOINS + (more == told(1)))
        checks.same("the end", ended, (STOPPED, (0, b"", b"")))
    count, _ = count_joins(program, told)
    checks.holds(f"a peer that tells something new each time is joined {count} times in {WATCHED} s", count > MANY)


def check_own_place(checks, program):
    """Eight peers that came in don't keep out the one that was asked for."""
    peer = new_daemon(program, "asked-for", OTHER)
    daemon = new_daemon(program, "asks", link=peer.peers)
    held = []
    try:
        peer.kill()
        held = [link(daemon, replica(60 + number)) for number in range(LINKS - 1)]
        more = [socket.create_connection((HOST, daemon.peers)) for _ in range(LINKS)]
        held += more
        again = Daemon(program, "asked-for", ports=(peer.sessions, peer.peers))
        peer = again
        talk, other = daemon.talk(), again.talk()
        talk.ask(insert(0, "p"))
        within("the peer that was asked for has all", lambda: other.ask(TEXT) == talk.ask(TEXT))
        checks.same("its text", other.ask(TEXT), {"ok": True, "rev": 1, "text": "p"})
        talk.close()
        other.close()
    finally:
        for it in held:
            it.close()
        for one in (daemon, peer):
            checks.same("the end of both", one.stop(), (STOPPED, (0, b"", b"")))


def size(process):
    """The address space of a process in bytes."""
    with open(f"/proc/{process}/status", encoding="ascii") as file:
        return next(int(it.split()[1]) * 1024 for it in file if it.startswith("VmSize:"))


def check_no_thread(checks, program):
    """Where there is no room for the stack of one more thread, a session is answered 8, and served again when there is."""
    daemon = new_daemon(program, "threads")
    talks = [daemon.talk()]
    checks.same("a session", talks[0].ask(STATUS)["ok"], True)
    resource.prlimit(daemon.run.pid, resource.RLIMIT_AS, (size(daemon.run.pid) + ROOM, resource.RLIM_INFINITY))
    answers = []
    for _ in range(SESSIONS):
        talks.append(daemon.talk())
        try:
            answers.append(talks[-1].ask(STATUS))
        except OSError:
            answers.append(None)
    served = [it for it in answers if it and it["ok"]]
    checks.same(f"{len(served)} sessions are served, and the others", answers[len(served) :], [BUSY] * (SESSIONS - len(served)))
    checks.holds("some are not served", len(served) < SESSIONS)
    resource.prlimit(daemon.run.pid, resource.RLIMIT_AS, (resource.RLIM_INFINITY,) * 2)
    for talk in talks:
        talk.close()

    def is_served():
        talk = daemon.talk()
        answer = talk.ask(STATUS)
        talk.close()
        return answer and answer["ok"]

    within("a session where there is room again", is_served)
    checks.same("the end", daemon.stop(), (STOPPED, (0, b"", b"")))


def check(checks, program, _until):
    for part in (check_answers_arrive, check_joins, check_own_place, check_no_thread):
        try:
            part(checks, program)
        except (OSError, TimeoutError) as error:
            checks.same(f"{part.__name__} comes to its end", repr(error), None)
