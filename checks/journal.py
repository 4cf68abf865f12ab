"""What a daemon tells with `--log`, a line for each event; that it waits for nobody who reads them; and that it tells nothing without."""

import os
import pty
import re
import shutil
import signal
import socket
import subprocess
import time

from agreed import refused, sentences
from daemon import HOST, PATIENCE, Daemon, Talk, connection, free_ports, new_daemon, within
from full_disk import limited
from program import PAGE, REPLICA, fault, insert, line, new_file

STOP = line(op="stop")
BUSY = refused(8)
# The replica of the other file.
OTHER = "00000000-0000-4000-8000-000000000002"
FIELD = re.compile(r'(\w+)=("[^"]*"|[^ "]+)(?: |$)')
# Sessions that come and go: each is two lines, together more than a pipe holds.
SESSIONS = 1_500
# Seconds in which a daemon has ended whose lines nobody reads.
SECONDS = 8


def events(said):
    """The events of a standard error, each as its fields; a line that is none is its text."""
    found = []
    for text in said.decode().splitlines():
        fields = FIELD.findall(text)
        whole = " ".join(f"{name}={value}" for name, value in fields) == text
        found.append({name: value.strip('"') for name, value in fields} if whole else text)
    return found


class Logging(Daemon):
    """A daemon with `--log`, and with more flags."""

    flags = ()

    def words(self):
        return [*super().words(), "--log", *self.flags]


class Ending(Logging):
    flags = ("--end-on-failure",)


def ended_by(code, reason, name, **about):
    """The last event of a daemon that a refusal ended, whose sentence has this name."""
    return {"event": "end", "code": str(code), "reason": reason, "status": "1", "cause": sentences()[name][2], **about}


def only(told, name):
    return [event for event in told if isinstance(event, dict) and event.get("event") == name]


def check_linked(checks, program):
    """Two daemons that are linked, and a session of one of them."""
    new_daemon(program, "first").stop()
    new_daemon(program, "second", OTHER).stop()
    first = Logging(program, "first")
    second = Logging(program, "second", link=first.peers)
    talk = first.talk()
    checks.same("an edit", talk.ask(insert(0, "abc")), {"ok": True, "rev": 3})
    talk.close()
    seen = second.talk()
    within("the edit comes over the link", lambda: seen.ask(line(op="status"))["applied"] == 3)
    seen.close()
    _, ended = second.stop()
    checks.same("the second's end", ended[:2], (0, b""))
    joined = events(ended[2])
    _, ended = first.stop()
    checks.same("the first's end", ended[:2], (0, b""))
    came = events(ended[2])
    listening = {"event": "listening", "file": "first", "replica": REPLICA, "sessions": str(first.sessions), "peers": str(first.peers), "operations": "0", "documents": "0"}
    checks.same("where the first listens", came[0], listening)
    checks.same("its last line", came[-1], {"event": "end", "code": "0", "reason": "stopped"})
    up = only(came, "link_up")
    checks.same("the link that came", [(it["link"], it["way"], it["replica"]) for it in up], [("0", "came", OTHER)])
    checks.same("its end", [(it["link"], it["code"]) for it in only(came, "link_down")], [("0", "0")])
    up = only(joined, "link_up")
    checks.same("the link that was joined", [(it["link"], it["way"], it["port"], it["replica"]) for it in up], [("0", "joined", str(first.peers), REPLICA)])
    checks.same("sessions that came", len(only(came, "session_up")), len(only(came, "session_down")))
    checks.holds("each session has an end", only(came, "session_up") and all(it["code"] == "0" for it in only(came, "session_down")))
    checks.same("by which door they came", {it["door"] for it in only(came + joined, "session_up")}, {"sessions"})
    checks.same("they are no WebSockets", [it for it in came + joined if "close" in it or "origin" in it], [])
    checks.same("lines that are no events", [it for it in came + joined if isinstance(it, str)], [])
    again = Logging(program, "first")
    _, ended = again.stop()
    checks.same("what is there when it is opened again", [(it["operations"], it["documents"]) for it in only(events(ended[2]), "listening")], [("3", "1")])


def check_copy(checks, program):
    """A file and its copy: both ends are told."""
    new_daemon(program, "original").stop()
    shutil.copy("original", "the copy")
    original = Logging(program, "original")
    copy = Logging(program, "the copy", link=original.peers)
    time.sleep(1)
    for daemon, way in ((copy, "joined"), (original, "came")):
        _, ended = daemon.stop()
        told = events(ended[2])
        checks.holds(f"the copy is told where it {way}: {only(told, 'copy')}", any(it["way"] == way and it["replica"] == REPLICA for it in only(told, "copy")))
        checks.holds(f"and the end of its link: {only(told, 'link_down')}", any(it["code"] == "26" for it in only(told, "link_down")))
        checks.same("no link is up", only(told, "link_up"), [])
        checks.same("the file's name", only(told, "listening")[0]["file"], daemon.name)


def check_nonsense(checks, program):
    """A peer that speaks no frames."""
    new_file(program, "asked")
    daemon = Logging(program, "asked")
    with connection(daemon.peers) as peer:
        peer.sendall(b"GET / HTTP/1.1\r\n\r\n" * 8)
        while peer.recv(4096):
            pass
    _, ended = daemon.stop()
    told = events(ended[2])
    checks.same("no link is up with such a peer", only(told, "link_up"), [])
    checks.holds(f"the number of its end: {only(told, 'link_down')}", [it["code"] for it in only(told, "link_down")] in (["25"], ["26"]))


def check_failing(checks, program):
    """A device that fails."""
    new_file(program, "failing")
    daemon = Ending(program, "failing", **limited(12 * PAGE))
    talk = daemon.talk()
    for _ in range(400):
        answer = talk.ask(insert(0, "x" * 256))
        if not answer or not answer["ok"]:
            break
    checks.same("the edit that finds no room", answer, {"code": 9, "error": "failed", "ok": False})
    talk.close()
    status, output, said = daemon.ended()
    told = events(said.removesuffix(fault(9)[2]))
    checks.same("the end of a failed one", (status, output, said.endswith(fault(9)[2])), (1, b"", True))
    checks.same("the commit that failed", only(told, "commit_failed"), [{"event": "commit_failed", "code": "9", "reason": "failed"}])
    checks.same("its last event", told[-1], ended_by(9, "failed", "Failed", file="failing"))


def check_unread(checks, program):
    """Nobody reads the lines, while sessions come and go: none of them waits, and the daemon ends in time."""
    new_file(program, "unread")
    daemon = Logging(program, "unread")
    started = time.monotonic()
    longest = 0
    for i in range(SESSIONS):
        begun = time.monotonic()
        talk = Talk(daemon.sessions)
        talk.ask(line(op="status") if i % 10 else insert(0, "a"))
        talk.close()
        longest = max(longest, time.monotonic() - begun)
    checks.holds(f"no session waits for a reader: {longest:.2f} s at the longest", longest < 3)
    talk = daemon.talk()
    begun = time.monotonic()
    checks.same("the stop", talk.ask(STOP), {"ok": True})
    talk.close()
    try:
        checks.same("the status", daemon.run.wait(timeout=SECONDS), 0)
    except subprocess.TimeoutExpired:
        checks.holds("it ends though nobody reads", False)
        daemon.run.kill()
    print(f"  {SESSIONS} sessions in {begun - started:.1f} s, ended after {time.monotonic() - begun:.1f} s")
    _, said = daemon.run.communicate(timeout=PATIENCE)
    # The last line may have been cut off where there was no more room.
    told = events(said[: said.rfind(b"\n") + 1])
    checks.holds("what was read are events", told and all(isinstance(it, dict) for it in told))
    checks.holds("less was kept than was told", len(told) < 2 * SESSIONS)


def check_slow(checks, program):
    """Somebody reads again: what was dropped is counted."""
    new_file(program, "slow")
    daemon = Logging(program, "slow")
    for _ in range(SESSIONS):
        Talk(daemon.sessions).close()
    time.sleep(0.5)
    stopper = daemon.talk()
    # From here on all is read.
    reading = subprocess.Popen(["cat"], stdin=daemon.run.stderr, stdout=subprocess.PIPE)
    time.sleep(0.5)
    checks.same("the stop", stopper.ask(STOP), {"ok": True})
    said, _ = reading.communicate(timeout=PATIENCE)
    checks.same("the status", daemon.run.wait(timeout=PATIENCE), 0)
    told = events(said)
    counted = sum(int(it["count"]) for it in only(told, "dropped"))
    sessions = len(only(told, "session_up")) + len(only(told, "session_down"))
    checks.holds(f"{counted} lines were dropped", counted > 0)
    # One that finds no place has a line, any other two.
    lines = counted + sessions + len(only(told, "session_refused"))
    checks.holds(f"no line is lost without being counted: {lines}", SESSIONS + 2 <= lines <= 2 * (SESSIONS + 2))
    checks.same("the last line", told[-1], {"event": "end", "code": "0", "reason": "stopped"})


def check_gone(checks, program):
    """Whoever read the lines has gone."""
    new_file(program, "gone")
    daemon = Logging(program, "gone")
    daemon.run.stderr.close()
    talk = daemon.talk()
    checks.same("an edit after the reader has gone", talk.ask(insert(0, "a")), {"ok": True, "rev": 1})
    checks.same("the stop", talk.ask(STOP), {"ok": True})
    talk.close()
    checks.same("the status", daemon.run.wait(timeout=PATIENCE), 0)
    daemon.run.stdout.close()


def check_silent(checks, program):
    """Without the flag nothing is written, and on a terminal where it listens and its end alone."""
    new_daemon(program, "silent").stop()
    new_daemon(program, "other silent", OTHER).stop()
    first = Daemon(program, "silent")
    second = Daemon(program, "other silent", link=first.peers)
    for daemon in (second, first):
        Talk(daemon.sessions).close()
        checks.same("a daemon that tells nothing", daemon.stop(), ({"ok": True}, (0, b"", b"")))
    sessions, peers = free_ports(2)
    shown, end = pty.openpty()
    run = subprocess.Popen([program, "serve", "silent", "--sessions", str(sessions), "--peers", str(peers)], stdin=subprocess.DEVNULL, stdout=subprocess.DEVNULL, stderr=end)
    os.close(end)
    talk = Talk(sessions)
    checks.same("the stop", talk.ask(STOP), {"ok": True})
    talk.close()
    checks.same("the status", run.wait(timeout=PATIENCE), 0)
    said = b""
    try:
        while more := os.read(shown, 4096):
            said += more
    except OSError:
        pass
    os.close(shown)
    told = events(said.replace(b"\r\n", b"\n"))
    checks.same("the events on a terminal", [it["event"] for it in told], ["listening", "end"])


def stopped(sessions):
    """The answer to a stop: asked again where the sessions that have ended still have all places, as on a busy machine."""
    end = time.monotonic() + PATIENCE
    while True:
        talk = Talk(sessions)
        answer = talk.ask(STOP)
        talk.close()
        if answer != BUSY or time.monotonic() > end:
            return answer


def check_terminal(checks, program):
    """A terminal that nobody reads takes a few lines, and then keeps its writer: the daemon ends in time all the same."""
    new_file(program, "shown")
    sessions, peers = free_ports(2)
    shown, end = pty.openpty()
    words = [program, "serve", "shown", "--sessions", str(sessions), "--peers", str(peers), "--log"]
    run = subprocess.Popen(words, stdin=subprocess.DEVNULL, stdout=subprocess.DEVNULL, stderr=end)
    os.close(end)
    for _ in range(SESSIONS // 2):
        Talk(sessions).close()
    checks.same("the stop of one on a terminal", stopped(sessions), {"ok": True})
    begun = time.monotonic()
    try:
        checks.same("its status", run.wait(timeout=SECONDS), 0)
    except subprocess.TimeoutExpired:
        checks.holds("it ends though nobody reads the terminal", False)
        run.kill()
        run.wait()
    print(f"  on a terminal that nobody reads it ended after {time.monotonic() - begun:.1f} s")
    os.close(shown)


def check_refused(checks, program):
    """A daemon that can't begin tells of the refusal, and why with --log."""
    new_file(program, "refused")
    sessions, peers, taken, nobody = free_ports(4)
    serve = ("serve", "refused", "--sessions", str(sessions), "--peers", str(peers))
    with socket.socket() as other:
        other.bind((HOST, taken))
        other.listen()
        for words, number, ended in (
            (("serve", "not there", *serve[2:]), 54, ended_by(54, "open failed", "NotThere", file="not there")),
            ((*serve[:3], str(taken), *serve[4:]), 70, ended_by(70, "socket", "PortTaken", port=str(taken))),
            ((*serve, "--link", str(nobody)), 70, ended_by(70, "socket", "NoPeer", port=str(nobody))),
            ((*serve, "--web", str(nobody), "--origin", "none"), 4, ended_by(4, "field", "Origin")),
        ):
            ran = subprocess.run([program, *words, "--log"], capture_output=True, timeout=60)
            wanted = fault(number)[2]
            checks.same(f"a refusal with --log {words}", (ran.returncode, ran.stdout, ran.stderr[-len(wanted) :]), (1, b"", wanted))
            checks.same("and why", events(ran.stderr.removesuffix(wanted)), [ended])
            ran = subprocess.run([program, *words], capture_output=True, timeout=60)
            checks.same(f"and without {words}", (ran.returncode, ran.stdout, ran.stderr), (1, b"", wanted))


def check_killed(checks, program):
    """A daemon that is ended by a signal can tell of no end."""
    daemon = Logging(program, "refused")
    daemon.run.terminate()
    status, output, said = daemon.ended()
    checks.same("one that was ended by TERM", (status, output, only(events(said), "end")), (-signal.SIGTERM, b"", []))


def check(checks, program, _until):
    check_linked(checks, program)
    check_copy(checks, program)
    check_nonsense(checks, program)
    check_failing(checks, program)
    check_unread(checks, program)
    check_slow(checks, program)
    check_gone(checks, program)
    check_silent(checks, program)
    check_terminal(checks, program)
    check_refused(checks, program)
    check_killed(checks, program)
