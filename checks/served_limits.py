"""A daemon at the limits of its machine: few open files, a full disk; and stops while many sessions edit."""

import json
import os
import resource
import socket
import subprocess
import time

from beside import Beside, together
from daemon import HOST, PATIENCE, Daemon, free_ports, new_daemon, within
from full_disk import limited
from program import PAGE, REPLICA, fault, insert, line, new_file, run, text_of

OTHER = REPLICA[:-1] + "2"
STATUS, STOP = line(op="status"), line(op="stop")
FILES, COMERS = 24, 60
# Each wait for a connection holds the number of one more file, which the system doesn't list.
LISTENERS = 2
SOON = 3
EDITORS, EDITS = 8, 400
FAILED = {"code": 9, "error": "failed", "ok": False}


def few_files():
    resource.setrlimit(resource.RLIMIT_NOFILE, (FILES, FILES))


def check_few_files(checks, program):
    """More connections than files may be open: those that are served go on, and when the others are gone new ones are served."""
    new_file(program, "few-served")
    daemon = Daemon(program, "few-served", preexec_fn=few_files)
    try:
        with Beside(daemon, 2) as beside:
            comers = [socket.create_connection((HOST, port)) for port in (daemon.sessions, daemon.peers) for _ in range(COMERS)]
            time.sleep(0.5)
            for comer in comers:
                comer.close()
        beside.told(checks, "more connections than files", 2, 16_000_000)

        def is_served():
            talk = daemon.talk()
            try:
                return talk.ask(STATUS) in ({"applied": n, "ok": True, "settled": n, "state": "open"} for n in [beside.edits])
            except OSError:
                return False
            finally:
                talk.close()

        within("a new session is served", is_served)
        checks.same("the end after few files", daemon.stop(), ({"ok": True}, (0, b"", b"")))
    finally:
        if daemon.run.poll() is None:
            daemon.kill()


def check_end_without_files(checks, program):
    """A stop where sessions hold all files that may be open."""
    new_file(program, "none-left")
    daemon = Daemon(program, "none-left", preexec_fn=few_files)
    talks = []
    try:
        within("no more sessions are served", lambda: not is_served(daemon, talks))
        open_files = len(os.listdir(f"/proc/{daemon.run.pid}/fd"))
        checks.holds(f"{len(talks)} sessions hold {open_files} of {FILES} files", len(talks) > 2 and open_files + LISTENERS >= FILES)
        checks.same("an edit where no file is left", talks[0].ask(insert(0, "n")), {"ok": True, "rev": 1})
        checks.same("a stop where no file is left", talks[0].ask(STOP), {"ok": True})
        checks.same("the end where no file is left", daemon.ended(), (0, b"", b""))
    finally:
        for talk in talks:
            talk.close()
        if daemon.run.poll() is None:
            daemon.kill()


def is_served(daemon, talks):
    """Whether one more session is served within seconds; it is kept."""
    talks.append(daemon.talk())
    talks[-1].socket.settimeout(SOON)
    try:
        talks[-1].send(STATUS)
        answer = talks[-1].answer()
    except (TimeoutError, OSError):
        answer = None
    talks[-1].socket.settimeout(PATIENCE)
    is_one = bool(answer and answer["ok"])
    if not is_one:
        talks.pop().close()
    return is_one


def check_full_disk(checks, program):
    """The disk is full while a daemon serves, and a peer tells it more: edits are answered 9, reads go on, and it ends with 9."""
    new_file(program, "full-served")
    run(program, "init", "full-peer", "--replica", OTHER)
    peer = Daemon(program, "full-peer")
    daemon = Daemon(program, "full-served", link=peer.peers, **limited(40 * PAGE))
    try:
        talk, other = daemon.talk(), peer.talk()
        answers = []
        for number in range(200):
            other.ask(insert(0, "p", 2))
            answers.append(talk.ask(insert(0, "f" * 256)))
        ok = [answer for answer in answers if answer["ok"]]
        checks.same("edits on a full disk", answers, ok + [FAILED] * (len(answers) - len(ok)))
        checks.holds(f"{len(ok)} edits before the disk is full", 0 < len(ok) < len(answers))
        checks.same("the state on a full disk", talk.ask(STATUS)["state"], "failed")
        checks.holds("a text on a full disk", talk.ask(line(op="text", doc=1))["ok"])
        checks.holds("the peer goes on", other.ask(insert(0, "p", 2))["ok"])
        other.close()
        checks.same("a stop on a full disk", talk.ask(STOP), FAILED)
        checks.same("the end on a full disk", daemon.ended(), (1, b"", b"peritext: 9 failed\n"))
        count = len(text_of(program, "full-served")) // 256
        checks.holds(f"{len(ok)} answered, {count} there", len(ok) <= count <= len(ok) + 1)
        checks.same("whole edits after a full disk", text_of(program, "full-served"), "f" * 256 * count)
        again = Daemon(program, "full-served", ports=(daemon.sessions, daemon.peers), link=peer.peers)
        talk, other = again.talk(), peer.talk()
        both = lambda: talk.ask(line(op="text", doc=2)) == other.ask(line(op="text", doc=2))
        within("what the peer has comes when there is room again", both)
        talk.close()
        other.close()
        checks.same("the end when there is room", again.stop(), ({"ok": True}, (0, b"", b"")))
        peer.stop()
    finally:
        for one in (daemon, peer):
            if one.run.poll() is None:
                one.kill()


def check_stop_under_load(checks, program):
    """A stop while sessions edit without waiting: each answered edit is in the file, and each other one is refused or unanswered."""
    new_file(program, "stopped")
    daemon = Daemon(program, "stopped")
    answered, talks = [0] * EDITORS, [daemon.talk() for _ in range(EDITORS)]

    def edit(number):
        talk = talks[number]
        try:
            talk.send(insert(0, "s", number + 1) * EDITS)
            while (answer := talk.answer()) and answer["ok"]:
                answered[number] += 1
        except OSError:
            return

    def stop():
        within("some edits", lambda: sum(answered) > EDITORS * EDITS // 20)
        talk = daemon.talk()
        checks.same("a stop under load", talk.ask(STOP), {"ok": True})
        talk.close()

    together(*[lambda number=number: edit(number) for number in range(EDITORS)], stop)
    checks.same("the end under load", daemon.ended(), (0, b"", b""))
    for number in range(EDITORS):
        shown = json.loads(run(program, "dump", "stopped", str(number + 1))[1].splitlines()[0])
        checks.holds(f"session {number}: {answered[number]} answered, {shown['rev']} there", answered[number] <= shown["rev"] <= answered[number] + 1)


def check_half_closed(checks, program):
    """A session that says all and then only listens is answered all."""
    daemon = new_daemon(program, "half-closed")
    talk = daemon.talk()
    talk.send(insert(0, "h") * 50 + STATUS + b'{"op":"te')
    talk.socket.shutdown(socket.SHUT_WR)
    answers = [talk.answer() for _ in range(51)]
    checks.same("answers after the end of what is said", [answer["ok"] for answer in answers], [True] * 51)
    checks.holds("then it ends", talk.ended())
    checks.same("the end after that", daemon.stop(), ({"ok": True}, (0, b"", b"")))


def check_refused(checks, program):
    """A daemon that could serve nobody, or whose peer is itself, says so at once."""
    new_file(program, "refused")
    first, second = (str(port) for port in free_ports(2))
    words = ("serve", "refused", "--sessions", first, "--peers", second)
    for files in (8, 9):
        few = {"preexec_fn": lambda files=files: resource.setrlimit(resource.RLIMIT_NOFILE, (files, files))}
        checks.same(f"a daemon with {files} descriptors", run(program, *words, **few), fault(1))
    for port in (first, second):
        checks.same("a daemon that is its own peer", run(program, *words, "--link", port), fault(70))


def check(checks, program, _until):
    for part in (check_few_files, check_end_without_files, check_full_disk, check_stop_under_load, check_half_closed, check_refused):
        try:
            part(checks, program)
        except (OSError, TimeoutError, subprocess.TimeoutExpired) as error:
            checks.same(f"{part.__name__} comes to its end", repr(error), None)
