"""Edits that act once: lines with a token that are sent again, in one session, after a reopening, behind a stop, behind a failed device, at a peer,
and while a daemon is killed at random moments. By itself, for longer: python3 checks/tokens.py PROGRAM SECONDS."""

import json
import os
import random
import resource
import sys
import tempfile
import threading
import time
import uuid

from agreed import refused
from daemon import Daemon, Talk, free_ports, new_daemon, within
from program import NAME, PAGE, REPLICA, Checks, delete, insert, line, new_file, read, run, text_of, texts

TOKEN = "00000000-0000-4000-8000-0000000000d1"
OTHER = "00000000-0000-4000-8000-0000000000d2"
PEER = REPLICA[:-1] + "2"
STOP, TEXT = line(op="stop"), line(op="text", doc=1)
OK, STALE, RANGE, FIELD = {"ok": True}, refused(6), refused(5), refused(4)
STOPPING, FAILED = {"code": 12, "error": "stopping", "ok": False}, {"code": 9, "error": "failed", "ok": False}
# The record of the first edit below: an insert with its token behind the deps.
FIRST = bytes.fromhex("00000033" "11" "00000001" "0000000000000001") + NAME + bytes.fromhex("00" "000000000000400080000000000000d1" "00" "00000061")
SESSIONS, DOCUMENTS = 32, 4
# Seconds of kills where the checks are run together, and between two kills at most.
SHORT, BETWEEN = 12, 0.8


def token_insert(at, text, token=TOKEN, doc=1, **more):
    return line(op="insert", doc=doc, at=at, text=text, token=token, **more)


def done(rev):
    return {"ok": True, "rev": rev}


def shown(rev, text):
    return {"ok": True, "rev": rev, "text": text}


# Each of the four edits, made with a token and sent again, with other fields too, for the token alone decides.
ROWS = [
    (token_insert(0, "a"), done(1)), (token_insert(0, "a"), done(1)), (TEXT, shown(1, "a")), (insert(1, "b"), done(2)), (token_insert(0, "a"), done(1)),
    (token_insert(9, "x"), done(1)), (token_insert(0, "a", doc=2), done(1)), (token_insert(0, "a", rev=77), done(1)),
    (token_insert(0, "a", TOKEN.replace("-", "").upper()), done(1)), (line(op="delete", doc=1, at=0, count=1, token=TOKEN), done(1)),
    (line(op="delete", doc=1, at=0, count=1, token=OTHER), done(3)), (line(op="delete", doc=1, at=0, count=1, token=OTHER), done(3)), (TEXT, shown(3, "b")),
    (line(op="mark", doc=1, **{"from": 0}, to=1, kind="em", token=OTHER[:-1] + "3"), done(4)),
    (line(op="mark", doc=1, **{"from": 0}, to=1, kind="em", token=OTHER[:-1] + "3"), done(4)),
    (line(op="unmark", doc=1, **{"from": 0}, to=1, kind="em", token=OTHER[:-1] + "4"), done(5)),
    (line(op="unmark", doc=1, **{"from": 0}, to=1, kind="em", token=OTHER[:-1] + "4"), done(5)),
    (token_insert(0, "long " * 20, OTHER[:-1] + "5"), done(105)), (token_insert(0, "long " * 20, OTHER[:-1] + "5"), done(105)),
]
# Lines of a fresh store that are refused; none of them leaves a token.
REFUSED = [
    (token_insert(9, "a"), RANGE), (token_insert(0, "a", rev=1), STALE), (token_insert(0, "", ), FIELD),
    (token_insert(0, "a", str(uuid.UUID(int=0))), FIELD), (token_insert(0, "a", None), FIELD), (token_insert(0, "a", 7), FIELD),
    (token_insert(0, "a", "d1"), FIELD), (line(op="text", doc=1, token=TOKEN), FIELD), (line(op="stop", token=TOKEN), FIELD),
    (token_insert(0, "a"), done(1)),
]


def answers_of(program, name, requests):
    """What a session answers to these lines."""
    _, output, _ = run(program, "edit", name, lines=b"".join(requests))
    return [json.loads(answer) for answer in output.splitlines()]


def check_rows(checks, program):
    for what, rows in (("tokens", ROWS), ("tokens of refused edits", REFUSED)):
        new_file(program, "rows")
        checks.same(f"{what}: a session", answers_of(program, "rows", [request for request, _ in rows]), [answer for _, answer in rows])
        daemon = new_daemon(program, "served")
        talk, other = daemon.talk(), daemon.talk()
        for number, (request, answer) in enumerate(rows):
            checks.same(f"{what}: {number} of a daemon's sessions", (other if number % 2 else talk).ask(request), answer)
        daemon.stop()
    new_file(program, "rows")
    checks.same("the first one", answers_of(program, "rows", [token_insert(0, "a")]), [done(1)])
    checks.same("its record", read("rows")[2 * PAGE : 2 * PAGE + len(FIRST) + 1], FIRST + b"\0")
    again = [insert(1, "b"), token_insert(0, "a"), STOP, token_insert(0, "a"), token_insert(0, "c", OTHER)]
    checks.same("after a reopening, and behind a stop", answers_of(program, "rows", again), [done(2), done(1), OK, done(1), STOPPING])
    checks.same("the text", run(program, "dump", "rows", "1"), (0, texts(2, "ab"), b""))
    checks.same("once more", answers_of(program, "rows", [token_insert(0, "a"), token_insert(0, "c", OTHER), token_insert(0, "c", OTHER)]), [done(1), done(3), done(3)])


def limit():
    resource.setrlimit(resource.RLIMIT_FSIZE, (12 * PAGE, 12 * PAGE))


def check_failed_daemon(checks, program):
    """The same of a daemon, in two of its sessions; and a known edit in one burst behind a stop."""
    daemon = new_daemon(program, "failing", preexec_fn=limit)
    one, other = daemon.talk(), daemon.talk()
    edits = [token_insert(0, "f" * 256, str(uuid.UUID(int=k + 1))) for k in range(40)]
    answers = [one.ask(edit) for edit in edits]
    settled = sum(answer["ok"] for answer in answers)
    wanted = [done(256 * (k + 1)) if k < settled else FAILED for k in range(40)]
    checks.holds(f"a daemon on a full disk: {settled} settled", 0 < settled < 40)
    checks.same("a daemon on a full disk: each answer", answers, wanted)
    checks.same("each again, in another session", [other.ask(edit) for edit in edits], wanted)
    daemon.kill()
    daemon = new_daemon(program, "stopping")
    talk = daemon.talk()
    talk.send(token_insert(0, "a") + STOP + token_insert(0, "a") + token_insert(0, "b", OTHER))
    checks.same("a daemon's stop, and behind it", [talk.answer() for _ in range(4)], [done(1), OK, done(1), STOPPING])
    checks.same("the end", daemon.ended(), (0, b"", b""))


def check_failed(checks, program):
    """Behind a device that failed, what was settled before is answered as it was; a new edit isn't, and is there once or not at all."""
    new_file(program, "failed")
    tokens = [str(uuid.UUID(int=k + 1)) for k in range(40)]
    edits = [token_insert(0, "f" * 256, token) for token in tokens]
    _, output, faults = run(program, "edit", "failed", lines=b"".join(edits) + b"".join(edits), preexec_fn=limit)
    answers = [json.loads(answer) for answer in output.splitlines()]
    settled = sum(answer["ok"] for answer in answers[:40])
    wanted = [done(256 * (k + 1)) if k < settled else FAILED for k in range(40)]
    checks.holds(f"a full disk: {settled} settled", 0 < settled < 40)
    checks.same("a full disk: each answer, and each again", (answers, faults), (wanted + wanted, b"peritext: 9 failed\n"))
    checks.same("after it: each again", answers_of(program, "failed", edits), [done(256 * (k + 1)) for k in range(40)])
    checks.same("after it: the text", text_of(program, "failed"), "f" * 256 * 40)


def check_peer(checks, program):
    """A token counts at the peer that made its edit."""
    one = new_daemon(program, "one")
    other = new_daemon(program, "other", PEER, link=one.peers)
    here, there = one.talk(), other.talk()
    checks.same("an edit here", here.ask(token_insert(0, "a")), done(1))
    within("it is there", lambda: there.ask(TEXT)["text"] == "a")
    checks.same("its token there is another edit's", there.ask(token_insert(1, "b")), done(2))
    within("that is here", lambda: here.ask(TEXT)["text"] == "ab")
    checks.same("the token here", here.ask(token_insert(0, "a")), done(1))
    checks.same("the token there", there.ask(token_insert(0, "a")), done(2))
    for daemon in (one, other):
        daemon.stop()


class Sender:
    """A session that sends each line until it is answered, and some of them again: what it was answered, by token."""

    def __init__(self, daemon, number, chance, until):
        self.daemon, self.number, self.chance, self.until = daemon, number, chance, until
        self.first, self.lines, self.marks, self.faults, self.repeats = {}, {}, [], [], 0
        self.talk = None

    def run(self):
        count = 0
        while time.monotonic() < self.until:
            token, mark = str(uuid.uuid4()), f"<{self.number}:{count}>"
            self.lines[token] = token_insert(0, mark, token, doc=1 + self.number % DOCUMENTS)
            self.marks.append(mark)
            self.send(token)
            while self.chance.random() < 0.3:
                self.send(self.chance.choice(list(self.lines)))
            count += 1
        if self.talk:
            self.talk.close()

    def send(self, token):
        """Sends a line until it is answered."""
        while True:
            try:
                self.talk = self.talk or Talk(self.daemon.sessions)
                answer = self.talk.ask(self.lines[token])
            except OSError:
                answer = None
            if answer and answer["ok"]:
                self.repeats += token in self.first
                if self.first.setdefault(token, answer) != answer:
                    self.faults.append((self.lines[token], self.first[token], answer))
                return
            if answer and answer["code"] not in (8, 9, 10, 12):
                self.faults.append((self.lines[token], answer))
                return
            if answer is None or answer["code"] in (9, 10, 12):
                self.talk.close() if self.talk else None
                self.talk = None
                time.sleep(0.01)


def check_kills(checks, program, seconds):
    """A daemon with 32 sessions and a peer that is killed again and again: each line acts once, and each answer is the first one."""
    chance = random.Random()
    daemon = new_daemon(program, "killed")
    peer = new_daemon(program, "peer", PEER, link=daemon.peers)
    until = time.monotonic() + seconds
    # One place is kept for whoever asks whether the daemon is there.
    senders = [Sender(daemon, number, random.Random(chance.random()), until) for number in range(SESSIONS - 1)]
    threads = [threading.Thread(target=sender.run) for sender in senders]
    for thread in threads:
        thread.start()
    kills = 0
    while time.monotonic() < until:
        time.sleep(BETWEEN * chance.random())
        daemon.kill()
        daemon.start()
        kills += 1
    for thread in threads:
        thread.join()
    made = sum(len(sender.first) for sender in senders)
    repeats = sum(sender.repeats for sender in senders)
    checks.same(f"{kills} kills, {made} edits, {repeats} sent again: other answers", [fault for sender in senders for fault in sender.faults][:3], [])
    checks.holds("some were sent again", repeats > 0)
    texts_here = [daemon_text(daemon, doc) for doc in range(1, DOCUMENTS + 1)]
    for doc, text in enumerate(texts_here, 1):
        wanted = sorted(mark for sender in senders for mark in sender.marks if 1 + sender.number % DOCUMENTS == doc)
        checks.same(f"document {doc}: each edit is there once", sorted(part + ">" for part in text.split(">") if part), wanted)
    within("the peer has it all", lambda: [daemon_text(peer, doc) for doc in range(1, DOCUMENTS + 1)] == texts_here)
    checks.holds("the peer has the same", True)
    for one in (daemon, peer):
        one.stop()


def daemon_text(daemon, doc):
    talk = daemon.talk()
    try:
        return talk.ask(line(op="text", doc=doc))["text"]
    finally:
        talk.close()


def check(checks, program, until):
    check_rows(checks, program)
    check_failed(checks, program)
    check_failed_daemon(checks, program)
    check_peer(checks, program)
    check_kills(checks, program, SHORT)


if __name__ == "__main__":
    all_checks = Checks()
    the_program = os.path.abspath(sys.argv[1])
    with tempfile.TemporaryDirectory(prefix="peritext-") as room:
        os.chdir(room)
        check_kills(all_checks, the_program, float(sys.argv[2]))
    print(f"{all_checks.passed} passed, {all_checks.failed} failed")
    sys.exit(1 if all_checks.failed else 0)
