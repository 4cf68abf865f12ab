"""Three linked daemons in a row under 32 sessions and with 8 links, one of them killed every few seconds and started again: what they show
afterwards.

python3 bench/soak.py PROGRAM [MINUTES [FOLDER]]. 10 minutes, if none are given; the files are made in FOLDER, or here. Each edit inserts a
token that nothing else inserts. At the end all three have to show the same texts, each answered token once, each other one at most once,
and whole. Every third session comes by a WebSocket, and pings too. Beside the two links between them, six peers only listen: at the end each has to have been told every operation once. The first
daemon isn't killed in the first half, so that its memory can be seen beside that of the same file opened anew.
"""

import json
import os
import random
import sys
import tempfile
import threading
import time

from followers import Follower
from servers import REPLICAS, Daemon, Refused, free_port

sys.path.append(os.path.join(os.path.dirname(os.path.abspath(__file__)), "..", "checks"))
from web_frames import PING, PONG, WebSocket, frame  # the client of the checks

SESSIONS, DAEMONS, DOCUMENTS, FOLLOWERS = 32, 3, 8, 6
# Of so many sessions one comes by a WebSocket, and how many of its requests have a ping before them.
WEBS, PINGED = 3, 0.2
# A token has so many characters; nobody inserts inside one, so each is whole in the text.
TOKEN = 6
# Seconds between two edits of a session, and between two kills, at most.
PAUSE, KILLS = 0.3, 6
# Seconds until three daemons that are left alone have to show the same.
LONGEST = 120


def token(number):
    return f"{number:0{TOKEN}x}"


def resident(process):
    with open(f"/proc/{process}/status", encoding="ascii") as file:
        return next(int(line.split()[1]) * 1024 for line in file if line.startswith("VmRSS:"))


class WebTalk:
    """A session by a WebSocket."""

    def __init__(self, port, chance):
        self.socket, self.chance = WebSocket(port), chance
        if self.socket.status != 101:
            raise ConnectionError(f"status {self.socket.status}")

    def ask(self, **fields):
        is_pinged = self.chance.random() < PINGED
        if is_pinged:
            self.socket.send(frame(PING, b"there?"))
        self.socket.say(json.dumps(fields))
        if is_pinged and self.socket.frame() != (PONG, b"there?"):
            raise ConnectionError("no pong")
        answer = self.socket.answer()
        if not isinstance(answer, dict):
            raise ConnectionError("no answer")
        if not answer["ok"]:
            raise Refused(answer)
        return answer


class Tokens:
    """The tokens that were sent, by document: answered, or sent and not answered."""

    def __init__(self):
        self.lock, self.next = threading.Lock(), 0
        self.answered = [set() for _ in range(DOCUMENTS)]
        self.open = [set() for _ in range(DOCUMENTS)]
        self.refused, self.times = {}, []

    def take(self):
        with self.lock:
            self.next += 1
            return token(self.next)

    def keep(self, doc, name, took):
        with self.lock:
            self.open[doc].discard(name)
            self.answered[doc].add(name)
            self.times.append(took)

    def refuse(self, doc, name, answer):
        """A refused edit has changed nothing, but for 9, where it may be there."""
        with self.lock:
            self.refused[answer["code"]] = self.refused.get(answer["code"], 0) + 1
            if answer["code"] != 9:
                self.open[doc].discard(name)


def edit(daemon, tokens, over, chance, by_web):
    """A session that edits until it is over; where the daemon is gone it comes again."""
    talk = None
    begin = (lambda: WebTalk(daemon.web, chance)) if by_web else daemon.talk
    while not over.wait(chance.random() * PAUSE):
        doc, name = chance.randrange(DOCUMENTS), tokens.take()
        try:
            talk = talk or begin()
            begun = time.perf_counter()
            tokens.open[doc].add(name)
            talk.ask(op="insert", doc=doc + 1, at=0, text=name)
            tokens.keep(doc, name, time.perf_counter() - begun)
            if chance.random() < 0.02:
                talk.ask(op="spans", doc=doc + 1)
        except Refused as refused:
            tokens.refuse(doc, name, refused.args[0])
        except (OSError, ValueError):
            talk = None


class Row:
    """Three daemons, each of which joins the one before."""

    def __init__(self, program, folder):
        self.daemons = [Daemon(program, os.path.join(folder, f"store{n}"), REPLICAS[n], web=free_port()) for n in range(DAEMONS)]
        self.kills = 0
        for number in range(DAEMONS):
            self.start(number)

    def start(self, number):
        """Starts one; it ends at once where the one before doesn't listen, and is started again."""
        daemon = self.daemons[number]
        until = time.monotonic() + LONGEST
        while time.monotonic() < until:
            daemon.start(self.daemons[number - 1].peers if number else None)
            while daemon.run.poll() is None:
                if self.is_there(daemon):
                    return
                time.sleep(0.01)
            time.sleep(0.1)
        raise SystemExit(f"daemon {number} doesn't start")

    def is_there(self, daemon):
        try:
            talk = daemon.talk()
            talk.applied()
            talk.close()
            return True
        except (OSError, Refused):
            return False

    def kill(self, number, pause):
        self.daemons[number].kill()
        self.kills += 1
        time.sleep(pause)
        self.start(number)

    def shown(self):
        """The text of each document, by each daemon."""
        found = []
        for daemon in self.daemons:
            talk = daemon.talk()
            found.append([talk.ask(op="text", doc=doc + 1)["text"] for doc in range(DOCUMENTS)])
            talk.close()
        return found

    def applied(self):
        talk = self.daemons[0].talk()
        found = talk.applied()
        talk.close()
        return found


def memory_told(row):
    """The first daemon's memory after all its time, and after it was killed and had opened its file."""
    count, before = row.applied(), resident(row.daemons[0].run.pid)
    row.kill(0, 0)
    after = resident(row.daemons[0].run.pid)
    return f"{count:,} operations: {before / 1e6:.0f} MB resident after half the time, {after / 1e6:.0f} MB when opened anew"


def soaked(row, tokens, seconds, chance):
    """Edits and kills for so long."""
    over = threading.Event()
    threads = [
        threading.Thread(target=edit, args=(row.daemons[n % DAEMONS], tokens, over, random.Random(n), n // DAEMONS % WEBS == 0)) for n in range(SESSIONS)
    ]
    for thread in threads:
        thread.start()
    begun, told = time.monotonic(), None
    while time.monotonic() - begun < seconds:
        time.sleep(KILLS * (0.3 + 0.7 * chance.random()))
        if not told and time.monotonic() - begun >= seconds / 2:
            told = memory_told(row)
        else:
            row.kill(chance.randrange(DAEMONS) if told else 1 + chance.randrange(DAEMONS - 1), chance.random())
    over.set()
    for thread in threads:
        thread.join()
    return told


def alike(row):
    """What all show, once they show the same, and how long that took."""
    begun = time.monotonic()
    while time.monotonic() - begun < LONGEST:
        shown = row.shown()
        if all(texts == shown[0] for texts in shown):
            return shown[0], time.monotonic() - begun
        time.sleep(0.05)
    raise SystemExit(f"not the same after {LONGEST} seconds")


def faults(texts, tokens):
    """What is wrong with the texts, by the tokens that were sent."""
    wrong = []
    for doc, text in enumerate(texts):
        there = [text[at : at + TOKEN] for at in range(0, len(text), TOKEN)]
        kept, is_open = tokens.answered[doc], tokens.open[doc]
        if len(there) != len(set(there)):
            wrong.append(f"document {doc + 1}: {len(there) - len(set(there))} tokens more than once")
        if kept - set(there):
            wrong.append(f"document {doc + 1}: {len(kept - set(there))} answered tokens aren't there")
        if set(there) - kept - is_open:
            wrong.append(f"document {doc + 1}: {len(set(there) - kept - is_open)} tokens that nobody sent")
    return wrong


def followed(row, followers):
    """What is wrong with what the peers were told that only listen."""
    count = row.applied()
    told = [it.told(count) for it in followers]
    found = [f"peer {n} was told {found} operations, {again} of them again, of {count}" for n, (found, again) in enumerate(told) if (found, again) != (count, 0)]
    for it in followers:
        it.end()
    return found


def told(tokens, row, texts, took, memory, followers):
    times = sorted(tokens.times)
    answered = sum(map(len, tokens.answered))
    there = sum(map(len, texts)) // TOKEN
    print(f"| answered edits | {answered:,} |")
    print(f"| unanswered ones, of them there | {sum(map(len, tokens.open)):,}, {there - answered:,} |")
    print(f"| refused ones, by number | {tokens.refused or 'none'} |")
    print(f"| kills | {row.kills} |")
    print(f"| p50, p99 and greatest time of an answer | {times[len(times) // 2] * 1e3:.1f}, {times[len(times) * 99 // 100] * 1e3:.1f}, {times[-1] * 1e3:.0f} ms |")
    print(f"| until all three showed the same | {took:.2f} s |")
    print(f"| peers that only listen, their links | {len(followers)}, {sum(it.links for it in followers)} |")
    print(f"| memory of the first daemon | {memory} |")


def main():
    program = os.path.abspath(sys.argv[1])
    minutes = float(sys.argv[2]) if len(sys.argv) > 2 else 10
    with tempfile.TemporaryDirectory(dir=sys.argv[3] if len(sys.argv) > 3 else ".") as folder:
        row, tokens = Row(program, os.path.abspath(folder)), Tokens()
        followers = [Follower(n, row.daemons[n % DAEMONS].peers) for n in range(FOLLOWERS)]
        for follower in followers:
            follower.start()
        try:
            memory = soaked(row, tokens, minutes * 60, random.Random(5))
            texts, took = alike(row)
            wrong = followed(row, followers)
            for daemon in reversed(row.daemons):
                daemon.stop()
        finally:
            for daemon in row.daemons:
                daemon.kill()
    told(tokens, row, texts, took, memory, followers)
    wrong += faults(texts, tokens)
    print("\n".join(wrong) or "all texts are as they should be")
    return 1 if wrong else 0


if __name__ == "__main__":
    sys.exit(main())
