"""Recorded programs that are killed after one of their writes, and whoever opens the file then: what a killed program wrote and didn't sync isn't
settled, though whoever opens the file reads it.
"""

import itertools
import signal

from call_order import KILLED
from chance_edits import edits
from daemon import PATIENCE, Daemon, within
from frames import OPS, Peer, have, replica
from program import insert, line, new_file, read, run
from recorder import STOPPED
from watching import watching

STATUS = line(op="status")
# An edit behind four characters whose session is killed after each of its commit's writes: two pages, the close, the body and the gate.
KNOWN = line(op="insert", doc=1, at=4, text="killed", token="00000000-0000-4000-8000-0000000000e1")
WRITES = 5
# Edits at each of two linked daemons, and after how many writes one of them is killed.
LINKED, ENDS = 10, (4, 70)


def told_by(daemon):
    """What a daemon tells of what it has: a peer that lacks all of it, who watches, and a session, which then goes on."""
    peer = Peer(daemon.peers, replica(7))
    peer.say(have())
    within("a peer is told what there is", lambda: OPS in [kind for kind, _ in peer.frames(0.05)[0]])
    watch, talk = watching(daemon), daemon.talk()
    found = [watch.answer(), *(talk.ask(it) for it in (STATUS, KNOWN, insert(0, "!")))]
    for it in (peer, watch, talk):
        it.close()
    return found


def killed(recorder, name, writes):
    """A file whose session was killed after so many writes of its last edit, and what was settled before."""
    recorder.begin(name)
    new_file(recorder.program, name)
    run(recorder.program, "edit", name, lines=insert(0, "ab") + insert(2, "cd"))
    data = read(name)
    recorder.checks.same(f"{name} is killed", recorder.edited(name, [KNOWN], end=writes)[:2], (-signal.SIGKILL, b""))
    return data


def check_killed(checks, recorder):
    """A program that is killed after each write of a commit, and then a session or a daemon that opens the file, tells how much there is, and goes
    on."""
    for writes in range(1, WRITES + 1):
        what = f"killed after write {writes}"
        name = f"calls-killed-{writes}"
        data = killed(recorder, name, writes)
        status, output, _ = recorder.edited(name, [STATUS, KNOWN, STATUS, insert(0, "!")])
        checks.same(f"a session, {what}", (status, output.count(b'"ok":true')), (0, 4))
        recorder.ended(f"{what}, a session", name, data, pattern=KILLED)
        name = f"calls-killed-served-{writes}"
        data = killed(recorder, name, writes)
        daemon = recorder.serving(name)
        checks.holds(f"a daemon, {what}", all(it["ok"] for it in told_by(daemon)))
        checks.same(f"its end, {what}", daemon.stop(), STOPPED)
        recorder.ended(f"{what}, a daemon", name, data, pattern=KILLED, links=(daemon.peers,))


class Retrying:
    """A session of a daemon that may be killed: a line that wasn't answered is sent again, by its token, once the daemon is there again."""

    def __init__(self, daemon):
        self.daemon, self.talk = daemon, None

    def ask(self, request, start_again):
        while True:
            try:
                self.talk = self.talk or self.daemon.talk()
                answer = self.talk.ask(request)
            except OSError:
                answer = None
            if answer is not None:
                return answer
            self.talk = None
            start_again()


def check_linked_killed(checks, recorder):
    """A daemon that is killed after one of its writes while it is linked, and started again: its peer has no more than it has itself."""
    names = "calls-ended", "calls-stays"
    data = recorder.two(names)
    ended = Daemon(recorder.program, names[0], env=recorder.around(names[0], end=recorder.chance.randint(*ENDS)))
    stays = recorder.serving(names[1], link=ended.peers)

    def start_again():
        ended.run.communicate(timeout=PATIENCE)
        ended.how = {"env": recorder.around(names[0])}
        ended.start()

    here, there = Retrying(ended), stays.talk()
    lines = edits(recorder.chance, LINKED, (1,), tokens=1), edits(recorder.chance, LINKED, (2,))
    for one, other in itertools.zip_longest(*lines):
        found = ([here.ask(one, start_again)] if one else []) + ([there.ask(other)] if other else [])
        checks.holds("edits at linked daemons, one of which is killed", all(it["ok"] for it in found))
    shown = [line(op="text", doc=doc) for doc in (1, 2)]
    within("both show the same", lambda: all(here.ask(it, start_again) == there.ask(it) for it in shown))
    for ask in (there.ask, lambda request: here.ask(request, start_again)):
        within("all is settled", lambda: (state := ask(STATUS))["settled"] == state["applied"])
    here.talk.close()
    there.close()
    for daemon in (ended, stays):
        checks.same("the end of a linked daemon, one of which was killed", daemon.stop(), STOPPED)
    ports = ended.peers, stays.peers
    recorder.ended("killed while linked", names[0], data[names[0]], links=ports, pattern=KILLED)
    recorder.ended("linked to a killed one", names[1], data[names[1]], links=ports)
