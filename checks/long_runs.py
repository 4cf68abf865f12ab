"""Frames of as many operations as the format allows: 64 runs of 256 characters in one. A daemon takes what it can, says by a HAVE how far it came, and
has all of it in the end; a session beside it is answered meanwhile.
"""

import time

from beside import seat, together
from daemon import PATIENCE, new_daemon
from frames import HAVE, INSERT, Peer, inserted, name, ops, record, replica, run_record
from program import insert, line

RUN, RUNS, FRAMES = 256, 64, 8
ALL = RUN * RUNS * FRAMES
LETTERS = "".join(chr(97 + at % 26) for at in range(ALL))
# The longest that an edit beside it may take, in seconds.
MOST = 2
# Too much waits for a commit.
BUSY = 8


def pieces(maker, known):
    """The records of the runs of a text behind so many of its characters, each of them as long as it can be."""
    found = []
    while known < ALL:
        text = LETTERS[known : known + RUN]
        origin = name(known, maker) if known else None
        deps = [(maker, known)] if known else []
        # A run has at least two characters.
        if len(text) == 1:
            found.append(record(INSERT, maker, known + 1, inserted(text, origin), deps, 2))
        else:
            found.append(run_record(maker, known + 1, text, deps, 2, origin))
        known += len(text)
    return found


def counted(content, maker):
    """How many operations of a replica a HAVE counts."""
    for at in range(content[0]):
        entry = content[1 + 24 * at : 25 + 24 * at]
        if entry[:16] == maker:
            return int.from_bytes(entry[16:], "big")
    return 0


def tell(port, maker):
    """Tells the whole text, again and again from where the last HAVE says; whether all of it was taken in time, and how many frames were said."""
    peer, said, ends = Peer(port, maker), 0, time.monotonic() + PATIENCE
    known = 0
    while known < ALL and time.monotonic() < ends:
        records = pieces(maker, known)[:RUNS]
        peer.say(ops(*records))
        said += 1
        frames, ended = peer.frames(1)
        counts = [counted(content, maker) for kind, content in frames if kind == HAVE]
        # Without a HAVE it was all taken, or will be: the next frame follows it, as a peer's own do.
        known = counts[-1] if counts else known
        if ended:
            break
    peer.close()
    return known == ALL, said


def taken(talk, request):
    """The answer to a request, which is sent again while too much waits for a commit."""
    ends = time.monotonic() + MOST
    answer = talk.ask(request)
    while answer.get("code") == BUSY and time.monotonic() < ends:
        time.sleep(0.01)
        answer = talk.ask(request)
    return answer


def check(checks, program, _until):
    maker, daemon, slowest, done = replica(7), new_daemon(program, "long"), [0.0], [False]
    told = []

    def tells():
        told.append(tell(daemon.peers, maker))
        done[0] = True

    def edits():
        talk = seat(daemon)
        while not done[0]:
            began = time.monotonic()
            answer = taken(talk, insert(0, "x"))
            checks.holds(f"an edit beside long frames ({answer})", answer["ok"])
            slowest[0] = max(slowest[0], time.monotonic() - began)
            time.sleep(0.02)
        talk.close()

    together(tells, edits)
    checks.holds(f"{FRAMES} frames of {RUNS} runs of {RUN} are taken ({told[0][1]} were said)", told[0][0])
    checks.holds(f"edits beside them are answered within {MOST} s ({slowest[0]:.2f} s)", slowest[0] < MOST)
    talk = seat(daemon)
    checks.same("the text that they told", talk.ask(line(op="text", doc=2)), {"ok": True, "rev": ALL, "text": LETTERS})
    talk.close()
    checks.same("a stop after them", daemon.stop()[1][:1], (0,))
