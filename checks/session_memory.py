"""Sessions that read an answer of forty megabytes and stay: a second later the daemon holds little more than before."""

import os
import subprocess
import time

from beside import resident, seat, together
from daemon import new_daemon
from frames import ADD_MARK, COMMENT, END, anchor, record, replica, typed
from program import line
from rude import MEGABYTE
from worst import tell

MAKER, DOC = replica(74), 5
# Comments that each reach from another character to the end: in the spans they are listed a million times, a little below the bound.
COMMENTS = 1_440
LISTED = COMMENTS * (COMMENTS + 1) // 2
# A listed comment has 36 characters, two quotes and a comma.
LEAST = 39 * LISTED
# As many sessions as there are places; so many read at once.
SESSIONS, AT_ONCE = 32, 4
PAUSE, HELD = 1, 64 * MEGABYTE
# The allocator gives back what was freed (docs/peritext.service has the same); else it keeps some 21 MB for each of these sessions.
GIVES_BACK = {**os.environ, "GLIBC_TUNABLES": "glibc.malloc.tcache_count=0"}


def marked():
    """Records of a text in which each character has a comment more than the one before."""
    records = typed(MAKER, COMMENTS, DOC)
    for k in range(COMMENTS):
        known = len(records)
        mark = bytes([COMMENT]) + (k + 1).to_bytes(16, "big") + anchor(1, k + 1, MAKER) + END
        records.append(record(ADD_MARK, MAKER, known + 1, mark, [(MAKER, known)], DOC))
    return records


def read_all(talk, lengths):
    """Asks for the spans, and notes how long the answer is."""
    talk.send(line(op="spans", doc=DOC))
    lengths.append(len(talk.file.readline()))


def all_read(talks):
    """How long the answers to all sessions are."""
    lengths = []
    for first in range(0, len(talks), AT_ONCE):
        together(*[lambda talk=talk: read_all(talk, lengths) for talk in talks[first : first + AT_ONCE]])
    return lengths


def check(checks, program, _until):
    daemon, talks = new_daemon(program, "session-memory", env=GIVES_BACK), []
    try:
        talks.append(seat(daemon))
        tell(daemon, talks[0], MAKER, marked(), DOC, 2 * COMMENTS)
        talks += [seat(daemon) for _ in range(SESSIONS - len(talks))]
        before = resident(daemon.run.pid)
        lengths = all_read(talks)
        time.sleep(PAUSE)
        more = resident(daemon.run.pid) - before
        checks.holds(f"answers of {min(lengths)} to {max(lengths)} bytes", LEAST < min(lengths) == max(lengths))
        checks.holds(f"{SESSIONS} sessions that read {lengths[0] / 1e6:.1f} MB each and stay: {more / 1e6:.1f} MB more", more < HELD)
    except (OSError, TimeoutError, subprocess.TimeoutExpired) as error:
        checks.same("sessions that stay come to their end", repr(error), None)
    finally:
        for talk in talks:
            talk.close()
        daemon.kill()
