"""A link over which nothing can be taken costs next to nothing: its receiver is out of memory, or its device failed. Once there is memory again it
catches up; with a failed device all links end, and none is joined again.
"""

import os
import resource
import subprocess
import time

from beside import seat, together
from between import Between, processor
from daemon import PATIENCE, Daemon, new_daemon, within
from frames import Peer, replica
from full_disk import limited
from program import REPLICA, insert, line, run

STATUS = line(op="status")
OTHER = REPLICA[:-1] + "2"
SESSIONS, EDITS, LETTERS = 8, 40, 256
ALL = SESSIONS * EDITS * LETTERS
# What may go on between the two in these seconds, and how much of one processor both may take.
WATCHED, BYTES, PART = 5, 500_000, 0.01
# So much memory more than it has: room for what it does anyway, and not for a list of all operations.
ROOM = 3_000_000
# How many bytes a file of the receiver may have whose device fails.
FULL = 1_000_000
STOP_FAILED = {"code": 9, "error": "failed", "ok": False}


def ask(daemon, request):
    """What a session of its own is answered."""
    talk = seat(daemon)
    answer = talk.ask(request)
    talk.close()
    return answer


def fill(daemon):
    """Gives a daemon some ten thousands of operations."""

    def edit(number):
        talk = seat(daemon)
        for _ in range(EDITS):
            talk.ask(insert(0, "x" * LETTERS, 1 + number))
        talk.close()

    together(*[lambda number=number: edit(number) for number in range(SESSIONS)])


def address_space(process):
    with open(f"/proc/{process}/status", encoding="ascii") as file:
        return next(int(it.split()[1]) * 1024 for it in file if it.startswith("VmSize:"))


def check_idle(checks, what, between, daemons):
    """What goes on between daemons for a while, and what it costs them."""
    time.sleep(1)
    said, took = between.bytes, processor(*daemons)
    time.sleep(WATCHED)
    said, took = between.bytes - said, processor(*daemons) - took
    checks.holds(f"{what}: {said / 1e6:.2f} MB in {WATCHED} s", said < BYTES)
    checks.holds(f"{what}: {took:.2f} s of a processor in {WATCHED} s", took <= PART * WATCHED + 0.01)


def check_memory(checks, program):
    """A receiver that is out of memory, and gets it back."""
    tells = new_daemon(program, "tells", OTHER)
    between = Between(tells.peers)
    # With one arena no memory is at hand that the limit doesn't count.
    takes = new_daemon(program, "takes", link=between.port, env=dict(os.environ, MALLOC_ARENA_MAX="1"))
    try:
        ask(tells, insert(0, "1", 1 + SESSIONS))
        talk = seat(takes)
        within("they are linked", lambda: talk.ask(STATUS)["settled"] == 1)
        resource.prlimit(takes.run.pid, resource.RLIMIT_AS, (address_space(takes.run.pid) + ROOM, resource.RLIM_INFINITY))
        fill(tells)
        check_idle(checks, "out of memory", between, (tells, takes))
        found = talk.ask(STATUS)
        checks.holds(f"it has taken a part, {found}", found["ok"] and found["applied"] < ALL + 1)
        resource.prlimit(takes.run.pid, resource.RLIMIT_AS, (resource.RLIM_INFINITY,) * 2)
        within("it catches up", lambda: talk.ask(STATUS)["settled"] == ALL + 1)
        for one in (takes, tells):
            checks.same("the end", one.stop(), ({"ok": True}, (0, b"", b"")))
    finally:
        for it in (takes, tells):
            if it.run.poll() is None:
                it.kill()
        between.close()


def check_device(checks, program):
    """A receiver whose device fails ends all its links, and joins none again."""
    tells = new_daemon(program, "tells", OTHER)
    fill(tells)
    between = Between(tells.peers)
    run(program, "init", "fails", "--replica", REPLICA)
    fails = Daemon(program, "fails", link=between.port, **limited(FULL))
    try:
        within("the device fails", lambda: ask(fails, STATUS)["state"] == "failed")
        since = time.monotonic()
        check_idle(checks, "a failed device", between, (tells, fails))
        checks.same("joined again", between.joined_since(since), 0)
        later = Peer(fails.peers, replica(9))
        checks.holds("a link to it ends", later.has_ended(PATIENCE))
        later.close()
        checks.same("its stop", fails.stop()[0], STOP_FAILED)
        checks.same("the end of the other one", tells.stop(), ({"ok": True}, (0, b"", b"")))
    finally:
        for it in (fails, tells):
            if it.run.poll() is None:
                it.kill()
        between.close()


def check(checks, program, _until):
    for part in (check_memory, check_device):
        try:
            part(checks, program)
        except (OSError, TimeoutError, TypeError, subprocess.TimeoutExpired) as error:
            checks.same(f"{part.__name__} comes to its end", repr(error), None)
