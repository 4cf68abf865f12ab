"""Two files that part for good: one daemon refuses what the other tells, for it has as many documents or replicas as a file may have. They are
linked again seldom, and each goes on serving its own.
"""

import subprocess
import time

from agreed import LIMITS
from beside import link, seat, together
from between import Between
from daemon import new_daemon, within
from frames import ops, replica, typed
from program import REPLICA, insert, line

STATUS = line(op="status")
OTHER = REPLICA[:-1] + "2"
DOCUMENTS, REPLICAS = LIMITS["documents"], LIMITS["replicas"]
SESSIONS = 16
# Where they were linked 80 times, they are 3 times at most.
WATCHED, JOINS = 8, 3
ENDED = ({"ok": True}, (0, b"", b""))


def ask(daemon, request):
    """What a session of its own is answered."""
    talk = seat(daemon)
    answer = talk.ask(request)
    talk.close()
    return answer


def fill_documents(daemon):
    """Gives it all the documents that a file may have."""

    def fill(number):
        talk = seat(daemon)
        for doc in range(1 + number, DOCUMENTS + 1, SESSIONS):
            if talk.ask(insert(0, "d", doc)) != {"ok": True, "rev": 1}:
                raise OSError(f"document {doc}")
        talk.close()

    together(*[lambda number=number: fill(number) for number in range(SESSIONS)])


def fill_replicas(daemon):
    """Gives it operations of all the replicas that a file may have, its own one among them."""
    ask(daemon, insert(0, "d"))
    for number in range(REPLICAS - 1):
        peer = link(daemon, replica(40 + number))
        peer.say(ops(*typed(replica(40 + number), 1, doc=2 + number)))
        within("a replica's operation", lambda wanted=2 + number: ask(daemon, STATUS)["settled"] == wanted)
        peer.close()


def check_parted(checks, program, what, fill, doc, taken):
    """A daemon that can take no more, and one that has an operation more before it joins it, and then so many in all."""
    full, more = new_daemon(program, "full"), new_daemon(program, "more", OTHER)
    between = Between(full.peers)
    try:
        fill(full)
        count = ask(full, STATUS)["applied"]
        checks.same(f"{what}: its edit", ask(more, insert(0, "m", doc)), {"ok": True, "rev": 1})
        more.stop()
        more.link = between.port
        more.start()
        # As long as it takes something over the link, that is joined again soon.
        within("it takes what it can", lambda: ask(more, STATUS)["settled"] == taken)
        since = time.monotonic()
        time.sleep(WATCHED)
        joins = between.joined_since(since)
        checks.holds(f"{what}: joined {joins} times in {WATCHED} s", 1 <= joins <= JOINS)
        checks.same(f"{what}: what the full one has", ask(full, STATUS)["applied"], count)
        for one, made_in in ((full, 1), (more, doc)):
            checks.same(f"{what}: an edit", ask(one, insert(0, "e", made_in))["ok"], True)
        for one in (more, full):
            checks.same(f"{what}: the end", one.stop(), ENDED)
    finally:
        for it in (more, full):
            if it.run.poll() is None:
                it.kill()
        between.close()


def check_documents(checks, program):
    """One document more than a file may have: the other one takes all but one."""
    check_parted(checks, program, "documents", fill_documents, DOCUMENTS + 1, DOCUMENTS)


def check_replicas(checks, program):
    """One replica more than a file may have operations of: no frame can name what the other one lacks."""
    check_parted(checks, program, "replicas", fill_replicas, 1, 1)


def check(checks, program, _until):
    for part in (check_documents, check_replicas):
        try:
            part(checks, program)
        except (OSError, TimeoutError, TypeError, subprocess.TimeoutExpired) as error:
            checks.same(f"{part.__name__} comes to its end", repr(error), None)
