"""Each request for memory of a run is refused in turn, and some in a row: what is answered 1 is sent again, a program that ends with 1 is
started again, and in the end all is as without a refusal.

python3 checks/memory.py PROGRAM: all of it, which takes some ten minutes. As one of the checks (run.py) it tries as many as a time allows, in
an order by chance: nearly all for short runs, one in a hundred for a daemon.
"""

import os
import random
import subprocess
import sys
import tempfile
import time

from agreed import refused
from daemon import within
from program import REPLICA, Checks, all_of, fault, insert, line, new_file, read, run
from refusing import MEMORY, Pipe, Refusal, RefusedDaemon, Wrong, compiled, ended
from words import MADE, OK

OTHER = REPLICA[:-1] + "2"
# How often a line is sent at most. The daemon's peers and other sessions ask for memory too, so it is more than the longest row of refusals.
TRIES = 60
ROWS = (1, 3, 40)
# Seconds for each of six sweeps among the checks, and how many runs it has to have made then.
SECONDS, LEAST = 6, 5
LONGEST = 7_200
REFUSED = line(code=1, error="memory", ok=False)
BUSY = line(**refused(8))
FAILED = {"code": 9, "error": "failed", "ok": False}
MEGABYTE = 1_000_000
# How often a begin is tried that finds no memory.
BEGINS = 1_000


def comment(last):
    return f"00000000-0000-4000-8000-0000000000{last}"


def edits(*asked):
    """Lines of edits of document 1, each of which names the number of operations that it is made at: made twice it would be refused."""
    lines, rev = [], 0
    for op, count, fields in asked:
        lines.append(line(op=op, doc=1, **fields, rev=rev))
        rev += count
    return lines


def mark(op, first, last, kind, **more):
    return op, 1, {"from": first, "to": last, "kind": kind, **more}


# The places are such as have the same names however many operations of a peer came before: an own id counts on from those. What changed is told
# from the beginning, which a program that is started again can tell too.
READS = [
    line(op="text", doc=1), line(op="spans", doc=1), line(op="changes", doc=1, since=0), line(op="anchors", doc=1, at=[0] * 100, side="previous"),
    line(op="places", doc=1, anchors=["end", f"a2@{REPLICA[:-1]}9"] * 50),
]
SHORT = edits(
    ("insert", 3, {"at": 0, "text": "abc"}), mark("mark", 0, 2, "comment", id=comment("c1")), mark("mark", 1, 3, "comment", id=comment("c2")),
    mark("unmark", 1, 2, "comment", id=comment("c1")),
) + READS
LONG = edits(
    ("insert", 3, {"at": 0, "text": "abc"}), mark("mark", 0, 2, "comment", id=comment("c1")), mark("mark", 1, 3, "comment", id=comment("c2")),
    mark("unmark", 1, 2, "comment", id=comment("c1")), ("insert", 200, {"at": 3, "text": "d" * 200}), mark("mark", 2, 150, "strong"),
    mark("mark", 100, 203, "link", url="https://example.org/" + "u" * 200), ("delete", 90, {"at": 60, "count": 90}), mark("unmark", 1, 60, "strong"),
    ("insert", 5, {"at": 113, "text": "efghi"}),
) + READS + [line(op="insert", doc=2, at=0, text="x", rev=0), b"[\n", line(op="text", doc=2), line(op="status")]

STATUS, STOP = line(op="status"), line(op="stop")
FROM_PEER = [insert(0, "p" * 100, 2), insert(100, "q" * 50, 2)]
SERVED = LONG[:7] + READS
SHOWN = [line(op=op, doc=doc) for op in ("text", "spans") for doc in (1, 2)]


def asked_again(ask, request):
    """The answer to a line that is sent until it isn't answered 1. `ask` gives None where nothing answered."""
    for _ in range(TRIES):
        answer = ask(request)
        if answer not in (None, REFUSED):
            return answer
    raise Wrong(f"{TRIES} times without memory: {request[:60]}")


def edited(program, name, lines, around=None):
    """The answers of `edit`, and how it ended."""
    session = Pipe(program, name, around)

    def ask(request):
        nonlocal session
        answer = session.ask(request)
        if answer is None:
            end = session.end()
            if end != MEMORY:
                raise Wrong(f"it ended with {end}")
            session = Pipe(program, name)
        return answer

    try:
        answers = [asked_again(ask, request) for request in lines]
        return answers, session.end()
    finally:
        session.run.kill()


class Sweep:
    """What all sweeps share: the program, the library, and the seconds for each."""

    def __init__(self, checks, program, library, seconds):
        self.checks, self.program, self.library, self.seconds = checks, program, library, seconds

    def refusal(self, name, first=0, many=1, size=0):
        return Refusal(self.library, name + ".count", first, many, size)

    def each(self, what, count, one):
        """A run for each row of refusals and each first request, until the time is over; `one` gives None where all is well."""
        runs = [(first, many) for many in ROWS for first in range(1, count + 1)]
        random.Random(7).shuffle(runs)
        until = time.monotonic() + self.seconds

        def tried(it):
            if time.monotonic() > until:
                return None
            try:
                return it, one(*it)
            except (Wrong, OSError) as wrong:
                return it, repr(wrong)

        found = [it for it in all_of(tried, runs) if it]
        for (first, many), wrong in found:
            self.checks.same(f"{what}, {many} refused from request {first} of {count} on", wrong, None)
        enough = min(LEAST if self.seconds < LONGEST else len(runs), len(runs))
        self.checks.holds(f"{what}: {len(found)} of {len(runs)} runs in {self.seconds} s", len(found) >= enough)


def sweep_edit(sweep, what, lines):
    program = sweep.program
    new_file(program, "asked")
    counted = sweep.refusal("asked")
    wanted = edited(program, "asked", lines, counted.around)
    dumped = run(program, "dump", "asked", "1")

    def one(first, many):
        name = f"edit-{first}-{many}"
        new_file(program, name)
        found = edited(program, name, lines, sweep.refusal(name, first, many).around)
        if found != wanted:
            return f"{found}"
        found = run(program, "dump", name, "1")
        os.remove(name)
        return None if found == dumped else f"a dump gives {found}"

    sweep.checks.same(f"{what} without a refusal ends well", wanted[1], (0, b"", b""))
    sweep.each(what, counted.count(), one)


def sweep_init(sweep):
    program = sweep.program
    words = lambda name: ("init", name, "--replica", REPLICA)
    counted = sweep.refusal("inited")
    run(program, *words("inited"), env=counted.around)

    def one(first, many):
        name = f"init-{first}-{many}"
        found = run(program, *words(name), env=sweep.refusal(name, first, many).around)
        if found == MEMORY:
            if os.path.exists(name):
                return "it left a file"
            found = run(program, *words(name))
        if found != (0, OK, b""):
            return f"{found}"
        return None if read(name) == MADE else "another file"

    sweep.each("init", counted.count(), one)


def sweep_dump(sweep):
    program = sweep.program
    new_file(program, "dumped")
    run(program, "edit", "dumped", lines=b"".join(LONG))
    counted = sweep.refusal("dumped")
    wanted = run(program, "dump", "dumped", "1", env=counted.around)

    def one(first, many):
        found = run(program, "dump", "dumped", "1", env=sweep.refusal(f"dump-{first}-{many}", first, many).around)
        return None if found in (wanted, MEMORY) else f"{found}"

    sweep.each("dump", counted.count(), one)


class Pair:
    """Two linked daemons; the first one may be refused memory. It joins the other, or the other one joins it."""

    def __init__(self, program, name, around, joins):
        self.talk, self.daemons = None, []
        new_file(program, name)
        run(program, "init", name + "-peer", "--replica", OTHER)
        if joins:
            self.peer = self.started(program, name + "-peer", None)
            self.tell_peer()
            self.own = self.started(program, name, around, self.peer.peers)
        else:
            self.own = self.started(program, name, around)
            asked_again(self.ask, STATUS)
            self.peer = self.started(program, name + "-peer", None, self.own.peers)
            self.tell_peer()

    def started(self, *how):
        self.daemons.append(RefusedDaemon(*how))
        return self.daemons[-1]

    def tell_peer(self):
        """Something that the peer alone has."""
        talk = self.peer.talk()
        for request in FROM_PEER:
            talk.ask(request)
        talk.close()

    def ask(self, request):
        """The first daemon's answer, or None where there was none."""
        try:
            self.talk = self.talk or self.own.talk()
            self.talk.send(request)
            answer = self.talk.file.readline()
        except TimeoutError:
            raise Wrong(f"no answer to {request[:60]}") from None
        except OSError:
            answer = b""
        # A session for which there is no memory is answered 8, and closed.
        if not answer.endswith(b"\n") or answer == BUSY:
            self.talk = None
            return None
        return answer

    def texts(self):
        """What both show of both documents."""
        talk = self.peer.talk()
        found = [asked_again(self.ask, request) == line(**talk.ask(request)) for request in SHOWN]
        talk.close()
        return all(found)

    def kill(self):
        for daemon in self.daemons:
            daemon.kill()


def served(program, name, around, joins):
    """The answers of a daemon, once it and its peer show the same, and how both ended."""
    pair = Pair(program, name, around, joins)
    try:
        answers = [asked_again(pair.ask, request) for request in SERVED]
        within("both show the same", pair.texts)
        answers += [asked_again(pair.ask, request) for request in SHOWN + [STOP]]
        return answers, ended(pair.own.run), pair.peer.stop()
    finally:
        pair.kill()


def sweep_serve(sweep, joins):
    what = "a daemon that joins another" if joins else "a daemon that is joined"
    counted = sweep.refusal(f"served-{joins}")
    wanted = served(sweep.program, f"served-{joins}", counted.around, joins)

    def one(first, many):
        name = f"serve-{joins}-{first}-{many}"
        found = served(sweep.program, name, sweep.refusal(name, first, many).around, joins)
        return None if found == wanted else f"{found}"

    sweep.checks.same(f"{what}, without a refusal, ends well", wanted[1:], ((0, b"", b""), ({"ok": True}, (0, b"", b""))))
    sweep.each(what, counted.count(), one)


def check_no_commit(sweep):
    """No commit finds the megabyte that it asks for first: an edit is answered 9 after a thousand tries, and so is the end."""
    checks = sweep.checks
    new_file(sweep.program, "uncommitted")
    refusal = sweep.refusal("uncommitted", size=MEGABYTE)
    daemon = RefusedDaemon(sweep.program, "uncommitted", refusal.around)
    try:
        talk = daemon.talk()
        for number in (1, 2):
            checks.same(f"edit {number} that can't be committed", talk.ask(insert(0, "u")), FAILED)
            checks.same("how far it is then", talk.ask(STATUS), {"applied": number, "ok": True, "settled": 0, "state": "open"})
        before = refusal.count()
        checks.same("a stop where nothing can be committed", talk.ask(STOP), FAILED)
        checks.holds("it was tried again at the stop", refusal.count() >= before + BEGINS)
        checks.same("the end where nothing can be committed", daemon.ended(), fault(9))
        checks.same("what is there then", run(sweep.program, "edit", "uncommitted", lines=STATUS)[1], line(applied=0, ok=True, settled=0, state="open"))
    except (OSError, subprocess.TimeoutExpired, Wrong) as error:
        checks.same("a daemon that can't commit comes to its end", repr(error), None)
    finally:
        if daemon.run.poll() is None:
            daemon.kill()


def sweep_all(checks, program, seconds):
    library = compiled()
    if not library:
        checks.skip("refused memory", "no gcc here")
        return
    sweep = Sweep(checks, program, library, seconds)
    counted = sweep.refusal("asks")
    run(program, "--version", env=counted.around)
    if not counted.count():
        checks.skip("refused memory", "this program doesn't ask the C library for its memory")
        return
    check_no_commit(sweep)
    sweep_init(sweep)
    sweep_dump(sweep)
    sweep_edit(sweep, "a short session", SHORT)
    sweep_edit(sweep, "a long session", LONG)
    for joins in (True, False):
        sweep_serve(sweep, joins)


def check(checks, program, _until):
    sweep_all(checks, program, SECONDS)


def main():
    checks, program = Checks(), os.path.abspath(sys.argv[1])
    with tempfile.TemporaryDirectory(prefix="peritext-") as room:
        os.chdir(room)
        sweep_all(checks, program, LONGEST)
    print(f"{checks.passed} passed, {checks.failed} failed")
    return 1 if checks.failed else 0


if __name__ == "__main__":
    sys.exit(main())
