"""Told of changes of several documents: a line for each at first, and one whenever its number of settled operations has risen."""

import json
import random
import shutil
import socket
import threading
import time

from agreed import refused
from beside import resident
from daemon import PATIENCE, new_daemon
from program import insert, line, run
from watching import Told, rises, watch

# As many documents as a file has at most.
MANY = 1_024
# Sessions that edit at once, and edits of each, some at a time.
SESSIONS, EACH, ROW = 4, 500, 50
# Bytes that the daemon may grow by more while a watcher doesn't read than by as many edits before: an unproved program swings by half of that.
GROWTH = 4_000_000
REQUEST = refused(3)
STATUS = line(op="status")


def watch_docs(docs):
    return line(op="watch", docs=docs)


def at(doc, rev):
    """The line for this number of this document."""
    return {"doc": doc, "ok": True, "rev": rev}


def some(talk, count):
    """The next lines of a watch, sorted by document."""
    return sorted((talk.answer() for _ in range(count)), key=lambda it: it["doc"])


def by_document(lines):
    """The numbers that lines tell, by document."""
    found = {}
    for it in lines:
        found.setdefault(it["doc"], []).append(it["rev"])
    return found


def up_to(talk, wanted):
    """The lines of a watch until it has told these numbers of these documents."""
    lines, left = [], dict(wanted)
    while left:
        answer = talk.answer()
        if answer is None:
            return lines
        lines.append(answer)
        if left.get(answer["doc"], answer["rev"] + 1) <= answer["rev"]:
            del left[answer["doc"]]
    return lines


def check_lines(checks, daemon):
    """A line for each document at first, none for others, and one more after each edit."""
    talk = daemon.talk()
    talk.ask(insert(0, "ab", doc=2))
    one = Told(daemon, watch_docs([7, 2, 7, 1]))
    checks.same("at first", some(one, 3), [at(1, 0), at(2, 2), at(7, 0)])
    checks.holds("then none", one.is_quiet())
    talk.ask(insert(0, "x", doc=3))
    checks.holds("none for another document", one.is_quiet())
    talk.ask(insert(0, "c", doc=2))
    checks.same("after an edit", one.answer(), at(2, 3))
    talk.ask(insert(0, "d", doc=7))
    checks.same("after one of another", one.answer(), at(7, 1))
    checks.holds("then none again", one.is_quiet())
    one.close()
    # The bytes of a line.
    raw = Told(daemon, watch_docs([2]))
    while b"\n" not in raw.held:
        raw.read()
    checks.same("the bytes of a line", raw.held, b'{"doc":2,"ok":true,"rev":3}\n')
    raw.close()
    old = Told(daemon, watch(2))
    while b"\n" not in old.held:
        old.read()
    checks.same("the bytes of a line of one document", old.held, b'{"ok":true,"rev":3}\n')
    old.close()
    talk.close()


def check_all(checks, daemon):
    """All documents that have settled operations, and each that gets some."""
    talk = daemon.talk()
    talk.ask(STATUS)
    one = Told(daemon, watch_docs("all"))
    checks.same("all at first", some(one, 3), [at(2, 3), at(3, 1), at(7, 1)])
    checks.holds("then none", one.is_quiet())
    talk.ask(insert(0, "new", doc=4_294_967_295))
    checks.same("a new document", one.answer(), at(4_294_967_295, 3))
    talk.ask(insert(0, "y", doc=3))
    checks.same("one that was there", one.answer(), at(3, 2))
    one.close()
    talk.close()


def check_ends(checks, daemon):
    """More input ends a watch, also an end of it; each document is told before."""
    docs = list(range(1, 101))
    for what, more in (("a second line", STATUS), ("a byte", b"x"), ("the same line", watch_docs(docs))):
        one = Told(daemon, watch_docs(docs))
        lines = some(one, 100)
        one.send(more)
        checks.same(f"{what} ends it", ([it["doc"] for it in lines], one.ended()), (docs, True))
        one.close()
    one = Told(daemon, watch_docs(docs) + STATUS)
    checks.same("with a line right behind it", ([it["doc"] for it in some(one, 100)], one.ended()), (docs, True))
    one.close()
    one = Told(daemon, watch_docs("all"))
    one.socket.shutdown(socket.SHUT_WR)
    checks.same("with an end of input", (len(some(one, 4)), one.ended()), (4, True))
    one.close()


def check_asked(checks, daemon):
    """A broken one is no request, and its session goes on. A long one may come in pieces."""
    others = {
        "no documents": watch_docs([]), "document 0": watch_docs([1, 0]), "a text": watch_docs("some"), "a number": watch_docs(1),
        "a fraction": b'{"op":"watch","docs":[1.0]}\n', "both": line(op="watch", doc=1, docs=[1]), "too many": watch_docs(list(range(1, MANY + 2))),
        "another field": line(op="watch", docs=[1], rev=0), "a long line": b" " * 16_384 + watch_docs([1]),
    }
    for what, data in others.items():
        talk = daemon.talk()
        checks.same(f"a watch with {what}, and the session goes on", [talk.ask(data), talk.ask(STATUS)["ok"]], [REQUEST, True])
        talk.close()
    docs = [4_294_967_295 - i for i in range(MANY)]
    data = b'{ "op": "watch", "docs": [' + b", ".join(b"%d" % doc for doc in docs) + b"] }\n"
    for size in (len(data), 1_000, 7):
        one = Told(daemon, b"")
        for start in range(0, len(data), size):
            one.send(data[start : start + size])
        checks.same(f"in pieces of {size}", [it["doc"] for it in some(one, MANY)], sorted(docs))
        one.close()


def edit_all(daemon, chance, count, docs):
    """Edits of some sessions at once, each of a document by chance. Gives how many each document had."""
    edits = [[chance.choice(docs) for _ in range(count)] for _ in range(SESSIONS)]
    faults = []

    def session(mine):
        talk = daemon.talk()
        for start in range(0, len(mine), ROW):
            row = mine[start : start + ROW]
            talk.send(b"".join(insert(0, "e", doc=doc) for doc in row))
            faults.extend(it for it in (talk.answer() for _ in row) if not it["ok"])
        talk.close()

    threads = [threading.Thread(target=session, args=(mine,)) for mine in edits]
    for it in threads:
        it.start()
    for it in threads:
        it.join()
    found = {}
    for mine in edits:
        for doc in mine:
            found[doc] = found.get(doc, 0) + 1
    return found, faults


def check_many(checks, daemon, chance):
    """1,024 documents are watched while some sessions edit; each number was settled, and one who doesn't read costs no memory."""
    docs = list(range(1, MANY + 1))
    talk = daemon.talk()
    for start in range(0, MANY, 64):
        row = docs[start : start + 64]
        talk.send(b"".join(insert(0, "b", doc=doc) for doc in row))
        checks.holds("the first edit of each", all(talk.answer()["ok"] for _ in row))
    talk.close()
    empty = resident(daemon.run.pid)
    found, faults = edit_all(daemon, chance, EACH, docs)
    alone = resident(daemon.run.pid)
    one, every, slow = Told(daemon, watch_docs(docs)), Told(daemon, watch_docs("all")), Told(daemon, watch_docs("all"))
    one.socket.settimeout(PATIENCE)
    first = some(one, MANY)
    checks.same("each document at first", first, [at(doc, 1 + found.get(doc, 0)) for doc in docs])
    checks.same("all of them at first", some(every, MANY), first)
    begun = resident(daemon.run.pid)
    more, others = edit_all(daemon, chance, EACH, docs)
    checks.same("the edits", faults + others, [])
    grown, before = resident(daemon.run.pid) - begun, alone - empty
    checks.holds(f"memory stays flat for one who doesn't read: {grown} bytes, {before} before", grown < before + GROWTH)
    wanted = {doc: 1 + found.get(doc, 0) + more.get(doc, 0) for doc in docs}
    missing = {doc: rev for doc, rev in wanted.items() if doc in more}
    for what, it in (("these", one), ("all", every)):
        told = by_document(up_to(it, missing))
        checks.holds(f"the numbers of {what} rise", all(rises([1 + found.get(doc, 0), *revs]) for doc, revs in told.items()))
        checks.same(f"the newest of {what}", {doc: revs[-1] for doc, revs in told.items()}, missing)
        checks.holds(f"no more of {what}", it.is_quiet())
    told = by_document(up_to(slow, wanted))
    checks.holds("the numbers of one who reads late rise", all(rises(revs) for revs in told.values()))
    checks.same("its newest", {doc: revs[-1] for doc, revs in told.items()}, wanted)
    for it in (one, every, slow):
        it.close()


def check_settled(checks, daemon):
    """A file that is copied right after a line was read has what the line told: a copy is what a power cut may leave."""
    talk, one = daemon.talk(), Told(daemon, watch_docs([5, 6]))
    revs = {it["doc"]: it["rev"] for it in some(one, 2)}
    wrong = []
    for turn in range(40):
        doc = 5 + turn % 2
        talk.send(insert(0, "z", doc=doc))
        told = one.answer()
        shutil.copyfile(daemon.name, "several-copy")
        rev = read_rev(daemon.program, "several-copy", told["doc"])
        wrong.extend([] if told["rev"] > revs[told["doc"]] and rev >= told["rev"] else [(told, rev)])
        revs[told["doc"]] = told["rev"]
        talk.answer()
    checks.same("numbers that aren't settled", wrong, [])
    one.close()
    talk.close()


def read_rev(program, name, doc):
    """How many operations a document of a file has."""
    status, output, _ = run(program, "dump", name, str(doc))
    return json.loads(output.splitlines()[0])["rev"] if status == 0 else -1


def check_beside(checks, daemon):
    """A busy document keeps no other one waiting."""
    talk, one = daemon.talk(), Told(daemon, watch_docs(list(range(1, MANY + 1))))
    some(one, MANY)
    until = time.monotonic() + 1
    waits = []
    while time.monotonic() < until:
        talk.send(b"".join(insert(0, "w", doc=1) for _ in range(20)) + insert(0, "w", doc=900))
        for _ in range(21):
            talk.answer()
        answered = time.monotonic()
        while one.answer()["doc"] != 900:
            pass
        waits.append(time.monotonic() - answered)
    checks.holds(f"lines come soon, not after {sorted(waits)[len(waits) // 2]:.3f} s", sorted(waits)[len(waits) // 2] < 0.1)
    one.close()
    talk.close()


def check_stop(checks, daemon):
    """A stop ends a watch, after the newest number of each document."""
    talk, one = daemon.talk(), Told(daemon, watch_docs([11, 12]))
    begin = {it["doc"]: it["rev"] for it in some(one, 2)}
    talk.send(b"".join(insert(0, "e", doc=11 + i % 2) for i in range(20)) + line(op="stop"))
    told = by_document(up_to(one, {doc: rev + 10 for doc, rev in begin.items()}))
    checks.same("the last lines name the newest", {doc: revs[-1] for doc, revs in told.items()}, {doc: rev + 10 for doc, rev in begin.items()})
    checks.holds("then it ends", one.ended())
    one.close()
    for _ in range(20):
        talk.answer()
    checks.same("the stop", talk.answer(), {"ok": True})
    talk.close()
    checks.same("the end", daemon.ended(), (0, b"", b""))


def check(checks, program, _until):
    daemon = new_daemon(program, "watching-several")
    chance = random.Random(5)
    try:
        for part in (check_lines, check_all, check_ends, check_asked):
            part(checks, daemon)
        daemon.stop()
        daemon = new_daemon(program, "watching-many")
        check_many(checks, daemon, chance)
        daemon.stop()
        daemon = new_daemon(program, "watching-soon")
        for part in (check_settled, check_beside, check_stop):
            part(checks, daemon)
    except (OSError, TimeoutError, TypeError) as error:
        checks.same("watching several comes to its end", repr(error), None)
        daemon.kill()
