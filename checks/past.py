"""A document as it was at each number of operations, and its versions, beside what was answered and sent while it was made: in a session over a file,
at two linked daemons, after a kill, and while other sessions edit."""

import random
import subprocess
from collections import Counter

from agreed import refused
from beside import Beside, seat, together
from chance_edits import LETTERS, delete, mark
from daemon import new_daemon, within
from locks import Session
from places import OTHER
from program import REPLICA, insert, line, new_file
from rude import MEGABYTE, SOON

STATUS, WHOLE = line(op="status"), 2**32 - 1
STALE, FIELD = refused(6), refused(4)
# How many edits by chance each replica makes, and in which documents.
EDITS, DOCS = 40, (1, 2)
# How many operations versions have at most.
EVERY = 1, 2, 7, 100, WHOLE
# A long text, in lines of how many letters; the number of readers of how it was, and how often each asks.
LONG, TYPED = 50_000, 25_000
READERS, TIMES, BESIDE = 3, 4, 50


def text(doc, **more):
    return line(op="text", doc=doc, **more)


def spans(doc, **more):
    return line(op="spans", doc=doc, **more)


def versions(doc, every):
    return line(op="versions", doc=doc, every=every)


def cut(makers, every):
    """The versions of operations that these replicas made, one after another: what a plain program makes of them."""
    found = []
    for rev, replica in enumerate(makers, 1):
        if found and found[-1]["replica"] == replica and found[-1]["ops"] < every:
            found[-1].update(ops=found[-1]["ops"] + 1, rev=rev)
        else:
            found.append({"ops": 1, "replica": replica, "rev": rev})
    return found


def typed(chance, doc, length, more):
    """A line that puts some characters in, and the length of the document then."""
    put = "".join(chance.choices(LETTERS, k=chance.choice((1, 1, 2, 9))))
    return line(op="insert", doc=doc, at=chance.randint(0, length), text=put, **more), length + len(put)


class Made:
    """A session, and what was answered in it while a history was made: of each document its text and its spans by their `rev`, and how many
    operations of it this session had made by then."""

    def __init__(self, talk, replica):
        self.talk, self.replica = talk, replica
        self.own, self.seen, self.lengths = Counter(), {doc: {} for doc in DOCS}, Counter()

    def look(self):
        for doc in DOCS:
            was = self.talk.ask(text(doc))
            shown = self.talk.ask(spans(doc))
            # A merge may come between both.
            if was["rev"] == shown["rev"]:
                self.seen[doc][was["rev"]] = was["text"], shown["spans"], self.own[doc]
            self.lengths[doc] = len(was["text"])

    def edit(self, chance):
        """Makes an edit, or none if the text has moved away below it."""
        doc = chance.choice(DOCS)
        before = self.lengths[doc]
        made, length = (chance.choice((typed, typed, delete, mark)) if before else typed)(chance, doc, before, {})
        if self.talk.ask(made)["ok"]:
            # A mark is one operation.
            self.own[doc] += abs(length - before) or 1
        self.look()


def check_told(checks, what, made, talk):
    """All that was answered is answered now for its number of operations."""
    for doc in DOCS:
        other = []
        for rev, (was, shown, _) in made.seen[doc].items():
            answers = talk.ask(text(doc, at_rev=rev)), talk.ask(spans(doc, at_rev=rev))
            wanted = {"ok": True, "rev": rev, "text": was}, {"ok": True, "rev": rev, "spans": shown}
            other += [] if answers == wanted else [(rev, answers, wanted)]
        checks.same(f"{what}: {len(made.seen[doc])} moments of document {doc}", other, [])
        now = talk.ask(text(doc))
        checks.same(f"{what}: none of document {doc}", talk.ask(spans(doc, at_rev=0)), {"ok": True, "rev": 0, "spans": []})
        checks.same(f"{what}: all of document {doc}", talk.ask(text(doc, at_rev=now["rev"])), now)
        for beyond in (now["rev"] + 1, WHOLE):
            checks.same(f"{what}: more than document {doc} has", (talk.ask(text(doc, at_rev=beyond)), talk.ask(spans(doc, at_rev=beyond))), (STALE, STALE))


def check_versions(checks, what, made, talk, sent):
    """The versions are those that a plain program makes of whose operation each is. Of each replica there are as many as were sent, and as many of
    this session's before each moment as it had made by then."""
    for doc in DOCS:
        rev = talk.ask(text(doc))["rev"]
        makers = [it["replica"] for it in talk.ask(versions(doc, 1))["versions"]]
        checks.same(f"{what}: the makers of document {doc}", Counter(makers), Counter({replica: own[doc] for replica, own in sent.items()}))
        for every in EVERY:
            checks.same(f"{what}: versions of document {doc}, by {every}", talk.ask(versions(doc, every)), {"ok": True, "rev": rev, "versions": cut(makers, every)})
        other = [moment for moment, (_, _, own) in made.seen[doc].items() if makers[:moment].count(made.replica) != own]
        checks.same(f"{what}: moments of document {doc} with other makers", other, [])


def check_file(checks, program, chance):
    """One session over a file, in which each number of operations between two edits is known too."""
    new_file(program, "past")
    session = Session(program, "past")
    made = Made(session, REPLICA)
    checks.same("a document that nobody edited", session.ask(versions(9, 1)), {"ok": True, "rev": 0, "versions": []})
    checks.same("and none of it", session.ask(text(9, at_rev=0)), {"ok": True, "rev": 0, "text": ""})
    session.ask(insert(0, "ab🦊", 9))
    checks.same("within an insert", [session.ask(text(9, at_rev=rev))["text"] for rev in range(4)], ["", "a", "ab", "ab🦊"])
    for _ in range(EDITS):
        made.edit(chance)
    checks.same("other fields", [session.ask(it) for it in (text(1, at_rev=-1), spans(1, at_rev=None), versions(1, 0), line(op="versions", doc=1))], [FIELD] * 4)
    check_told(checks, "a file", made, session)
    check_versions(checks, "a file", made, session, {REPLICA: made.own})
    checks.same("the session's end", session.end(), (0, b""))
    session = Session(program, "past")
    check_told(checks, "the file opened anew", made, session)
    check_versions(checks, "the file opened anew", made, session, {REPLICA: made.own})
    checks.same("its end", session.end(), (0, b""))


def check_linked(checks, program, chance):
    """Two that are linked: each has an order of its own, and tells of what it answered itself."""
    one = new_daemon(program, "past-one")
    other = new_daemon(program, "past-other", OTHER, link=one.peers)
    try:
        sides = [Made(seat(one), REPLICA), Made(seat(other), OTHER)]
        for _ in range(2 * EDITS):
            chance.choice(sides).edit(chance)
        sent = {made.replica: made.own for made in sides}
        total = sum(sum(made.own.values()) for made in sides)
        for made, daemon in zip(sides, (one, other)):
            within("both have all", lambda talk=made.talk: talk.ask(STATUS)["applied"] == total)
            check_told(checks, "linked", made, made.talk)
            check_versions(checks, "linked", made, made.talk, sent)
            within("all is settled", lambda talk=made.talk: talk.ask(STATUS)["settled"] == total)
            made.talk.close()
        for daemon in (one, other):
            daemon.kill()
        for daemon in (one, other):
            daemon.start()
        for made, daemon in zip(sides, (one, other)):
            made.talk = seat(daemon)
            check_told(checks, "after a kill", made, made.talk)
            check_versions(checks, "after a kill", made, made.talk, sent)
            made.talk.close()
        for daemon in (other, one):
            checks.same("its end", daemon.stop(), ({"ok": True}, (0, b"", b"")))
    finally:
        for daemon in (one, other):
            if daemon.run.poll() is None:
                daemon.kill()


def check_beside(checks, program):
    """A long text is read as it was, while other sessions edit, read and are answered."""
    daemon = new_daemon(program, "past-long")
    try:
        talk = seat(daemon)
        letters = "".join(chr(97 + at % 26) for at in range(TYPED))
        pieces = [{"op": "insert", "at": at, "text": letters[at : at + 256]} for at in range(0, TYPED, 256)]
        for _ in range(LONG // TYPED):
            talk.ask(line(op="edits", doc=1, edits=pieces))
        wanted = {"ok": True, "rev": TYPED, "text": letters}
        found, readers = [], [seat(daemon) for _ in range(READERS)]

        def read(reader):
            for _ in range(TIMES):
                found.append((reader.ask(text(1, at_rev=TYPED)) == wanted, reader.ask(spans(1, at_rev=LONG - 1))["rev"]))

        with Beside(daemon, BESIDE) as beside:
            together(*[lambda reader=reader: read(reader) for reader in readers])
        checks.same("a long text as it was", found, [(True, LONG - 1)] * READERS * TIMES)
        beside.told(checks, "beside who reads the past", SOON, 64 * MEGABYTE)
        for it in (talk, *readers):
            it.close()
        checks.same("the daemon's end", daemon.stop(), ({"ok": True}, (0, b"", b"")))
    finally:
        if daemon.run.poll() is None:
            daemon.kill()


def check(checks, program, _until):
    seed = random.randrange(1 << 30)
    print(f"past: drawn with the seed {seed}")
    try:
        check_file(checks, program, random.Random(seed))
        check_linked(checks, program, random.Random(seed))
        check_beside(checks, program)
    except (OSError, TimeoutError, subprocess.TimeoutExpired) as error:
        checks.same("reads of the past come to their end", repr(error), None)
