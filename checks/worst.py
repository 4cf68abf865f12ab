"""Documents and clocks at their worst, told by a peer: inserts at one place in rising and in falling order of ids, a chain of origins, marks that
each reach from another character to the end, 1,024 documents, 16 replicas. The edits of another session are answered soon meanwhile.
"""

import subprocess
import time

from beside import Beside, link, seat, together
from daemon import new_daemon
from frames import (
    ADD_MARK, COMMENT, END, INSERT, REMOVE, STRONG, anchor, framed, inserted, name, ops, record, replica, typed,
)
from program import NAME, insert, line
from rude import MEGABYTE, SOON, check_end

PATIENCE = 60
HIGH, LOW, DEEP, MARKS = (replica(number) for number in (71, 70, 72, 73))
PLACED, CHAINED, MARKED, BOUNDED, SAVED, BESIDE = 1, 2, 3, 4, 5, 50
RISING, FALLING, CHAIN, OVER = 6_000, 300, 6_000, 250
# So many comments, each from another character to the end, are in the spans half the square of that many times: more than 1,048,576 times.
BEYOND = 1_448
# So often a tool makes a text strong that marks all of it at each save.
SAVES = 30_000
DOCUMENTS, REPLICAS = 1_024, 16
# Readers of each document, for so many seconds, each with so many requests under way.
READERS, READING, AHEAD = 6, 2, 4


def text(talk, doc):
    return talk.ask(line(op="text", doc=doc))["text"]


def letters(count):
    return "".join(chr(97 + k % 26) for k in range(count))


def tell(daemon, talk, maker, records, doc, rev):
    """A peer tells these, until a document has so many operations."""
    peer = link(daemon, maker)
    for data in framed(records):
        peer.say(data)
    until = time.monotonic() + PATIENCE
    while talk.ask(line(op="text", doc=doc))["rev"] < rev:
        if time.monotonic() > until:
            raise TimeoutError(f"document {doc} hasn't {rev} operations")
        time.sleep(0.01)
    peer.close()


def is_ended(daemon, maker, *records):
    """Whether the daemon ends a link that tells these."""
    peer = link(daemon, maker)
    peer.say(ops(*records))
    found = peer.has_ended(PATIENCE)
    peer.close()
    return found


def check_place(checks, daemon, talk):
    """Many inserts at the start of a text: each goes to the front; then inserts whose ids are below all of those, past which each has to go."""
    tell(daemon, talk, HIGH, typed(HIGH, RISING, PLACED, first=1_000_000, at_start=True), PLACED, RISING)
    tell(daemon, talk, LOW, typed(LOW, FALLING, PLACED, at_start=True), PLACED, RISING + FALLING)
    checks.same("inserts at one place", text(talk, PLACED), letters(RISING)[::-1] + letters(FALLING)[::-1])


def check_chain(checks, daemon, talk):
    """Each character behind the one before; all of them removed, from the last one on."""
    tell(daemon, talk, DEEP, typed(DEEP, CHAIN, CHAINED), CHAINED, CHAIN)
    checks.same("a chain of origins", text(talk, CHAINED), letters(CHAIN))
    gone = [record(REMOVE, DEEP, CHAIN + 1 + k, name(CHAIN - k, DEEP), [(DEEP, CHAIN + k)], CHAINED) for k in range(CHAIN)]
    tell(daemon, talk, DEEP, gone, CHAINED, 2 * CHAIN)
    checks.same("a chain of tombstones", text(talk, CHAINED), "")
    checks.same("an insert before all of them", talk.ask(insert(0, "x", CHAINED)), {"ok": True, "rev": 2 * CHAIN + 1})


def check_marks(checks, daemon, talk):
    """Strong over everything, many times; and comments that each reach from another character to the end."""
    records = typed(MARKS, OVER, MARKED)
    for k in range(OVER):
        mark = bytes([COMMENT]) + (k + 1).to_bytes(16, "big") + anchor(1, k + 1, MARKS) + END
        records.append(record(ADD_MARK, MARKS, len(records) + 1, mark, [(MARKS, len(records))], MARKED))
        strong = bytes([STRONG]) + b"\0" + END
        records.append(record(ADD_MARK, MARKS, len(records) + 1, strong, [(MARKS, len(records))], MARKED))
    tell(daemon, talk, MARKS, records, MARKED, 3 * OVER)
    spans = talk.ask(line(op="spans", doc=MARKED))["spans"]
    checks.same("a span for each character", [span["text"] for span in spans], list(letters(OVER)))
    checks.same("comments of the spans", [len(span["comments"]) for span in spans], list(range(1, OVER + 1)))
    checks.holds("strong over everything", all(span["strong"] for span in spans))


def check_bound(checks, daemon, talk):
    """Comments that spans and changes would list more than 1,048,576 times: these are refused, and all else goes on."""
    first = 3 * OVER + 1
    records = typed(MARKS, BEYOND, BOUNDED, first=first, known=first - 1)
    for k in range(BEYOND):
        known = first - 1 + len(records)
        mark = bytes([COMMENT]) + (k + 1).to_bytes(16, "big") + anchor(1, first + k, MARKS) + END
        records.append(record(ADD_MARK, MARKS, known + 1, mark, [(MARKS, known)], BOUNDED))
    tell(daemon, talk, MARKS, records, BOUNDED, 2 * BEYOND)
    checks.same("spans beyond their bound", talk.ask(line(op="spans", doc=BOUNDED)), {"code": 1, "error": "memory", "ok": False})
    for since in (0, BEYOND):
        changes = talk.ask(line(op="changes", doc=BOUNDED, since=since))
        checks.same(f"changes beyond it since {since}", changes, {"code": 1, "error": "memory", "ok": False})
    few = talk.ask(line(op="changes", doc=BOUNDED, since=2 * BEYOND - 1))
    checks.holds("changes by the last comment alone", few["ok"] and len(few["changes"]) <= 2)
    checks.same("the text of that document", text(talk, BOUNDED), letters(BEYOND))
    checks.same("an edit of that document", talk.ask(insert(0, "x", BOUNDED)), {"ok": True, "rev": 2 * BEYOND + 1})


def check_saves(checks, daemon, talk):
    """Strong over the same text, again and again: its spans are shown."""
    first = 3 * OVER + 2 * BEYOND + 1
    records = typed(MARKS, 2, SAVED, first=first, known=first - 1)
    for _ in range(SAVES):
        known = first - 1 + len(records)
        records.append(record(ADD_MARK, MARKS, known + 1, bytes([STRONG]) + b"\0" + END, [(MARKS, known)], SAVED))
    tell(daemon, talk, MARKS, records, SAVED, SAVES + 2)
    checks.same("spans of a text that was made strong at each save", talk.ask(line(op="spans", doc=SAVED))["spans"], [{"strong": True, "text": "ab"}])


def read_on(daemon, request):
    """Asks for something large again and again, four times ahead, and reads the answers."""
    talk, until = seat(daemon), time.monotonic() + READING
    talk.send(request * AHEAD)
    while time.monotonic() < until:
        talk.file.readline()
        talk.send(request)
    talk.close()


def check_readers(daemon):
    """Many sessions that do nothing but read the largest documents."""
    requests = [line(op="spans", doc=MARKED), line(op="text", doc=PLACED), line(op="spans", doc=PLACED)]
    together(*[lambda request=request: read_on(daemon, request) for request in requests * READERS])


def check_replicas(checks, daemon, talk):
    """As many replicas as there may be, and one more."""
    there = 5  # Our own, and the four that told something.
    for number in range(REPLICAS - there):
        maker = replica(80 + number)
        tell(daemon, talk, maker, typed(maker, 1, PLACED), PLACED, RISING + FALLING + number + 1)
    one_more = replica(80 + REPLICAS)
    checks.holds("a link ends behind an operation of a 17th replica", is_ended(daemon, one_more, *typed(one_more, 1, PLACED)))


def check_documents(checks, daemon, talk):
    """As many documents as there may be, and one more, by a peer and by a session."""
    there = 6
    known = RISING
    records = [
        record(INSERT, HIGH, 2_000_000 + k, inserted("d"), [(HIGH, known + k)], 1_000 + k) for k in range(DOCUMENTS - there)
    ]
    tell(daemon, talk, HIGH, records, 1_000 + DOCUMENTS - there - 1, 1)
    known += len(records)
    more = record(INSERT, HIGH, 3_000_000, inserted("d"), [(HIGH, known)], 9_999)
    checks.holds("a link ends behind an operation of document 1,025", is_ended(daemon, HIGH, more))
    checks.same("an edit of document 1,025", talk.ask(insert(0, "x", 9_999)), {"code": 7, "error": "limit", "ok": False})
    checks.same("an edit of document 1,024", talk.ask(insert(0, "x", 1_000 + DOCUMENTS - there - 1))["rev"], 2)
    checks.holds("a link ends behind an operation of ours", is_ended(daemon, HIGH, record(INSERT, NAME, 2**40, inserted("a"), [(NAME, 2**20)])))


def check(checks, program, _until):
    daemon = new_daemon(program, "worst")
    try:
        talk = daemon.talk()
        with Beside(daemon, BESIDE) as beside:
            check_place(checks, daemon, talk)
            check_chain(checks, daemon, talk)
            check_marks(checks, daemon, talk)
            check_bound(checks, daemon, talk)
            check_saves(checks, daemon, talk)
            check_readers(daemon)
            check_replicas(checks, daemon, talk)
            check_documents(checks, daemon, talk)
        beside.told(checks, "documents at their worst", SOON, 64 * MEGABYTE)
        talk.close()
        check_end(checks, program, daemon, (PLACED, CHAINED, MARKED, BESIDE, 1_000))
    except (OSError, TimeoutError, subprocess.TimeoutExpired) as error:
        checks.same("worst cases come to their end", repr(error), None)
    finally:
        if daemon.run.poll() is None:
            daemon.kill()
