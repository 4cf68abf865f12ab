"""What is counted of a file while sessions edit it: each document with its characters, its operations and who wrote in it (`documents`), and how much
there is of what there is a limit to (`room`). In a session over a file and in those of a daemon, beside `text`, `spans` and `list`, and at two peers.
"""

import json
import threading

import agreed
from beside import seat, together
from daemon import Daemon, new_daemon, within
from places import ABC, END, FIELD, answers_of, check_all, done
from program import REPLICA, delete, fault, insert, line, new_file, run

OTHER = REPLICA[:-1] + "2"
DOCUMENTS, ROOM, STATUS, STOP = (line(op=op) for op in ("documents", "room", "status", "stop"))
GREATEST = 2**32 - 1
FOX = "🦊"
TOKEN = "00000000-0000-4000-8000-0000000000d1"
# How many sessions ask beside one that edits, how many edits that makes, and in how many documents by turns, a character each time.
SESSIONS, EDITS, EDITED = 31, 60, 8
# How often two daemons part, and how many operations they make each time in all.
PARTED, APART = 3, 16
# The limits, by what they are of.
LIMITS = {name: agreed.LIMITS[name] for name in ("bytes", "documents", "operations", "replicas", "steps")}


def row(doc, chars, ops, *writers):
    return {"chars": chars, "doc": doc, "ops": ops, "writers": list(writers or [REPLICA])}


def counted(*rows):
    return {"documents": list(rows), "ok": True}


def taken(size, documents, operations, replicas, steps):
    """The answer to `room`. Against the limit counts a record for each operation."""
    numbers = dict(zip(LIMITS, (size, documents, operations, replicas, steps)))
    return {"ok": True, **numbers, **{f"{name}_limit": most for name, most in LIMITS.items()}}


def text(doc):
    return line(op="text", doc=doc)


def spans(doc):
    return line(op="spans", doc=doc)


def strong(start, end, doc=1):
    return line(op="mark", doc=doc, **{"from": start}, to=end, kind="strong")


EMPTY = taken(0, 0, 0, 0, 0)
# An insert has 39 bytes, 24 more behind others and 24 more behind a character, and 16 with a token; a remove 82, and a mark between two characters 109.
THREE = 39 + 87 + 87
# Of a fresh store each.
ROWS = {
    "nothing": [(DOCUMENTS, counted()), (ROOM, EMPTY), (text(7), {"ok": True, "rev": 0, "text": ""}), (DOCUMENTS, counted()), (ROOM, EMPTY)],
    "a document": [ABC, (DOCUMENTS, counted(row(1, 3, 3))), (ROOM, taken(THREE, 1, 3, 1, 2))],
    "several documents": [
        (insert(0, FOX + "é", GREATEST), done(2)), (insert(0, "x", 40), done(1)), (insert(0, "abc"), done(3)), (insert(1, "y", 40), done(2)),
        (DOCUMENTS, counted(row(1, 3, 3), row(40, 2, 2), row(GREATEST, 2, 2))), (ROOM, taken(39 + 87 + 63 + 63 + 87 + 87 + 87, 3, 7, 1, 8)),
    ],
    "removed characters": [
        ABC, (delete(0, 2), done(5)), (DOCUMENTS, counted(row(1, 1, 5))), (delete(0, 1), done(6)), (DOCUMENTS, counted(row(1, 0, 6))),
        (ROOM, taken(THREE + 3 * 82, 1, 6, 1, 6)), (text(1), {"ok": True, "rev": 6, "text": ""}), (insert(0, "z"), done(7)),
        (DOCUMENTS, counted(row(1, 1, 7))),
    ],
    "marks": [ABC, (strong(0, 2), done(4)), (DOCUMENTS, counted(row(1, 3, 4))), (ROOM, taken(THREE + 109, 1, 4, 1, 4))],
    # No step is made by what is refused, nor by what was made before.
    "steps": [
        (line(op="insert", doc=1, at=0, text="ab", token=TOKEN), done(2)), (ROOM, taken(39 + 87 + 2 * 16, 1, 2, 1, 2)),
        (line(op="insert", doc=1, at=0, text="ab", token=TOKEN), done(2)), (delete(0, 7), {"code": 5, "error": "range", "ok": False}),
        (insert(0, "x" * 257), {"code": 7, "error": "limit", "ok": False}), (text(1), {"ok": True, "rev": 2, "text": "ab"}),
        (ROOM, taken(39 + 87 + 2 * 16, 1, 2, 1, 2)), (DOCUMENTS, counted(row(1, 2, 2))),
        (line(op="edits", doc=1, edits=[{"op": "insert", "at": 2, "text": "c"}, {"op": "delete", "at": 0, "count": 1}]), done(4)),
        (ROOM, taken(39 + 87 + 2 * 16 + 87 + 82, 1, 4, 1, 4)),
    ],
    "other fields": [
        ABC, *[(line(op=op, **{name: value}), FIELD) for op in ("documents", "room") for name, value in (("doc", 1), ("docs", "all"), ("rev", 3), ("x", None))],
        (b'{"op":"room","token":"' + TOKEN.encode() + b'"}\n', FIELD), (line(op="document"), {"code": 3, "error": "request", "ok": False}),
        (DOCUMENTS, counted(row(1, 3, 3))),
    ],
}


def check_rows(checks, program):
    check_all(checks, program, ROWS)


def check_bytes(checks, program):
    """The answers are compact, with their keys in byte order."""
    new_file(program, "told-bytes")
    said = (
        b'{"ok":true,"rev":1}\n'
        b'{"documents":[{"chars":1,"doc":3,"ops":1,"writers":["' + REPLICA.encode() + b'"]}],"ok":true}\n'
        b'{"bytes":39,"bytes_limit":1073741824,"documents":1,"documents_limit":1024,"ok":true,"operations":1,"operations_limit":16777216,'
        b'"replicas":1,"replicas_limit":16,"steps":2,"steps_limit":1048576}\n'
    )
    checks.same("the bytes of both", run(program, "edit", "told-bytes", lines=insert(0, "a", 3) + DOCUMENTS + ROOM), (0, said, b""))


def listed(program, name):
    """What `list` says of a file: its rows, and its room."""
    status, output, faults = run(program, "list", name)
    lines = [json.loads(it) for it in output.splitlines()]
    return (lines[:-1], lines[-1]) if status == 0 else (faults, None)


def as_listed(answer):
    """Rows of `documents` as `list` has them: it doesn't tell who wrote."""
    return [{"chars": it["chars"], "doc": it["doc"], "ok": True, "ops": it["ops"]} for it in answer["documents"]]


def in_file(room):
    """What `list` tells of a room: all but the steps."""
    return {name: value for name, value in room.items() if not name.startswith("steps")}


def shown(ask, answer):
    """Rows of `documents` as `text` and `spans` have them."""
    found = []
    for it in answer["documents"]:
        whole, parts = ask(text(it["doc"])), ask(spans(it["doc"]))
        joined = "".join(span["text"] for span in parts["spans"])
        found.append({**it, "chars": len(joined), "ops": parts["rev"]} if (whole["text"], whole["rev"]) == (joined, parts["rev"]) else (whole, parts))
    return found


def check_listed(checks, program):
    """They are what `list` says once the session has ended, and what the next one says, whose steps are none."""
    new_file(program, "told-list")
    typed = [insert(0, "abcdef", 9), strong(1, 4, 9), delete(3, 3, 9), insert(0, "x"), delete(0, 1), insert(0, FOX, 500)]
    *_, rows, room, stop = answers_of(program, "told-list", [*typed, DOCUMENTS, ROOM, STOP])
    checks.same("rows over a file", rows, counted(row(1, 0, 2), row(9, 3, 10), row(500, 1, 1)))
    checks.same("steps over a file", room["steps"], 2 * len(typed))
    checks.same("its stop", stop, {"ok": True})
    checks.same("a list of it", listed(program, "told-list"), (as_listed(rows), in_file(room)))
    checks.same("the file opened anew", answers_of(program, "told-list", [DOCUMENTS, ROOM]), [rows, {**room, "steps": 0}])
    checks.same("after a stop", answers_of(program, "told-list", [STOP, DOCUMENTS, ROOM]), [{"ok": True}, rows, {**room, "steps": 0}])


def begun(daemons, daemon):
    """A daemon that is noted, so that it is gone whatever comes."""
    daemons.append(daemon)
    return daemon


def check_daemon(checks, program, daemons):
    """So they are at a daemon, whose file no `list` may read meanwhile."""
    daemon = begun(daemons, new_daemon(program, "told-served"))
    talk = daemon.talk()
    steps = []
    for doc, typed in ((7, "one"), (2, "two"), (7, "three")):
        talk.ask(insert(0, typed, doc))
        steps.append(talk.ask(ROOM)["steps"])
    checks.holds(f"steps rise: {steps}", steps == sorted(set(steps)))
    talk.ask(strong(0, 2, 7))
    talk.ask(delete(0, 3, 2))
    rows, room = talk.ask(DOCUMENTS), talk.ask(ROOM)
    checks.same("rows at a daemon", rows, counted(row(2, 0, 6), row(7, 8, 9)))
    checks.same("rows, and what is shown", shown(talk.ask, rows), rows["documents"])
    checks.same("a list beside a daemon", run(program, "list", "told-served"), fault(54))
    checks.same("`ask` asks for them", run(program, "ask", str(daemon.sessions), ROOM.decode().strip())[:2], (0, line(**dict(sorted(room.items())))))
    talk.close()
    checks.same("the end of a daemon that counted", daemon.stop(), END)
    checks.same("a list of its file", listed(program, "told-served"), (as_listed(rows), in_file(room)))
    daemon = begun(daemons, Daemon(program, "told-served"))
    talk = daemon.talk()
    checks.same("a daemon that opened it anew", (talk.ask(DOCUMENTS), talk.ask(ROOM)), (rows, {**room, "steps": 0}))
    talk.close()
    checks.same("its end", daemon.stop(), END)


def edit_apart(one, other, turn):
    """Both edit while they are parted: a document of each alone, and two that both edit, of which the other one has the first word in one."""
    first, second = (one, other) if turn % 2 else (other, one)
    for talk, doc, typed in ((first, 1, "a"), (second, 1, "bc"), (other, 20, FOX), (one, 20, "x"), (one, 30, "one"), (other, 40, "other")):
        talk.ask(insert(0, typed, doc))
    one.ask(delete(0, 2, 30))
    other.ask(strong(0, 1, 40))


def check_peers(checks, program, daemons):
    """Two daemons that part, edit, and meet again, over and over: then both tell the same rows."""
    one, other = (begun(daemons, new_daemon(program, name, replica)) for name, replica in (("told-one", REPLICA), ("told-other", OTHER)))
    wanted = []
    for turn in range(PARTED):
        mine, its = one.talk(), other.talk()
        before = mine.ask(DOCUMENTS)
        edit_apart(mine, its, turn)
        checks.holds(f"parted, turn {turn}", mine.ask(DOCUMENTS) != its.ask(DOCUMENTS) and mine.ask(DOCUMENTS) != before)
        its.close()
        checks.same(f"the other one's end, turn {turn}", other.stop(), END)
        other = begun(daemons, Daemon(program, "told-other", link=one.peers))
        its = other.talk()
        within("both have all", lambda mine=mine, its=its, turn=turn: all(it.ask(STATUS)["settled"] == APART * (turn + 1) for it in (mine, its)))
        rows, k = mine.ask(DOCUMENTS), turn + 1
        wanted = [row(1, 3 * k, 3 * k, REPLICA, OTHER), row(20, 2 * k, 2 * k, REPLICA, OTHER), row(30, k, 5 * k), row(40, 5 * k, 6 * k, OTHER)]
        checks.same(f"rows of the first one, turn {turn}", rows, counted(*wanted))
        checks.same(f"rows of the other one, turn {turn}", its.ask(DOCUMENTS), rows)
        checks.same(f"rows and what is shown, turn {turn}", (shown(mine.ask, rows), shown(its.ask, rows)), (wanted, wanted))
        rooms = [it.ask(ROOM) for it in (mine, its)]
        checks.same(f"their rooms, turn {turn}", in_file(rooms[0]), in_file(rooms[1]))
        checks.same(f"replicas, turn {turn}", rooms[0]["replicas"], 2)
        mine.close()
        its.close()
        if turn < PARTED - 1:
            other.stop()
            other = begun(daemons, Daemon(program, "told-other"))
    for daemon in (other, one):
        checks.same(f"the end of {daemon.name}", daemon.stop(), END)
        found, room = listed(program, daemon.name)
        checks.same(f"a list of {daemon.name}", (found, room), (as_listed(counted(*wanted)), in_file(rooms[0])))


def is_front(answer, least):
    """Whether each document has the operations of some moment of one who puts a character into each by turns, and they are no fewer than so many."""
    counts = [it["ops"] for it in answer["documents"]]
    first = sum(counts)
    due = [first // EDITED + (k < first % EDITED) for k in range(EDITED)]
    return first >= least and answer == counted(*[row(1 + k, count, count) for k, count in enumerate(due) if count])


def check_many(checks, program, daemons):
    """As many sessions as there are beside one that edits ask for the documents: each answer is whole, and of one moment."""
    daemon = begun(daemons, new_daemon(program, "told-many"))
    editor, talks, wrong, counts, over = seat(daemon), [seat(daemon) for _ in range(SESSIONS)], [], [], threading.Event()

    def edit():
        try:
            for number in range(EDITS):
                answer = editor.ask(insert(0, "x", 1 + number % EDITED))
                if answer != done(1 + number // EDITED):
                    wrong.append(answer)
        finally:
            over.set()

    def ask(talk):
        least, asked, is_last = 0, 0, False
        while not is_last:
            is_last = over.is_set()
            answer = talk.ask(DOCUMENTS)
            if not (answer and answer.get("ok") and is_front(answer, EDITS if is_last else least)):
                wrong.append(answer)
            else:
                least = sum(it["ops"] for it in answer["documents"])
            asked += 1
        counts.append(asked)

    together(edit, *[lambda talk=talk: ask(talk) for talk in talks])
    checks.same(f"those of {sum(counts)} answers that aren't whole", wrong[:3], [])
    checks.same("sessions that were answered", len(counts), SESSIONS)
    checks.same("operations at last", editor.ask(ROOM)["operations"], EDITS)
    for talk in (editor, *talks):
        talk.close()
    checks.same("the end of a daemon that many asked", daemon.stop(), END)


def check(checks, program, _until):
    check_rows(checks, program)
    check_bytes(checks, program)
    check_listed(checks, program)
    daemons = []
    try:
        check_daemon(checks, program, daemons)
        check_peers(checks, program, daemons)
        check_many(checks, program, daemons)
    except (OSError, TimeoutError, TypeError) as error:
        checks.same("what is counted comes to its end", repr(error), None)
    finally:
        for daemon in daemons:
            if daemon.run.poll() is None:
                daemon.kill()
