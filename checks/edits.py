"""Several edits in one line: each row in a session over a file and in a daemon's, the same as one by one, refused whole, read beside, sent again,
told to a peer, and behind kills."""

import json
import random
import threading

import chance_edits
from agreed import LIMITS, refused
from changes import FOX, changes, have_all, mark, put, retain, take, told
from daemon import new_daemon
from kills import killed_session
from places import END, OTHER, anchors, answers_of, check_all
from program import REPLICA, insert, line, new_file, read, run

TOKEN, AGAIN = REPLICA[:-2] + "d1", REPLICA[:-2] + "d2"
LINE, LIST, LONG = LIMITS["line_bytes"], LIMITS["edits"], LIMITS["edit_characters"]
LETTERS = "".join(chr(97 + at % 26) for at in range(LONG))
TEXT, SPANS, STOP, STATUS = line(op="text", doc=1), line(op="spans", doc=1), line(op="stop"), line(op="status")
# How many lines a reader sees come, of how many letters each; how many lines by chance, of up to how many edits.
SEEN, LETTER, CHANCE, MOST = 60, 40, 30, 6
# Of killed sessions: how many, of how many lines, of how many edits, and the most seconds until the kill.
KILLS, LINES, PARTS, SLOWEST = 20, 40, 8, 0.15
# Of those who remove at once more than may wait for a commit: how many, of texts of how many long edits each.
SENDERS, FILLED = 6, 12


def edits(*them, doc=1, **more):
    return line(op="edits", doc=doc, edits=list(them), **more)


def typed(at, text):
    return {"op": "insert", "at": at, "text": text}


def removed(at, count):
    return {"op": "delete", "at": at, "count": count}


def marked(first, last, kind="strong", op="mark", **more):
    return {"op": op, "from": first, "to": last, "kind": kind, **more}


def done(rev):
    return {"ok": True, "rev": rev}


def shown(rev, text):
    return {"ok": True, "rev": rev, "text": text}


FIELD, STALE = refused(4), refused(6)
ABC = (edits(typed(0, "a"), typed(1, "b"), typed(2, "c")), done(3))
# What is refused in a text of three characters, and what is answered.
REFUSED = [
    (edits(), FIELD), (line(op="edits", doc=1), FIELD), (line(op="edits", doc=1, edits=None), FIELD), (line(op="edits", doc=1, edits={}), FIELD),
    (edits(*[typed(0, "x")] * (LIST + 1)), FIELD), (edits(typed(0, "x"), 7), FIELD), (edits(typed(0, "x"), {"op": "stop"}), FIELD),
    (edits(typed(0, "x"), {"op": "edits", "edits": [typed(0, "y")]}), FIELD), (edits(typed(0, "x"), {"at": 0, "text": "y"}), FIELD),
    (edits(typed(0, "x"), {**typed(0, "y"), "doc": 1}), FIELD), (edits(typed(0, "x"), {**typed(0, "y"), "rev": 3}), FIELD),
    (edits(typed(0, "x"), {**typed(0, "y"), "token": TOKEN}), FIELD), (edits(typed(0, "x"), typed(0, "")), FIELD),
    (edits(typed(0, "x"), removed(0, 0)), FIELD), (edits(typed(0, "x"), removed(-1, 1)), FIELD), (edits(typed(0, "x"), marked(0, 1, "bold")), FIELD),
    (edits(typed(0, "x"), doc=0), FIELD), (edits(typed(0, "x"), at=0), FIELD),
    (edits(typed(0, "x"), rev=-1), FIELD), (edits(typed(0, "x"), token=None), FIELD),
    (line(op="edit", doc=1, edits=[typed(0, "x")]), refused(3)), (line(op="insert", doc=1, at=0, text="x", edits=[typed(0, "x")]), FIELD),
    (edits(typed(0, "x"), rev=2), STALE), (edits(typed(9, "x"), typed(0, ""), rev=2), FIELD), (edits(typed(9, "x"), removed(0, 1), rev=4), STALE),
    (edits(typed(0, "x"), typed(5, "y")), refused(5, at=1)), (edits(typed(4, "x"), typed(0, "y")), refused(5, at=0)),
    (edits(removed(0, 3), removed(0, 1)), refused(5, at=1)), (edits(typed(0, "x"), removed(4, 1)), refused(5, at=1)),
    (edits(typed(0, "x"), removed(0, 4), marked(0, 1)), refused(5, at=2)),
    (edits(*[typed(0, "x")] * (LIST - 1), typed(2_000, "y")), refused(5, at=LIST - 1)),
    (edits(typed(0, "x"), typed(0, LETTERS + "y"), typed(999, "z")), refused(7, at=1)),
    (edits(typed(999, LETTERS + "y"), typed(0, "z")), refused(5, at=0)), (edits(typed(0, LETTERS), removed(0, LONG + 1)), refused(7, at=1)),
    # One alone isn't named.
    (edits(typed(9, "x")), refused(5)), (edits(typed(0, LETTERS + "y")), refused(7)),
    (edits(typed(0, "x"), typed(0, "y"), token=TOKEN, rev=9), STALE), (edits(typed(0, "x"), typed(9, "y"), token=TOKEN), refused(5, at=1)),
    (edits(*[typed(0, LETTERS)] * 240)[:LINE] + b"\n", refused(2)),
    (edits(*[typed(0, LETTERS)] * 250), refused(11)),
]
# Of a fresh store each.
ROWS = {
    "one after another": [
        ABC, (TEXT, shown(3, "abc")), (edits(removed(1, 1), typed(1, "BB"), typed(4, "d"), rev=3), done(7)), (TEXT, shown(7, "aBBcd")),
        (changes(3), told(7, retain(1), put("BB"), take(1), retain(1), put("d"))), (changes(0), told(7, put("aBBcd"))),
        (edits(marked(0, 2), marked(1, 5, "em"), marked(1, 2, op="unmark")), done(10)),
        (changes(7), told(10, retain(1, strong=True), retain(4, em=True))),
    ],
    "the worked one": [
        (insert(0, "one two"), done(7)), (edits(removed(4, 3), typed(4, "TWO"), marked(4, 7), rev=7, token=TOKEN), done(14)),
        (SPANS, {"ok": True, "rev": 14, "spans": [{"text": "one "}, {"strong": True, "text": "TWO"}]}),
        (edits(removed(0, 4), typed(9, "x"), rev=14), refused(5, at=1)), (TEXT, shown(14, "one TWO")),
    ],
    "nothing is left": [
        ABC, (edits(typed(1, "xyz"), removed(1, 3)), done(9)), (TEXT, shown(9, "abc")), (changes(3), told(9)),
        (edits(removed(0, 3), typed(0, "abc"), removed(0, 3)), done(18)), (TEXT, shown(18, "")),
    ],
    "one alone": [(edits(typed(0, "a")), done(1)), (edits(removed(0, 1), rev=1), done(2)), (TEXT, shown(2, ""))],
    "many": [
        (edits(*[typed(at, "x") for at in range(LIST)]), done(LIST)), (edits(*[removed(0, 1)] * LIST), done(2 * LIST)), (TEXT, shown(2 * LIST, "")),
    ],
    "what waits for one commit": [
        (edits(*[typed(0, LETTERS)] * 42), done(42 * LONG)), (edits(*[removed(0, 11)] * 973, token=TOKEN), refused(7, at=972)),
        (edits(*[removed(0, 11)] * 9, token=TOKEN), done(42 * LONG + 99)),
    ],
    "tokens": [
        (edits(typed(0, "ab"), removed(0, 1), token=TOKEN), done(3)), (insert(1, "c"), done(4)),
        (edits(typed(0, "ab"), removed(0, 1), token=TOKEN), done(3)), (edits(typed(9, "x"), token=TOKEN, rev=77), done(3)),
        (edits(typed(0, "x"), typed(0, "y"), token=TOKEN, doc=2), done(3)),
        (line(op="insert", doc=1, at=0, text="z", token=TOKEN), done(3)), (edits(token=TOKEN), FIELD),
        (edits(typed(0, "x"), typed(0, LETTERS + "y"), token=AGAIN), refused(7, at=1)), (line(op="insert", doc=1, at=0, text="z", token=AGAIN), done(5)),
        (edits(typed(0, "x"), removed(0, 1), token=AGAIN), done(5)), (TEXT, shown(5, "zbc")),
    ],
}


def check_refused(checks, program):
    """A line that is refused leaves the file and all that is read as it was."""
    new_file(program, "refused")
    answers_of(program, "refused", [ABC[0]])
    before = read("refused"), run(program, "dump", "refused", "1")
    for request, answer in REFUSED:
        found = answers_of(program, "refused", [request, TEXT, STATUS])
        status = {"applied": 3, "ok": True, "settled": 3, "state": "open"}
        checks.same(f"{request[:120]}", found, [answer, shown(3, "abc"), status])
        checks.holds(f"{request[:120]}: the file is as it was", (read("refused"), run(program, "dump", "refused", "1")) == before)


def check_opened(checks, program):
    """A line under a token is known in another opening, also under another kind of edit, and behind a stop."""
    new_file(program, "opened")
    made = edits(typed(0, "ab"), removed(0, 1), marked(0, 1), token=TOKEN)
    checks.same("a line", answers_of(program, "opened", [made]), [done(4)])
    before = read("opened")
    again = [made, edits(typed(7, "x"), token=TOKEN), line(op="delete", doc=1, at=0, count=1, token=TOKEN), STOP, made, edits(typed(0, "x")), TEXT]
    checks.same("sent again", answers_of(program, "opened", again), [done(4)] * 3 + [{"ok": True}, done(4), refused(12), shown(4, "b")])
    checks.holds("the file has nothing more", read("opened") == before)


def listed(request):
    """A line that edits document 1, as it stands in a list."""
    return {key: held for key, held in json.loads(request).items() if key != "doc"}


def check_long(checks, program):
    """A line that is about as long as it may be."""
    new_file(program, "long")
    request = edits(*[typed(0, FOX * LONG)] * 20)
    checks.holds("a long line", 60_000 < len(request) < LINE)
    checks.same("its answers", answers_of(program, "long", [request, TEXT]), [done(20 * LONG), shown(20 * LONG, FOX * LONG * 20)])


def check_same(checks, program):
    """What a line makes is what its edits make one by one, to the ids of the characters."""
    chance, length, singles, lists = random.Random(7), 0, [], []
    for _ in range(CHANCE):
        group = []
        for _ in range(1 + chance.randrange(MOST)):
            made, length = chance_edits.edit(chance, 1, length, False)
            group.append(made)
        singles.append(group)
        lists.append(edits(*map(listed, group)))
    asked = [SPANS, changes(0), *(anchors(list(range(first, min(first + LONG, length)))) for first in range(0, length, LONG))]
    found = []
    for name, requests in (("singles", [one for group in singles for one in group]), ("lists", lists)):
        new_file(program, name)
        answers = answers_of(program, name, [*requests, *asked])
        shows = run(program, "dump", name, "1"), run(program, "export", name, "1", "--to", "html")
        found.append((answers[: len(requests)], answers[len(requests) :], *shows))
    (alone, *one), (together, *other) = found
    checks.holds("lines by chance are made", all(answer["ok"] for answer in alone + together))
    ends = [sum(len(group) for group in singles[: at + 1]) - 1 for at in range(CHANCE)]
    checks.same("each has the answer of its last edit", together, [alone[end] for end in ends])
    checks.holds("the same is there", one == other)


def check_seen(checks, program):
    """Who reads beside lines of three edits sees what is before one or behind it, and so does who watches."""
    daemon = new_daemon(program, "seen")
    talk, reader, watcher = daemon.talk(), daemon.talk(), daemon.talk()
    watcher.send(line(op="watch", doc=1))
    talk.ask(edits(typed(0, "a" * LETTER), marked(0, LETTER)))
    step = 2 * LETTER + 1
    faults, revs, watched = [], set(), []
    is_over = threading.Event()

    def read_all():
        while not is_over.is_set():
            for request in (TEXT, SPANS):
                answer = reader.ask(request)
                spans = answer.get("spans", [{"strong": True, "text": answer.get("text")}])
                text = "".join(span["text"] for span in spans)
                revs.add(answer["rev"])
                is_marked = len(spans) == 1 and spans[0].get("strong")
                if (answer["rev"] - LETTER - 1) % step or len(text) != LETTER or len(set(text)) != 1 or not is_marked:
                    faults.append(answer)

    def watch():
        while (answer := watcher.answer()) is not None:
            watched.append(answer["rev"])

    threads = [threading.Thread(target=read_all), threading.Thread(target=watch)]
    for thread in threads:
        thread.start()
    for k in range(SEEN):
        letter = chr(98 + k % 20)
        answer = talk.ask(edits(removed(0, LETTER), typed(0, letter * LETTER), marked(0, LETTER)))
        if answer != done(LETTER + 1 + step * (k + 1)):
            faults.append(answer)
    is_over.set()
    threads[0].join()
    checks.same("the end of one that is read", daemon.stop(), END)
    threads[1].join()
    checks.same(f"what was read of {len(revs)} revs", faults[:2], [])
    checks.holds("some was read between", len(revs) > 3)
    checks.same("what was watched", [rev for rev in watched if rev and (rev - LETTER - 1) % step], [])


def check_busy(checks, program):
    """Many that at once remove about all that may wait for a commit: each line is made or refused as busy, and nothing of it is there then."""
    daemon = new_daemon(program, "busy")
    talks = [daemon.talk() for _ in range(SENDERS)]
    removals = [edits(*[removed(0, LONG)] * FILLED, doc=doc, token=TOKEN[:-2] + f"{doc:02x}") for doc in range(1, SENDERS + 1)]
    for doc, talk in enumerate(talks, 1):
        talk.ask(edits(*[typed(0, LETTERS)] * FILLED, doc=doc))
    for talk, removal in zip(talks, removals):
        talk.send(removal)
    answers = [talk.answer() for talk in talks]
    texts = [talk.ask(line(op="text", doc=doc)) for doc, talk in enumerate(talks, 1)]
    whole, rest = shown(FILLED * LONG, LETTERS * FILLED), shown(2 * FILLED * LONG, "")
    checks.holds("each is made or busy", all(answer in (done(rest["rev"]), refused(8)) for answer in answers))
    checks.holds("what is there is whole", texts == [rest if answer["ok"] else whole for answer in answers])
    for talk, removal in zip(talks, removals):
        while talk.ask(removal) == refused(8):
            pass
    texts = [talk.ask(line(op="text", doc=doc)) for doc, talk in enumerate(talks, 1)]
    checks.holds("sent again, each is made once", texts == [rest] * SENDERS)
    checks.same("the end of a busy one", daemon.stop(), END)


def check_linked(checks, program):
    """Two that are linked: lines of many edits at both, and the same is shown by both then."""
    chance = random.Random(11)
    one = new_daemon(program, "edits-one", REPLICA)
    other = new_daemon(program, "edits-other", OTHER, link=one.peers)
    talks, faults = [one.talk(), other.talk()], []
    talks[0].ask(insert(0, LETTERS))
    have_all(talks)
    for k in range(60):
        talk = chance.choice(talks)
        at = chance.randrange(100)
        text, kind = "x" * chance.randrange(1, 99), chance.choice(("em", "strong"))
        answer = talk.ask(edits(removed(at, 5), typed(at, text), marked(at, at + 3, kind), typed(0, f"<{k}>")))
        faults += [answer] if not answer["ok"] else []
    have_all(talks)
    checks.same("lines at two that are linked", faults[:1], [])
    both = [[talk.ask(request) for request in (SPANS, changes(0), anchors(list(range(LONG))))] for talk in talks]
    checks.holds("both show the same", both[0] == both[1])
    checks.same("the ends of both", [daemon.stop() for daemon in (other, one)], [END, END])


def part(k, at):
    """What the edit of this number types in the line of this number."""
    return f"{k:04d}.{at:02d};"


SIZE = len(part(0, 0))


def kill_line(k):
    """A line whose edits type parts of a text, at its end, in the order in which they stand there at last, and take some away."""
    first = SIZE * PARTS * k
    them = [typed(first + SIZE * at, part(k, at)) for at in range(PARTS)]
    return edits(typed(first, "away"), removed(first, 4), *them)


def check_kills(checks, program, until):
    """Sessions that are killed while lines come: each line is there whole or not at all, and those that were answered are there."""
    chance = random.Random(5)
    new_file(program, "edits-killed")
    settled, length = 0, SIZE * PARTS
    for number in range(KILLS):
        lines = b"".join(kill_line(k) for k in range(settled, settled + LINES))
        answered = killed_session(program, "edits-killed", lines, chance.random() * SLOWEST)
        status, output, _ = run(program, "dump", "edits-killed", "1")
        answer = json.loads(output.splitlines()[0]) if status == 0 else {"text": "", "rev": -1}
        count = len(answer["text"]) // length
        wanted = "".join(part(k, at) for k in range(count) for at in range(PARTS))
        checks.holds(f"killed session {number}: whole lines in order", (answer["text"], answer["rev"]) == (wanted, count * (length + 8)))
        checks.holds(f"killed session {number}: {answered} answered, {count - settled} there", settled + answered <= count <= settled + LINES)
        settled = count


def check(checks, program, until):
    try:
        check_all(checks, program, ROWS)
        check_refused(checks, program)
        check_opened(checks, program)
        check_long(checks, program)
        check_same(checks, program)
        check_seen(checks, program)
        check_busy(checks, program)
        check_linked(checks, program)
        check_kills(checks, program, until)
    except (OSError, TimeoutError) as error:
        checks.same("lines of several edits come to their end", repr(error), None)
