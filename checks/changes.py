"""What changed since a number of operations: in a session over a file, in those of a daemon and at linked ones, and what can't be told."""

import random
import time

from agreed import refused
from daemon import new_daemon, within
from places import ABC, END, FIELD, OTHER, anchors, answers_of, check_all, done
from program import REPLICA, delete, insert, line, new_file, run

STALE = refused(6)
STOP, PEERS, SPANS = line(op="stop"), line(op="peers"), line(op="spans", doc=1)
BARE = {"comments": None, "em": None, "link": None, "strong": None}
COMMENTS = [f"00000000-0000-4000-8000-0000000000c{number}" for number in range(3)]
LINKS = ["https://example.org/", "x:y"]
FOX = "🦊"
GREATEST = 2**32 - 1
# How many edits by chance, in how long a text, and how many a peer makes at a time while it is apart.
EDITS, LONGEST, APART = 120, 120, 15
# How often a reader asks until all answers are of one moment, and how many texts it remembers.
TRIES, KEPT = 100, 6


def changes(since, doc=1, **more):
    return line(op="changes", doc=doc, since=since, **more)


def told(rev, *steps):
    return {"changes": list(steps), "ok": True, "rev": rev}


def retain(count, **marks):
    """A step that leaves characters; with marks they have these now, and no others."""
    return {"attributes": {**BARE, **marks}, "retain": count} if marks else {"retain": count}


def put(text, **marks):
    return {"attributes": marks, "insert": text} if marks else {"insert": text}


def take(count):
    return {"delete": count}


def mark(first, last, kind, op="mark", **more):
    return line(op=op, doc=1, **{"from": first}, to=last, kind=kind, **more)


def unmark(first, last, kind, **more):
    return mark(first, last, kind, "unmark", **more)


# Of a fresh store each.
ROWS = {
    "a text": [
        ABC, (changes(0), told(3, put("abc"))), (changes(1), told(3, retain(1), put("bc"))), (changes(2), told(3, retain(2), put("c"))),
        (changes(3), told(3)), (changes(4), STALE), (changes(GREATEST), STALE), (line(op="text", doc=1), {"ok": True, "rev": 3, "text": "abc"}),
    ],
    "a document that nobody edited": [
        (changes(0, 9), told(0)), (changes(1, 9), STALE), (insert(0, "z", 9), done(1)), (changes(0, 9), told(1, put("z"))),
    ],
    "documents by themselves": [ABC, (insert(0, "xy", 2), done(2)), (changes(1, 2), told(2, retain(1), put("y"))), (changes(3, 2), STALE)],
    "typed": [
        ABC, (insert(0, "x"), done(4)), (insert(2, "y"), done(5)), (insert(5, "z"), done(6)),
        (changes(3), told(6, put("x"), retain(1), put("y"), retain(2), put("z"))), (changes(5), told(6, retain(5), put("z"))),
    ],
    "removed": [
        ABC, (delete(1, 1), done(4)), (changes(3), told(4, retain(1), take(1))), (delete(0, 1), done(5)), (changes(3), told(5, take(2))),
        (changes(4), told(5, take(1))), (delete(0, 1), done(6)), (changes(3), told(6, take(3))), (changes(0), told(6)), (changes(6), told(6)),
    ],
    "equal characters": [
        (insert(0, "aaa"), done(3)), (delete(1, 1), done(4)), (changes(3), told(4, retain(1), take(1))), (insert(2, "a"), done(5)),
        (changes(4), told(5, retain(2), put("a"))), (delete(0, 1), done(6)), (changes(5), told(6, take(1))), (changes(0), told(6, put("aa"))),
        (changes(4), told(6, take(1), retain(1), put("a"))),
    ],
    "put in and taken away since": [
        ABC, (insert(1, "xyz"), done(6)), (delete(1, 3), done(9)), (changes(3), told(9)), (changes(5), told(9, retain(1), take(2))),
    ],
    "beyond the first plane": [
        (insert(0, FOX + "é" + FOX), done(3)), (insert(1, FOX), done(4)), (delete(2, 1), done(5)),
        (changes(3), told(5, retain(1), put(FOX), take(1))), (mark(2, 3, "em"), done(6)), (changes(5), told(6, retain(2), retain(1, em=True))),
        (changes(0), told(6, put(FOX + FOX), put(FOX, em=True))),
    ],
    "marks": [
        ABC, (mark(0, 2, "strong"), done(4)), (changes(3), told(4, retain(2, strong=True))), (mark(1, 3, "em"), done(5)),
        (changes(4), told(5, retain(1), retain(1, em=True, strong=True), retain(1, em=True))),
        (changes(3), told(5, retain(1, strong=True), retain(1, em=True, strong=True), retain(1, em=True))),
        (changes(0), told(5, put("a", strong=True), put("b", em=True, strong=True), put("c", em=True))),
        (unmark(0, 3, "strong"), done(6)), (changes(5), told(6, retain(1, strong=None), retain(1, em=True))),
        (changes(3), told(6, retain(1), retain(2, em=True))),
        (unmark(0, 3, "em"), done(7)), (changes(6), told(7, retain(1), retain(2, em=None))), (changes(3), told(7)), (changes(0), told(7, put("abc"))),
    ],
    "links and comments": [
        ABC, (mark(0, 3, "link", url=LINKS[0]), done(4)), (mark(1, 2, "link", url=LINKS[1]), done(5)),
        (changes(4), told(5, retain(1), retain(1, link=LINKS[1]))),
        (mark(0, 3, "comment", id=COMMENTS[1]), done(6)), (mark(0, 1, "comment", id=COMMENTS[0]), done(7)),
        (changes(6), told(7, retain(1, comments=COMMENTS[:2], link=LINKS[0]))), (unmark(0, 3, "link"), done(8)),
        (changes(7), told(8, retain(1, comments=COMMENTS[:2]), retain(2, comments=COMMENTS[1:2]))), (unmark(0, 3, "comment", id=COMMENTS[1]), done(9)),
        (changes(8), told(9, retain(1, comments=COMMENTS[:1]), retain(2, em=None))), (changes(3), told(9, retain(1, comments=COMMENTS[:1]))),
    ],
    "a mark that changes nothing": [
        ABC, (mark(0, 3, "em"), done(4)), (mark(1, 2, "em"), done(5)), (changes(4), told(5)), (unmark(0, 3, "strong"), done(6)), (changes(4), told(6)),
        (mark(0, 3, "strong"), done(7)), (unmark(0, 3, "strong"), done(8)), (changes(6), told(8)),
    ],
    "typed within marks": [
        ABC, (mark(0, 3, "strong"), done(4)), (insert(2, "xy"), done(6)), (changes(4), told(6, retain(2), put("xy", strong=True))),
        (changes(3), told(6, retain(2, strong=True), put("xy", strong=True), retain(1, strong=True))),
    ],
    "no numbers": [
        ABC, *[(changes(it), FIELD) for it in (-1, 2**32, 2**64, 1.5, 1.0, "1", "", True, None, [1], {"0": 1})], (line(op="changes", doc=1), FIELD),
        (b'{"op":"changes","doc":1,"since":3e0}\n', FIELD), (b'{"op":"changes","doc":1,"since":9,"since":2}\n', told(3, retain(2), put("c"))),
    ],
    "other fields": [
        ABC, (changes(3, 0), FIELD), (changes(3, 2**32), FIELD), (line(op="changes", since=0), FIELD), (changes(3, rev=3), FIELD),
        (changes(3, at=0), FIELD), (changes(3, token=REPLICA), FIELD), (line(op="text", doc=1, since=0), FIELD),
        (insert(0, "x")[:-2] + b',"since":3}\n', FIELD),
    ],
}


def check_rows(checks, program):
    check_all(checks, program, ROWS)


def check_bytes(checks, program):
    """The answer as it is written, its keys in byte order."""
    new_file(program, "written")
    edits = [ABC[0], mark(1, 2, "comment", id=COMMENTS[0]), mark(1, 2, "link", url=LINKS[1]), mark(1, 2, "em"), mark(1, 2, "strong")]
    answers = run(program, "edit", "written", lines=b"".join([*edits, changes(0), changes(3)]))[1].splitlines()[-2:]
    marks = b'"attributes":{"comments":["%s"],"em":true,"link":"x:y","strong":true}' % COMMENTS[0].encode()
    wanted = [
        b'{"changes":[{"insert":"a"},{%s,"insert":"b"},{"insert":"c"}],"ok":true,"rev":7}',
        b'{"changes":[{"retain":1},{%s,"retain":1}],"ok":true,"rev":7}',
    ]
    checks.same("answers as they are written", answers, [answer % marks for answer in wanted])


def check_opened(checks, program):
    """What was before the opening can't be told, but for the text of then. A stop ends no reading."""
    new_file(program, "opened")
    found = answers_of(program, "opened", [ABC[0], STOP, changes(2)])
    checks.same("after a stop", found, [done(3), {"ok": True}, told(3, retain(2), put("c"))])
    rows = [
        (changes(1), STALE), (changes(2), STALE), (changes(3), told(3)), (changes(0), told(3, put("abc"))), (insert(3, "d"), done(4)),
        (delete(0, 1), done(5)), (changes(2), STALE), (changes(3), told(5, take(1), retain(2), put("d"))), (changes(4), told(5, take(1))),
        (changes(5), told(5)), (changes(0), told(5, put("bcd"))), (changes(6), STALE), (insert(0, "z", 2), done(1)),
        (changes(0, 2), told(1, put("z"))), (changes(1, 2), told(1)),
    ]
    checks.same("opened again", answers_of(program, "opened", [request for request, _ in rows]), [answer for _, answer in rows])
    checks.same("opened once more", answers_of(program, "opened", [changes(4), changes(5), changes(0)]), [STALE, told(5), told(5, put("bcd"))])


def cells_of(spans, names):
    """A text, character by character: the name of each, what it is, and its marks."""
    shown = [(letter, {key: held for key, held in span.items() if key != "text"}) for span in spans for letter in span["text"]]
    return [(name, *cell) for name, cell in zip(names, shown)]


def marks_of(step):
    return {key: held for key, held in step.get("attributes", {}).items() if held is not None}


def changed(cells, steps):
    """What steps make of these characters. One that comes has no name."""
    made, first = [], 0
    for step in steps:
        marks = marks_of(step)
        behind = first + step.get("retain", 0) + step.get("delete", 0)
        made += [(None, letter, marks) for letter in step.get("insert", "")]
        if "retain" in step:
            made += [(name, letter, marks if "attributes" in step else held) for name, letter, held in cells[first:behind]]
        first = behind
    return made + cells[first:]


def form_of(step):
    """What a step does, but not with how many characters, or which."""
    return {key: key == "attributes" and marks for key, marks in step.items()}


def is_idle(cells, steps):
    """Whether a step gives a character the marks that it has, or is one more than is needed: neighbours could be one, or the last only retains."""
    if any(form_of(step) == form_of(other) for step, other in zip(steps, steps[1:])) or (steps and set(steps[-1]) == {"retain"}):
        return True
    first = 0
    for step in steps:
        behind = first + step.get("retain", 0) + step.get("delete", 0)
        if "retain" in step and "attributes" in step and any(held == marks_of(step) for _, _, held in cells[first:behind]):
            return True
        first = behind
    return first > len(cells)


def is_right(before, steps, now):
    """Whether steps make these characters of others: those stay that are the same ones, and the others come or go."""
    made, known = changed(before, steps), {name for name, _, _ in before}
    named = [(name if name in known else None, letter, marks) for name, letter, marks in now]
    return made == named and not is_idle(before, steps)


class Reader:
    """A session that shows a text, and remembers all that it showed."""

    def __init__(self, daemon):
        self.talk, self.shown = daemon.talk(), {0: []}

    def read(self):
        """What is there now: the characters, their `rev`, and steps from each text that was shown to it. All are of one `rev`."""
        for _ in range(TRIES):
            spans = self.talk.ask(SPANS)
            length = sum(len(span["text"]) for span in spans["spans"])
            names = self.talk.ask(anchors(list(range(length)), "next")) if length else {"anchors": [], "rev": spans["rev"]}
            steps = {since: self.talk.ask(changes(since)) for since in [*self.shown, spans["rev"]]}
            if {answer.get("rev") for answer in (spans, names, *steps.values())} == {spans["rev"]}:
                return cells_of(spans["spans"], names["anchors"]), spans["rev"], steps
        raise TimeoutError(f"answers of one moment, but {steps}"[:400])

    def wrong(self):
        """What doesn't lead from a text that was shown to the one of now, which is shown then."""
        now, rev, steps = self.read()
        found = [(since, answer) for since, answer in steps.items() if not is_right(self.shown.get(since, now), answer["changes"], now)]
        self.shown = {since: self.shown[since] for since in [0, *list(self.shown)[1:][-KEPT:]]}
        self.shown[rev] = now
        return found

    def newest(self):
        return self.shown[max(self.shown)]


def edit_by_chance(chance, length):
    """An edit of a text of this length. Its letters are few, so that equal ones stand beside each other."""
    pick = chance.random()
    if length < 3 or pick < 0.4 and length < LONGEST:
        return insert(chance.randrange(length + 1), "".join(chance.choice("aab" + FOX) for _ in range(1 + chance.randrange(8))))
    first = chance.randrange(length - 1)
    if pick < 0.6 or length >= LONGEST:
        return delete(first, 1 + chance.randrange(min(6, length - first)))
    last = first + 1 + chance.randrange(min(12, length - first))
    kind, op = chance.choice(("strong", "em", "link", "comment")), chance.choice(("mark", "mark", "unmark"))
    more = {"comment": {"id": chance.choice(COMMENTS)}, "link": {"url": chance.choice(LINKS)} if op == "mark" else {}}
    return mark(first, last, kind, op, **more.get(kind, {}))


def edited(checks, talk, chance):
    """An edit by chance, of what is there now. What others do meanwhile may leave no such place."""
    length = len(talk.ask(line(op="text", doc=1))["text"])
    answer = talk.ask(edit_by_chance(chance, length))
    checks.holds(f"an edit by chance: {answer}", answer["ok"] or answer["code"] == 5)


def have_all(talks):
    """Waits until the peer of each one has all that it has: numbers of operations may be the same ones before."""
    lacking = lambda talk: [peer["lacks"] for peer in talk.ask(PEERS)["peers"]]
    within("both have all", lambda: all(lacking(talk) == [0] for talk in talks))


def check_chance(checks, program):
    """Edits by chance of two that are linked, and readers of both, which come now and then."""
    chance = random.Random(12)
    one = new_daemon(program, "changes-one", REPLICA)
    other = new_daemon(program, "changes-other", OTHER, link=one.peers)
    daemons, readers = (one, other), (Reader(one), Reader(other))
    talks, found, read = [daemon.talk() for daemon in daemons], [], 0
    for _ in range(EDITS):
        edited(checks, chance.choice(talks), chance)
        if chance.random() < 0.3:
            time.sleep(chance.random() / 50)
        for reader in readers:
            if chance.random() < 0.3:
                found, read = found + reader.wrong(), read + 1
    have_all(talks)
    found += [wrong for reader in readers for wrong in reader.wrong()]
    checks.same(f"changes by chance: {read} readings", found[:1], [])
    checks.same("both show the same characters", readers[0].newest(), readers[1].newest())
    for talk in (*talks, *(reader.talk for reader in readers)):
        talk.close()
    for daemon in (other, one):
        checks.same("the end of one of two", daemon.stop(), END)


def started_again(daemon, link):
    """Ends a daemon and starts it anew, with a link or without one: a session of it."""
    daemon.stop()
    daemon.link = link
    daemon.start()
    return daemon.talk()


def check_twice(checks, program):
    """A character that two take away while they are apart is gone once: the second removal changes nothing."""
    one, other = new_daemon(program, "twice-one", REPLICA), new_daemon(program, "twice-other", OTHER)
    talk = one.talk()
    talk.ask(ABC[0])
    beside = started_again(other, one.peers)
    have_all((talk, beside))
    beside.close()
    beside = started_again(other, None)
    checks.same("both take it away", [each.ask(delete(1, 1)) for each in (talk, beside)], [done(4), done(4)])
    beside.close()
    beside = started_again(other, one.peers)
    have_all((talk, beside))
    gone = told(5, retain(1), take(1))
    checks.same("at the one that stayed", [talk.ask(changes(since)) for since in (3, 4, 5)], [gone, told(5), told(5)])
    checks.same("at the one that came", [beside.ask(changes(since)) for since in (3, 4, 5)], [STALE, told(5), told(5)])
    for each in (talk, beside):
        each.close()
    for daemon in (other, one):
        checks.same("the end of one that took it away", daemon.stop(), END)


def check_apart(checks, program):
    """A peer that edits the same text while it isn't linked, and comes again: what it did is told as steps over what was shown before."""
    chance = random.Random(13)
    one, other = new_daemon(program, "apart-one", REPLICA), new_daemon(program, "apart-other", OTHER)
    talk, reader, found = one.talk(), Reader(one), []
    talk.ask(insert(0, "aaab" * 10))
    for link in (one.peers, *(None, one.peers) * 3):
        beside = started_again(other, link)
        if link:
            have_all((talk, beside))
        for each in (talk, beside) if not link else ():
            for _ in range(APART):
                edited(checks, each, chance)
        found += reader.wrong()
        beside.close()
    checks.same("changes by a peer that was apart", found[:1], [])
    reader.talk.close()
    talk.close()
    for daemon in (other, one):
        checks.same("the end of one that was apart", daemon.stop(), END)


def check(checks, program, _until):
    try:
        check_rows(checks, program)
        check_bytes(checks, program)
        check_opened(checks, program)
        check_chance(checks, program)
        check_twice(checks, program)
        check_apart(checks, program)
    except (OSError, TimeoutError) as error:
        checks.same("changes come to their end", repr(error), None)
