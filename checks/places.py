"""Places that last: their names and where they stand, in a session over a file, in those of a daemon and at its peers, and what is no such place."""

import json
import random

from agreed import LIMITS, refused
from daemon import new_daemon, within
from program import REPLICA, delete, insert, line, new_file, run

OTHER, THIRD = REPLICA[:-1] + "2", REPLICA[:-1] + "3"
LETTERS = "abcdef01-2345-4678-89ab-cdef01234567"
FIELD, RANGE = refused(4), refused(5)
STOP, TEXT = line(op="stop"), line(op="text", doc=1)
END = ({"ok": True}, (0, b"", b""))
SIDES = ("previous", "next")
# How many places one request asks for at most, and the greatest counter.
MOST, GREATEST = LIMITS["places"], LIMITS["counter"]
EDITS = 150


def anchors(at, side="previous", doc=1, **more):
    return line(op="anchors", doc=doc, at=at, side=side, **more)


def places(names, doc=1, **more):
    return line(op="places", doc=doc, anchors=names, **more)


def named(rev, *names):
    return {"anchors": list(names), "ok": True, "rev": rev}


def standing(rev, *numbers):
    return {"ok": True, "places": list(numbers), "rev": rev}


def done(rev):
    return {"ok": True, "rev": rev}


def after(counter, replica=REPLICA):
    return f"a{counter}@{replica}"


def before(counter, replica=REPLICA):
    return f"b{counter}@{replica}"


ABC = (insert(0, "abc"), done(3))
# The names of the places 0, 1 and 3 of this text, by their neighbours before and after.
PREVIOUS, NEXT = ["start", after(1), after(3)], [before(1), before(2), "end"]
# Of a fresh store each.
ROWS = {
    "a text": [
        ABC, (anchors([0, 1, 3]), named(3, *PREVIOUS)), (anchors([0, 1, 3], "next"), named(3, *NEXT)),
        (places(PREVIOUS + NEXT), standing(3, 0, 1, 3, 0, 1, 3)), (anchors([3, 0, 3, 3]), named(3, after(3), "start", after(3), after(3))),
        (places([after(2), before(3), after(2)]), standing(3, 2, 2, 2)), (TEXT, {"ok": True, "rev": 3, "text": "abc"}),
    ],
    "typed at the start": [ABC, (insert(0, "x"), done(4)), (places(PREVIOUS + NEXT), standing(4, 0, 2, 4, 1, 2, 4))],
    "typed within": [ABC, (insert(1, "x"), done(4)), (places(PREVIOUS + NEXT), standing(4, 0, 1, 4, 0, 2, 4))],
    "typed at the end": [ABC, (insert(3, "x"), done(4)), (places(PREVIOUS + NEXT), standing(4, 0, 1, 3, 0, 1, 4))],
    "a removed neighbour": [
        ABC, (delete(1, 1), done(4)), (places([after(2), before(2)]), standing(4, 1, 1)), (anchors([1]), named(4, after(1))),
        (anchors([1], "next"), named(4, before(3))), (insert(1, "x"), done(5)), (TEXT, {"ok": True, "rev": 5, "text": "axc"}),
        (places([after(1), after(2), before(2), before(3)]), standing(5, 1, 2, 2, 2)), (delete(0, 3), done(8)),
        (places(PREVIOUS + NEXT), standing(8, 0, 0, 0, 0, 0, 0)), (anchors([0]), named(8, "start")), (anchors([0], "next"), named(8, "end")),
    ],
    "a document that nobody edited": [
        (anchors([0, 0], doc=9), named(0, "start", "start")), (anchors([0], "next", 9), named(0, "end")), (anchors([1], doc=9), RANGE),
        (places(["start", "end", after(1)], 9), standing(0, 0, 0, None)),
    ],
    "an unknown character": [
        ABC, (places([after(4), after(GREATEST), before(1, OTHER), "end"]), standing(3, None, None, None, 3)),
        # A character of another document is none of this one.
        (places([after(1)], 2), standing(0, None)), (insert(0, "z", 2), done(1)), (places([after(1), after(4)], 2), standing(1, None, 1)),
        # The ids of a mark and of a removal name no character.
        (line(op="mark", doc=1, **{"from": 0}, to=3, kind="em"), done(4)), (delete(2, 1), done(5)),
        (places([after(5), before(6)]), standing(5, None, None)),
    ],
    "how many": [
        ABC, (anchors([]), FIELD), (anchors([1] * (MOST + 1)), FIELD), (anchors([1] * MOST), named(3, *[after(1)] * MOST)), (places([]), FIELD),
        (places(["end"] * (MOST + 1)), FIELD), (places(["end"] * MOST), standing(3, *[3] * MOST)),
        (places([before(GREATEST, LETTERS.upper())] * MOST), standing(3, *[None] * MOST)),
    ],
    "numbers": [
        ABC, (anchors([4]), RANGE), (anchors([0, 4]), RANGE), (anchors([2**32 - 1], "next"), RANGE), (anchors([4], "left"), FIELD),
        *[(anchors([4, it]), FIELD) for it in (2**32, 2**64, -1, 1.5, 1.0, "1", True, None, [1])],
        *[(anchors(it), FIELD) for it in (1, "1", None, {"0": 1})], (line(op="anchors", doc=1, side="next"), FIELD),
    ],
    "sides": [
        ABC, (line(op="anchors", doc=1, at=[1]), FIELD), *[(anchors([1], side), FIELD) for side in ("left", "Next", "", None, 0, ["next"])],
        (anchors([1], "next"), named(3, before(2))),
    ],
    "other fields": [
        ABC, (anchors([1], doc=0), FIELD), (places(["end"], 0), FIELD), (line(op="anchors", at=[1], side="next"), FIELD),
        (line(op="places", anchors=["end"]), FIELD), (anchors([1], rev=3), FIELD), (places(["end"], rev=3), FIELD),
        (places(["end"], side="next"), FIELD), (places(["end"], at=[1]), FIELD), (line(op="places", doc=1), FIELD),
        (line(op="anchors", doc=1, anchors=["end"], side="next"), FIELD), (line(op="insert", doc=1, at=[0], text="x"), FIELD),
    ],
}
# What is no place that lasts. All but the last ones are texts.
BROKEN = [
    "", "a", "b", "Start", "END", "start ", "middle", "a1", "a1@", "@" + REPLICA, "a@" + REPLICA, "1@" + REPLICA, "c1@" + REPLICA, "A1@" + REPLICA,
    "B1@" + REPLICA, "é1@" + REPLICA, "a1@@" + REPLICA, "a1-" + REPLICA, "a1\0" + REPLICA, " " + after(1), after(1) + " ", after(1) + "\n",
    *map(after, (0, "00", "01", "+1", "-1", "1.0", "1e0", "0x1", " 1", "1 ", "１", GREATEST + 1, 2**64 + 1, 10**40)), before(0), before(GREATEST + 1),
    after(1, "00000000-0000-0000-0000-000000000000"), after(1, REPLICA.replace("-", "")), after(1, "{" + REPLICA + "}"),
    after(1, "urn:uuid:" + REPLICA), after(1, REPLICA[:-1]), after(1, REPLICA + "1"), after(1, REPLICA[:-1] + "g"),
    7, None, True, ["end"], {"end": 1},
]


def answers_of(program, name, requests):
    """What a session over a file answers to these lines."""
    return [json.loads(answer) for answer in run(program, "edit", name, lines=b"".join(requests))[1].splitlines()]


def check_all(checks, program, tables):
    """Rows of a request and its answer each, by tables: in a session over a file, and by turns in two of a daemon."""
    for what, rows in tables.items():
        new_file(program, "rows")
        found = answers_of(program, "rows", [request for request, _ in rows])
        checks.same(f"{what}: number of answers", len(found), len(rows))
        daemon = new_daemon(program, "served")
        talks = daemon.talk(), daemon.talk()
        for number, ((request, wanted), answer) in enumerate(zip(rows, found)):
            checks.same(f"{what}: {request[:90]}", answer, wanted)
            checks.same(f"{what}, at a daemon: {request[:90]}", talks[number % 2].ask(request), wanted)
        for talk in talks:
            talk.close()
        checks.same(f"{what}: the end", daemon.stop(), END)


def check_rows(checks, program):
    broken = [ABC, *[(places(["end", it, "start"]), FIELD) for it in BROKEN], *[(places(it), FIELD) for it in ["end", *BROKEN[-5:-2], BROKEN[-1]]]]
    check_all(checks, program, {**ROWS, "no places": broken})


def check_end(checks, program):
    """They outlive a session, and are told after a stop. A UUID is read in either case."""
    new_file(program, "ended")
    checks.same("before the end", answers_of(program, "ended", [ABC[0], anchors([2])]), [done(3), named(3, after(2))])
    checks.same("opened again", answers_of(program, "ended", [insert(0, "x"), places([after(2)])]), [done(4), standing(4, 3)])
    found = answers_of(program, "ended", [STOP, anchors([1]), places([after(2)])])
    checks.same("after a stop", found, [{"ok": True}, named(4, after(4)), standing(4, 3)])
    run(program, "init", "letters", "--replica", LETTERS.upper())
    name = after(3, LETTERS)
    found = answers_of(program, "letters", [ABC[0], anchors([3]), places([name, after(3, LETTERS.upper()), name.upper()])])
    checks.same("letters of a UUID", found, [done(3), named(3, name), FIELD])
    found = answers_of(program, "letters", [places([name, after(3, LETTERS.upper()), before(3, LETTERS.title())])])
    checks.same("letters in either case", found, [standing(3, 3, 3, 2)])


class Model:
    """The characters of a document that one replica edits: the counter of each, and whether it is there. A removed one keeps its place."""

    def __init__(self):
        self.cells, self.ops = [], 0

    def counters(self):
        return [counter for counter, is_there in self.cells if is_there]

    def insert(self, at, count):
        """A character is put in just after the one before it: removed ones that come next stay after it."""
        first = 1 + [counter for counter, _ in self.cells].index(self.counters()[at - 1]) if at else 0
        self.cells[first:first] = [(self.ops + 1 + k, True) for k in range(count)]
        self.ops += count

    def delete(self, at, count):
        gone = set(self.counters()[at : at + count])
        self.cells = [(counter, is_there and counter not in gone) for counter, is_there in self.cells]
        self.ops += count

    def name(self, at, side):
        counters = self.counters()
        if side == "previous":
            return after(counters[at - 1]) if at else "start"
        return before(counters[at]) if at < len(counters) else "end"

    def place(self, name):
        if name in ("start", "end"):
            return 0 if name == "start" else len(self.counters())
        cell = [counter for counter, _ in self.cells].index(int(name[1:].partition("@")[0]))
        return sum(is_there for _, is_there in self.cells[: cell + (name[0] == "a")])


def check_chance(checks, program):
    """Edits by chance, and all places that were named so far after each."""
    chance, model, names, asked = random.Random(11), Model(), ["start", "end"], []
    for _ in range(EDITS):
        length = len(model.counters())
        if length > 10 and chance.random() < 0.45:
            at = chance.randrange(length - 5)
            asked.append((delete(at, 5), done(model.ops + 5)))
            model.delete(at, 5)
        else:
            at, count = chance.randrange(length + 1), 1 + chance.randrange(8)
            asked.append((insert(at, "x" * count), done(model.ops + count)))
            model.insert(at, count)
        at, side = [chance.randrange(len(model.counters()) + 1) for _ in range(4)], chance.choice(SIDES)
        asked.append((anchors(at, side), named(model.ops, *[model.name(it, side) for it in at])))
        names = (names + asked[-1][1]["anchors"])[-100:]
        asked.append((places(names), standing(model.ops, *map(model.place, names))))
    new_file(program, "chance")
    found = answers_of(program, "chance", [request for request, _ in asked])
    wrong = [(request, answer, wanted) for (request, wanted), answer in zip(asked, found) if answer != wanted]
    checks.same(f"places by chance: {len(asked)} requests", (len(found), wrong[:1]), (len(asked), []))


def all_names(talk, length):
    """The names of all places of a text of this length, by both sides."""
    return [name for side in SIDES for name in talk.ask(anchors(list(range(length + 1)), side))["anchors"]]


def check_peers(checks, program):
    """Where both show one text, one name stands at one place, whoever gave it; beside a character that isn't there yet it stands nowhere."""
    one, other = new_daemon(program, "place-one", REPLICA), new_daemon(program, "place-other", OTHER)
    talk, beside = one.talk(), other.talk()
    talk.ask(insert(0, "abc"))
    beside.ask(insert(0, "de"))
    own, others = talk.ask(anchors([2]))["anchors"], beside.ask(anchors([1], "next"))["anchors"]
    checks.same("before they meet", [talk.ask(places(own + others)), beside.ask(places(own + others))], [standing(3, 2, None), standing(2, None, 1)])
    third = new_daemon(program, "place-third", THIRD, link=one.peers)
    beside.close()
    other.stop()
    other.link = one.peers
    other.start()
    talks = [talk, other.talk(), third.talk()]
    for edit, who, rev in ((None, 0, 5), (insert(2, "xy"), 1, 7), (delete(1, 3), 2, 10), (insert(0, "z"), 0, 11)):
        given = [] if edit is None else all_names(talk, len(talk.ask(TEXT)["text"]))
        if edit:
            talks[who].ask(edit)
        within("all have all", lambda: all(it.ask(TEXT)["rev"] == rev for it in talks))
        text = talks[0].ask(TEXT)["text"]
        given += all_names(talks[who], len(text)) + own + others
        checks.same(f"the text at all, after {rev}", [it.ask(TEXT)["text"] for it in talks], [text] * 3)
        checks.same(f"the names at all, after {rev}", [all_names(it, len(text)) for it in talks], [all_names(talk, len(text))] * 3)
        found = [it.ask(places(given)) for it in talks]
        checks.same(f"where they stand at all, after {rev}", found, [found[0]] * 3)
        checks.holds(f"each of them stands somewhere, after {rev}", found[0]["ok"] and None not in found[0]["places"])
    for it in talks:
        it.close()
    for daemon in (other, third, one):
        checks.same("the end of one of three", daemon.stop(), END)


def check(checks, program, _until):
    try:
        check_rows(checks, program)
        check_end(checks, program)
        check_chance(checks, program)
        check_peers(checks, program)
    except (OSError, TimeoutError) as error:
        checks.same("places come to their end", repr(error), None)
