"""Edits at places that last: each row in a session over a file and in a daemon's, scripts by chance against a model that follows characters by their
ids, two sessions that type at once, and two that are linked, where each edits at places that the other one named."""

import json
import random
import re
import threading
import time
import uuid

from agreed import LIMITS, refused
from changes import changes, have_all
from daemon import new_daemon
from edits import AGAIN, LETTERS, TOKEN, edits, marked, removed, shown, typed
from places import ABC, BROKEN, END, GREATEST, OTHER, THIRD, Model, after, anchors, answers_of, before, check_all, done, places, standing
from program import REPLICA, line, new_file

FIELD, RANGE, STALE, LIMIT = map(refused, (4, 5, 6, 7))
TEXT, SPANS, STOP = line(op="text", doc=1), line(op="spans", doc=1), line(op="stop")
KINDS = ({"kind": "strong"}, {"kind": "em"}, {"kind": "link", "url": "x:y"}, {"kind": "comment", "id": THIRD})
LONG = LIMITS["edit_characters"]
# How many scripts by chance, of how many lines of up to how many edits, and how long their texts get.
SCRIPTS, LINES, MOST, LONGEST = 12, 160, 5, 60
# How many edits each of two sessions makes beside the other, in a text that is never shorter than this.
BESIDE, SHORTEST = 250, 40
# How many lines each of two that are linked types, and for how many seconds one asks for a place that it doesn't have yet.
TYPED, PATIENCE = 30, 20


def alone(change, doc=1, **more):
    """A change as a line of its own."""
    return line(**{**change, "doc": doc, **more})


def at(code, number):
    """A refusal of one of several."""
    return {**code, "at": number}


def spanned(rev, *spans):
    return {"ok": True, "rev": rev, "spans": list(spans)}


# Of a fresh store each.
ROWS = {
    "inserts": [
        ABC, (alone(typed(after(1), "x")), done(4)), (alone(typed(before(2), "y")), done(5)), (TEXT, shown(5, "axybc")),
        (alone(typed("start", "<")), done(6)), (alone(typed("end", ">")), done(7)), (alone(typed(after(1), "z")), done(8)), (TEXT, shown(8, "<azxybc>")),
        (places([after(1), before(2), "start", "end"]), standing(8, 2, 5, 0, 8)), (alone(typed(8, "!")), done(9)),
    ],
    "deletes": [
        ABC, (alone(removed(after(1), 1)), done(4)), (TEXT, shown(4, "ac")), (alone(removed(before(3), 1)), done(5)), (TEXT, shown(5, "a")),
        (alone(removed(after(3), 1)), RANGE), (alone(removed("end", 1)), RANGE), (alone(removed("start", 2)), RANGE), (alone(removed("start", 1)), done(6)),
        (TEXT, shown(6, "")),
    ],
    "a removed neighbour": [
        ABC, (alone(removed(1, 1)), done(4)), (alone(typed(after(2), "x")), done(5)), (TEXT, shown(5, "axc")), (alone(typed(before(2), "y")), done(6)),
        (TEXT, shown(6, "axyc")), (alone(removed(after(2), 1)), done(7)), (TEXT, shown(7, "axy")),
    ],
    "marks": [
        ABC, (alone(marked(before(2), "end")), done(4)), (alone(marked("start", after(1), "em")), done(5)),
        (SPANS, spanned(5, {"em": True, "text": "a"}, {"strong": True, "text": "bc"})), (alone(marked(after(2), 3, op="unmark")), done(6)),
        (SPANS, spanned(6, {"em": True, "text": "a"}, {"strong": True, "text": "b"}, {"text": "c"})), (alone(marked(1, after(1))), RANGE),
        (alone(marked("start", "start")), RANGE), (alone(marked("end", "start")), RANGE), (alone(removed(1, 1)), done(7)),
        (alone(marked(before(2), after(2))), RANGE), (alone(marked(before(2), after(2), op="unmark")), RANGE), (alone(marked(before(2), "end", "em")), done(8)),
    ],
    "several": [
        ABC, (edits(typed(before(2), "1"), typed(before(2), "2"), typed(after(1), "3"), typed(after(1), "4")), done(7)), (TEXT, shown(7, "a4312bc")),
        (edits(typed("start", "5"), typed("start", "6"), typed("end", "7"), typed("end", "8")), done(11)), (TEXT, shown(11, "65a4312bc78")),
        (edits(removed("start", 9), typed(after(1), "x"), typed(before(2), "y"), typed(after(3), "z")), done(23)), (TEXT, shown(23, "zxy78")),
    ],
    "moved by what is before": [
        ABC, (edits(typed(0, "xyz"), typed(after(2), "!"), removed(1, 3), typed(before(2), "?"), marked(before(3), "end")), done(12)),
        (TEXT, shown(12, "x?b!c")), (SPANS, spanned(12, {"text": "x?b!"}, {"strong": True, "text": "c"})),
        (edits(marked("start", after(2)), typed(after(2), "-")), done(14)), (TEXT, shown(14, "x?b-!c")),
    ],
    "a delete over a place": [
        ABC, (edits(removed(0, 2), typed(after(2), "x"), typed(before(2), "y")), done(7)), (TEXT, shown(7, "xyc")),
        (edits(removed("start", 3), marked(before(3), "end")), at(RANGE, 1)), (edits(removed("start", 3), typed(before(3), "z")), done(11)), (TEXT, shown(11, "z")),
    ],
    "an unknown character": [
        ABC, *[(alone(change), RANGE) for name in (after(4), before(GREATEST), after(1, OTHER)) for change in (
            typed(name, "x"), removed(name, 1), marked(name, 3), marked(0, name), marked(name, name), marked(0, name, op="unmark"))],
        (edits(typed(0, "x"), typed(after(9), "y")), at(RANGE, 1)), (edits(typed(after(9), "y")), RANGE),
        (edits(typed(0, "x" * (LONG + 1)), typed(after(9), "y")), at(LIMIT, 0)), (edits(typed(after(9), "x" * (LONG + 1)), typed(0, "y")), at(RANGE, 0)),
        # One that the line itself puts in isn't there before it, and one of another document is none of this one.
        (edits(typed(3, "d"), typed(after(4), "e")), at(RANGE, 1)), (alone(typed(after(1), "x"), 2), RANGE), (TEXT, shown(3, "abc")),
        (alone(typed("end", "x"), 2), done(1)), (alone(typed("start", "x"), 2), done(2)),
    ],
    "the order of tests": [
        ABC, (alone(typed(after(9), "x"), rev=2), STALE), (alone(typed("a9", "x"), rev=2), FIELD), (alone(typed(after(9), ""), rev=2), FIELD),
        (edits(typed(after(9), "x"), removed("middle", 1), rev=2), FIELD), (edits(typed(after(9), "x"), rev=2), STALE),
        (alone(typed(after(3), "d"), rev=3, token=TOKEN), done(4)), (alone(typed(after(9), "x"), token=TOKEN), done(4)),
        (alone(typed(after(9), "x"), token=TOKEN, rev=77), done(4)), (edits(removed(before(9), 1), token=TOKEN), done(4)),
        (alone(typed("a9", "x"), token=TOKEN), FIELD), (alone(typed(after(9), "x"), token=AGAIN), RANGE), (alone(typed(before(1), "x"), rev=3), STALE),
        (alone(typed(before(1), LETTERS + "x")), LIMIT), (alone(removed("start", LONG + 1)), RANGE), (alone(typed(before(1), "x"), rev=4, token=AGAIN), done(5)),
        (alone(typed(before(1), "x"), rev=4, token=AGAIN), done(5)), (TEXT, shown(5, "xabcd")), (STOP, {"ok": True}),
        (alone(typed(before(1), "x"), token=AGAIN), done(5)), (alone(typed(after(9), "x")), {"code": 12, "error": "stopping", "ok": False}),
    ],
    "no places": [
        ABC, *[(request, FIELD) for it in BROKEN if it != 7 for request in (
            alone(typed(it, "x")), alone(removed(it, 1)), alone(marked(it, 3)), alone(marked(0, it, op="unmark")), edits(typed(0, "x"), marked(0, it)))],
        *[(line(op="insert", doc=1, text="x", **{name: "end"}), FIELD) for name in ("from", "to", "anchor")], (alone(removed(0, "end")), FIELD),
        (alone(typed("end", "x"), rev="end"), FIELD), (line(op="changes", doc=1, since="start"), FIELD), (anchors(["end"]), FIELD), (TEXT, shown(3, "abc")),
    ],
}
# A session that has stopped is the last thing that a daemon serves.
OF_A_FILE = ("the order of tests",)


class Text(Model):
    """A document that one replica edits: its characters by their counters, which go by its operations; those after which a link or a comment ends,
    which doesn't grow there; and what was made under which token."""

    def __init__(self):
        super().__init__()
        self.letters, self.ends, self.made = {}, set(), {}

    def text(self):
        return "".join(self.letters[counter] for counter in self.counters())

    def number(self, name):
        """How many characters are before a place, or None if its character isn't there."""
        try:
            counter = 0 if name in ("start", "end") else int(name[1:].partition("@")[0])
            is_own = counter == 0 or name.endswith(REPLICA)
            return self.place(name) if is_own and (counter == 0 or counter in self.letters) else None
        except ValueError:
            return None

    def insert(self, at, count):
        """Characters are put in just after the one before them, or the last removed one there at which a link or a comment ends."""
        there = [index for index, cell in enumerate(self.cells) if cell[1]] + [len(self.cells)]
        first = there[at - 1] + 1 if at else 0
        first = max([index + 1 for index in range(first, there[at]) if self.cells[index][0] in self.ends], default=first)
        self.cells[first:first] = [(self.ops + 1 + k, True) for k in range(count)]
        self.ops += count

    def make(self, change):
        """Makes a change by numbers, unless it is refused: its number then."""
        length, op = len(self.counters()), change["op"]
        if op == "insert":
            if change["at"] > length:
                return 5
            if len(change["text"]) > LONG:
                return 7
            self.letters.update(enumerate(change["text"], self.ops + 1))
            self.insert(change["at"], len(change["text"]))
        elif op == "delete":
            if change["at"] + change["count"] > length:
                return 5
            if change["count"] > LONG:
                return 7
            self.delete(change["at"], change["count"])
        else:
            if not change["from"] < change["to"] <= length:
                return 5
            self.ops += 1
            if change["kind"] in ("link", "comment"):
                self.ends.add(self.counters()[change["to"] - 1])
        return None

    def copy(self):
        made = Text()
        made.cells, made.ops, made.letters, made.ends, made.made = list(self.cells), self.ops, dict(self.letters), set(self.ends), self.made
        return made


class Gaps:
    """The gaps between the visible characters, from the start of the text to its end, and which places of a line are in each: those that stay with
    the previous character, and after them those that stay with the next one. What is put into a gap comes between the two."""

    def __init__(self, length):
        self.gaps = [(set(), set()) for _ in range(length + 1)]

    def hold(self, name, number):
        self.gaps[number][name[0] in "be"].add(name)

    def number(self, name):
        return next(number for number, gap in enumerate(self.gaps) if name in gap[0] | gap[1])

    def make(self, change):
        first = change.get("at")
        if change["op"] == "insert":
            previous, following = self.gaps[first]
            between = [(set(), set()) for _ in change["text"][1:]]
            self.gaps[first : first + 1] = [(previous, set()), *between, (set(), following)]
        elif change["op"] == "delete":
            gone = self.gaps[first : first + change["count"] + 1]
            self.gaps[first : first + len(gone)] = [(set().union(*(gap[0] for gap in gone)), set().union(*(gap[1] for gap in gone)))]


def spots(change):
    return [name for name in ("at", "from", "to") if name in change]


def answered(model, them, rev=None, token=None):
    """What a line of edits is answered, the model after it, and its edits by numbers."""
    if token in model.made:
        return done(model.made[token]), model, [{**change, **dict.fromkeys(spots(change), 0)} for change in them]
    tried, numbers = model.copy(), []
    gaps, refusal = Gaps(len(model.counters())), None
    for name in {change[spot] for change in them for spot in spots(change) if isinstance(change[spot], str)}:
        if model.number(name) is not None:
            gaps.hold(name, model.number(name))
    for number, change in enumerate(them):
        found = {spot: change[spot] for spot in spots(change)}
        for spot, name in found.items():
            if isinstance(name, str):
                found[spot] = GREATEST if model.number(name) is None else gaps.number(name)
        numbers.append({**change, **found})
        code = tried.make(numbers[-1])
        if code:
            refusal = RANGE if code == 5 else LIMIT
            refusal = at(refusal, number) if len(them) > 1 else refusal
            break
        gaps.make(numbers[-1])
    if rev is not None and rev != model.ops:
        return STALE, model, numbers + them[len(numbers) :]
    if refusal:
        return refusal, model, numbers + them[len(numbers) :]
    if token:
        model.made[token] = tried.ops
    return done(tried.ops), tried, numbers


def name_by_chance(chance, model):
    """A place: mostly beside a character that is or was there."""
    pick = chance.random()
    if pick < 0.12 or not model.cells:
        return chance.choice(("start", "end"))
    if pick < 0.16:
        counter = chance.choice((model.ops + 1, GREATEST, *(it for it in range(1, model.ops) if it not in model.letters)))
        return chance.choice((after, before))(counter, chance.choice((REPLICA, REPLICA, OTHER)))
    # Many lines are about few characters, so that places come to be the same one.
    return chance.choice((after, before))(chance.choice(chance.choice((model.cells, model.cells[-8:])))[0])


def spot_by_chance(chance, model):
    length = len(model.counters())
    return chance.randrange(length + 1 + (chance.random() < 0.03)) if chance.random() < 0.25 else name_by_chance(chance, model)


def change_by_chance(chance, model):
    pick, spot = chance.random(), spot_by_chance(chance, model)
    if pick < (0.5 if len(model.counters()) < LONGEST else 0.2):
        count = LONG + 1 if chance.random() < 0.02 else 1 + chance.randrange(5)
        return typed(spot, "".join(chance.choice("aab🦊") for _ in range(count)))
    if pick < 0.75:
        return removed(spot, 1 + chance.randrange(4))
    mark, op = dict(chance.choice(KINDS)), chance.choice(("mark", "mark", "unmark"))
    if op == "unmark":
        mark.pop("url", None)
    ends = [spot, spot_by_chance(chance, model)]
    if chance.random() < 0.9:
        ends.sort(key=lambda it: it if isinstance(it, int) else model.number(it) or 0)
    return {"op": op, "from": ends[0], "to": ends[1], **mark}


def request(them, is_listed, **given):
    return edits(*them, **given) if is_listed else alone(them[0], **given)


def lines_by_chance(chance, model, count):
    """Lines of edits at places and at numbers, the answers, the same lines by numbers alone, and the model after them."""
    asked, wanted, numbered, sent = [], [], [], []
    for _ in range(count):
        given = {}
        if chance.random() < 0.25:
            given["rev"] = chance.choice((model.ops, model.ops, model.ops, max(model.ops - 1, 0), model.ops + 1))
        if chance.random() < 0.25:
            given["token"] = str(uuid.UUID(int=chance.getrandbits(128) | 1))
        is_listed = chance.random() < 0.5
        them = [change_by_chance(chance, model) for _ in range(1 + chance.randrange(MOST) if is_listed else 1)]
        if sent and chance.random() < 0.1:
            # One that was sent before, or another one under its token.
            again, is_again, before_now = chance.choice(sent)
            them, is_listed = (again, is_again) if chance.random() < 0.5 else (them, is_listed)
            given = {**given, "token": before_now}
        answer, model, numbers = answered(model, them, **given)
        if "token" in given:
            sent.append((them, is_listed, given["token"]))
        asked.append(request(them, is_listed, **given))
        wanted.append(answer)
        numbered.append(request(numbers, is_listed, **given) if answer["ok"] else None)
    return asked, wanted, numbered, model


def shows(model):
    """Questions of what is there: to the ids of the characters."""
    length = len(model.counters())
    cut = range(0, length + 1, LONG)
    return [TEXT, SPANS, changes(0), *(anchors(list(range(first, min(first + LONG, length + 1)))) for first in cut)]


def standing_all(model):
    """A question of all places beside characters that are or were there, and its answer."""
    names = [make(counter) for counter, _ in model.cells[-LONG // 2 + 1 :] for make in (after, before)] + ["start", "end"]
    return places(names), standing(model.ops, *map(model.number, names))


def check_chance(checks, program):
    """Scripts by chance: each answer and the text are the model's, and the same is there as by the model's numbers, marks and ids too."""
    made, codes = 0, {}
    for number in range(SCRIPTS):
        asked, wanted, numbered, model = lines_by_chance(random.Random(number), Text(), LINES)
        question, answer = standing_all(model)
        new_file(program, "at-places")
        found = answers_of(program, "at-places", [*asked, question, *shows(model)])
        wrong = [(ask, got, want) for ask, got, want in zip(asked, found, wanted) if got != want]
        checks.same(f"script {number}: answers", wrong[:1], [])
        checks.same(f"script {number}: places", found[LINES], answer)
        checks.same(f"script {number}: its text", found[LINES + 1], shown(model.ops, model.text()))
        new_file(program, "at-numbers")
        by_numbers = [it for it in numbered if it]
        others = answers_of(program, "at-numbers", [*by_numbers, *shows(model)])
        checks.same(f"script {number}: answers by numbers", others[: len(by_numbers)], [it for it in wanted if it["ok"]])
        checks.holds(f"script {number}: the same as by numbers", others[len(by_numbers) :] == found[LINES + 1 :])
        made += sum(it["ok"] for it in wanted)
        for it in wanted:
            codes[it.get("code")] = codes.get(it.get("code"), 0) + 1
    checks.holds(f"enough of each: {made} made, {codes}", made > SCRIPTS * LINES // 2 and all(codes.get(code, 0) > 9 for code in (5, 6, 7)))


def beside_by_chance(chance, names):
    """An edit at places that are there, whatever the other session does."""
    pick, spot = chance.random(), lambda: chance.choice(names)
    if pick < 0.4:
        return [typed(spot(), chance.choice(("x", "yz", "uvw")))], False
    if pick < 0.55:
        return [typed(spot(), "("), typed(spot(), ")"), marked("start", spot(), "em")], True
    if pick < 0.7:
        return [removed(spot(), 1)], False
    if pick < 0.85:
        return [removed("start", 1), typed(spot(), "[]"), typed("end", "!")], True
    return [marked(spot(), spot(), chance.choice(("em", "strong")), chance.choice(("mark", "unmark")))], False


def by_numbers_by_chance(chance):
    """An edit by numbers that are in the text, whatever the other session does, and which leaves more than it takes."""
    if chance.random() < 0.6:
        return [typed(chance.randrange(SHORTEST), chance.choice(("AB", "CDE", "F")))], False
    if chance.random() < 0.5:
        return [removed(chance.randrange(SHORTEST), 1)], False
    first = chance.randrange(SHORTEST - 9)
    return [typed(first, "GH"), removed(first + 3, 2), marked(first, first + 5)], True


def is_sure(change):
    """Whether a change of these two sessions is never refused: what is between two places may be gone, and so may all that comes after one."""
    return change["op"] == "insert" or all(isinstance(change[spot], int) for spot in spots(change))


def check_beside(checks, program):
    """Two sessions that type at once, one only at places and without a `rev`: in the order that their answers tell, each is what the model makes."""
    daemon, model = new_daemon(program, "at-beside"), Text()
    first = [typed(0, LETTERS)]
    talks = daemon.talk(), daemon.talk()
    talks[0].ask(alone(first[0]))
    names = ["start", "end", *(make(counter) for counter in range(1, LONG, 5) for make in (after, before))]
    told = [(len(LETTERS), first)]
    faults = []

    def edit(talk, next_one):
        for _ in range(BESIDE):
            them, is_listed = next_one()
            answer = talk.ask(request(them, is_listed))
            if answer["ok"]:
                told.append((answer["rev"], them))
            elif answer["code"] != 5 or all(map(is_sure, them)):
                faults.append((them, answer))

    chances = random.Random(3), random.Random(4)
    ways = lambda: beside_by_chance(chances[0], names), lambda: by_numbers_by_chance(chances[1])
    threads = [threading.Thread(target=edit, args=pair) for pair in zip(talks, ways)]
    for thread in threads:
        thread.start()
    for thread in threads:
        thread.join()
    checks.same("what was refused to two at once", faults[:1], [])
    told.sort(key=lambda it: it[0])
    is_placed = [any(isinstance(change[spot], str) for change in them for spot in spots(change)) for _, them in told]
    numbered, turns = [], sum(one != other for one, other in zip(is_placed, is_placed[1:]))
    for rev, them in told:
        answer, model, numbers = answered(model, them)
        numbered.append(edits(*numbers))
        checks.same(f"{them} by its turn", answer, done(rev))
        if them[0]["op"] == "insert" and len(them) == 1 and isinstance(them[0]["at"], str) and them[0]["at"][0] in "ab":
            checks.holds(f"{them} stands beside its character", stands_beside(model, them[0]))
    asked = shows(model)
    found = [talks[0].ask(it) for it in asked]
    checks.same("the text of two at once", found[0], shown(model.ops, model.text()))
    new_file(program, "at-numbers")
    others = answers_of(program, "at-numbers", numbered + asked)
    checks.holds("the same as by numbers", others[len(numbered) :] == found)
    checks.holds(f"they took turns: {turns}", turns > BESIDE // 10)
    for talk in talks:
        talk.close()
    checks.same("the end of two at once", daemon.stop(), END)


def stands_beside(model, change):
    """Whether the text that was put in last stands just beside the character that its place names, unless that was removed."""
    counters, counter = model.counters(), int(change["at"][1:].partition("@")[0])
    if counter not in counters:
        return True
    first = counters.index(counter) + 1 if change["at"][0] == "a" else counters.index(counter) - len(change["text"])
    return counters[first : first + len(change["text"])] == list(range(model.ops - len(change["text"]) + 1, model.ops + 1))


def name_of(talk, piece):
    """The places just before a text that is there once, just after it, and just after the character that comes then."""
    while True:
        text = talk.ask(TEXT)
        first = text["text"].index(piece)
        before_it = talk.ask(anchors([first], "next"))
        answer = talk.ask(anchors([first + len(piece), first + len(piece) + 1]))
        # Either is refused if the other one made the text shorter meanwhile.
        if text["rev"] == before_it.get("rev") == answer.get("rev"):
            return before_it["anchors"] + answer["anchors"]


def check_linked(checks, program):
    """Two that are linked: each types lines, and puts a text at the end of each line of the other's, by the place that the other named."""
    one = new_daemon(program, "at-one", REPLICA)
    other = new_daemon(program, "at-other", OTHER, link=one.peers)
    named, faults, waited = ([], []), [], [0, 0]

    def edit(who, daemon):
        talk, chance, lines, answers = daemon.talk(), random.Random(who), ["start"], 0
        until = time.monotonic() + PATIENCE
        while (answers < TYPED or len(named[who]) < TYPED) and time.monotonic() < until:
            if len(named[who]) < TYPED:
                number = 2 * len(named[who]) + who
                answer = talk.ask(alone(typed(chance.choice(lines), f"<{number}>\n")))
                first, end, behind = name_of(talk, f"<{number}>")
                lines.append(behind)
                named[who].append((number, end))
                # The first character of the line goes, or the last one, beside which the place is.
                gone = chance.choice((first, "b" + end[1:], None))
                answer = talk.ask(alone(removed(gone, 1))) if gone and answer["ok"] else answer
                faults.extend([answer] if not answer["ok"] else [])
            if answers < len(named[1 - who]):
                number, place = named[1 - who][answers]
                answer = talk.ask(alone(typed(place, f"({number})")))
                # Until the line has come.
                if answer["ok"]:
                    answers += 1
                elif answer == RANGE:
                    waited[who] += 1
                else:
                    faults.append(answer)
        talk.close()

    threads = [threading.Thread(target=edit, args=pair) for pair in enumerate((one, other))]
    for thread in threads:
        thread.start()
    for thread in threads:
        thread.join()
    talks = one.talk(), other.talk()
    have_all(talks)
    checks.same("what was refused to two that are linked", faults[:1], [])
    texts = [talk.ask(TEXT) for talk in talks]
    checks.same("both show the same", texts[0], texts[1])
    lines = texts[0]["text"].split("\n")
    found = [re.fullmatch(r"<?(\d+)>?\((\d+)\)", it) for it in lines[:-1]]
    wrong = [it for it, match in zip(lines, found) if match is None or match[1] != match[2]]
    checks.same(f"each text stands in its line, after {waited} refusals", (len(found), wrong[:1], lines[-1:]), (2 * TYPED, [], [""]))
    for talk in talks:
        talk.close()
    for daemon in (other, one):
        checks.same("the end of one of two that are linked", daemon.stop(), END)


def check_rows(checks, program):
    check_all(checks, program, {what: rows for what, rows in ROWS.items() if what not in OF_A_FILE})
    for what in OF_A_FILE:
        new_file(program, "rows")
        found = answers_of(program, "rows", [asked for asked, _ in ROWS[what]])
        for (asked, wanted), answer in zip(ROWS[what], found):
            checks.same(f"{what}: {asked[:90]}", answer, wanted)


def check(checks, program, _until):
    try:
        check_rows(checks, program)
        check_chance(checks, program)
        check_beside(checks, program)
        check_linked(checks, program)
    except (OSError, TimeoutError) as error:
        checks.same("edits at places come to their end", repr(error), None)
