"""Faults that are planted into records, each as a program that is wrong would have it, and a program that the library makes wrong. The judges of
device_calls.py have to find each of them.
"""

import os
import random

from call_order import BODY, CLOSE, DATA, EDITED, GATE, INIT, SLOT, SYNC, Record, faults, letter, short_faults
from frames import HAVE, OPS
from left_files import is_lost
from program import REPLICA, insert, new_file, read, run
from recorded import BEGIN, EDITS, END, Ears, events, is_said, path

# The commit of the session's record that is changed: one that closes a gate.
COMMIT = 6
# The device failed (EIO).
FAILED = -5


def calls(record, kind):
    """The events of each call of a kind about the record's file, as places of its beginning and its end."""
    found, begun = [], None
    for k, it in enumerate(record.events):
        if it.target != record.target:
            continue
        if it.when == BEGIN:
            begun = k if letter(it) == kind else None
        elif begun is not None:
            found.append((begun, k))
            begun = None
    return found


def syncs_of(record, commit):
    """The three syncs of a commit, the first of which is 0. The first sync of all is that of the opening."""
    return calls(record, SYNC)[1 + 3 * commit :][:3]


def between(record, kind, first, last):
    """The last call of a kind between two places."""
    return [it for it in calls(record, kind) if first < it[0] < last][-1]


def without(record, *places):
    return [it for k, it in enumerate(record.events) if k not in places]


def moved(record, places, to):
    """The events at these places come before the one at another."""
    kept = [it for k, it in enumerate(record.events[:to]) if k not in places]
    rest = [it for k, it in enumerate(record.events[to:], to) if k not in places]
    return kept + [record.events[k] for k in places] + rest


def changed(record, at, **fields):
    """One event is another one."""
    return [it._replace(**fields) if k == at else it for k, it in enumerate(record.events)]


def elsewhere(record, places, place):
    """A call is about another place."""
    return [it._replace(place=place) if k in places else it for k, it in enumerate(record.events)]


def whole(record, first):
    """A call that begins at a place: that, and where it ends."""
    begun = (END, record.events[first].thread, record.events[first].call)
    return first, next(k for k, it in enumerate(record.events) if k > first and (it.when, it.thread, it.call) == begun)


def said(record, is_it, after=0):
    """The first call after a place that promises something of a kind: where it begins and ends."""
    ears = Ears(record.links)
    for k, it in enumerate(record.events):
        promise, pairs = ears.take(it)
        if k > after and promise and any(is_it(*pair) for pair in pairs):
            return whole(record, k)
    raise ValueError("nothing of the kind was said")


def before_its_sync(record, is_it):
    """What is said first of a kind comes before the last sync of the first commit is over."""
    return moved(record, said(record, is_it), syncs_of(record, 0)[2][1])


def is_edit(request, answer):
    return isinstance(request, dict) and request["op"] in EDITS and answer["ok"]


def is_watch(request, answer):
    return isinstance(request, dict) and request["op"] == "watch" and answer["rev"] > 0


def is_told(kind, _content):
    return kind == OPS


def is_had(kind, content):
    return kind == HAVE and content[0] > 0


def is_stop(request, _answer):
    return isinstance(request, dict) and request["op"] == "stop"


def in_a_commit(record):
    """Changes of one commit of a session."""
    first, second, third = syncs_of(record, COMMIT)
    start = syncs_of(record, COMMIT - 1)[2][1]
    page, close = between(record, DATA, start, first[0]), between(record, CLOSE, start, first[0])
    body, gate = between(record, BODY, first[1], second[0]), between(record, GATE, second[1], third[0])
    live = between(record, DATA, 0, start)
    it = record.events[page[0]]
    cut = record.events[page[0]]._replace(call="ftruncate", place=8192, more=0)
    yield "no sync of the pages", without(record, *first)
    yield "no sync of the body", without(record, *second)
    yield "no sync of the gate", without(record, *third)
    yield "no sync but the first of all", without(record, *(k for call in calls(record, SYNC)[1:] for k in call))
    yield "a sync that failed", changed(record, third[1], more=FAILED)
    yield "an answer before the sync of the gate is over", moved(record, answer_after(record, third[1]), third[1])
    yield "a body before the sync of the pages", moved(record, body, first[0])
    yield "a gate before the sync of the body", moved(record, gate, second[0])
    yield "a page after the sync of the pages", moved(record, page, first[1] + 1)
    yield "a page after the gate", moved(record, page, gate[1] + 1)
    yield "no close", without(record, *close)
    yield "a page of the live root", elsewhere(record, page, record.events[live[0]].place)
    yield "half a page", changed(record, page[0], more=it.more[:2048], count=2048)
    yield "a truncation", record.events[: start + 1] + [cut, cut._replace(when=END)] + record.events[start + 1 :]


def answer_after(record, place):
    """The first answer after a place."""
    return whole(record, next(k for k, it in enumerate(record.events) if k > place and is_said(it)))


def in_an_init(record):
    folder = [k for k, it in enumerate(record.events) if it.target == record.folder]
    first, last = calls(record, SYNC)
    answer = answer_after(record, last[1])
    slot = calls(record, SLOT)[0][0]
    yield "no sync of the folder", without(record, *folder)
    yield "a sync of the folder after the answer", moved(record, folder, len(record.events))
    yield "a sync of the folder that failed", changed(record, folder[1], more=FAILED)
    yield "no sync of the slots", without(record, *first)
    yield "no sync of the first gate", without(record, *last)
    yield "an answer before that is over", moved(record, answer, last[1])
    yield "a slot that is made open", changed(record, slot, more=b"\1" + record.events[slot].more[1:])


def in_an_opening(record):
    """The second opening of a file whose first program was killed."""
    opened = [k for k, it in enumerate(record.events) if it.target.startswith("path:") and path(it.target) == record.name][-1]
    sync = next(it for it in calls(record, SYNC) if it[0] > opened)
    answer = said(record, lambda *it: True, sync[1])
    target = record.events[answer[0]].target.removesuffix(":1")
    came = [k for k, it in enumerate(record.events) if sync[1] < k < answer[0] and it.call == "read" and it.target.startswith(target)]
    yield "no sync of an opening", without(record, *sync)
    yield "what is told first before that is over", moved(record, (*came, *answer), sync[1])


def in_a_stop(record):
    """A stop, which comes in a session of its own, and its answer."""
    answer = said(record, is_stop)
    target = record.events[answer[0]].target
    came = [k for k, it in enumerate(record.events[: answer[0]]) if (it.call, it.target) == ("read", target)]
    yield "a stop before the last sync is over", moved(record, (*came, *answer), calls(record, SYNC)[-1][1])


def in_openings(record):
    """A daemon that opened its file anew, in a record of few bytes."""
    about = [k for k, it in enumerate(record.events) if it.target == record.target and it.when == BEGIN]
    after = {k: record.events[behind].call for k, behind in zip(about, about[1:])}
    opening = [sync for sync in calls(record, SYNC) if after.get(sync[0]) == "pread"][1]
    answer = whole(record, next(k for k, it in enumerate(record.events) if is_said(it) and EDITED.fullmatch(it.more)))
    for number, what in enumerate(("pages", "body", "gate")):
        yield f"no sync of the {what}", without(record, *syncs_of(record, 1)[number])
    yield "no sync of an opening", without(record, *opening)
    yield "an answer before the last sync is over", moved(record, answer, syncs_of(record, 0)[2][1])


def changes(records):
    """All changed records: the record, what was changed, and its events then."""
    killed = "killed after write 5, a session", "killed after write 5, a daemon"
    for what, change in (("edit", in_a_commit), ("init", in_an_init), *((it, in_an_opening) for it in killed), ("serve", in_a_stop)):
        yield from ((records[what], f"{what}: {name}", planted) for name, planted in change(records[what]))
    kinds = (
        ("serve", "an answer", is_edit), ("serve", "a number to a watcher", is_watch),
        ("linked, calls-one", "an operation that is told", is_told), ("linked, calls-other", "an operation that is told", is_told),
        ("linked, calls-one", "a count that is told", is_had), ("linked, calls-other", "a count that is told", is_had),
        ("linked, calls-other", "a number to a watcher", is_watch),
    )
    for what, name, is_it in kinds:
        yield records[what], f"{what}: {name} before its sync is over", before_its_sync(records[what], is_it)


def wrong_init(recorder, name, **more):
    """The record of an init by a program that the library makes wrong."""
    recorder.begin(name)
    run(recorder.program, "init", name, "--replica", REPLICA, env=recorder.around(name, **more))
    return Record(events(name + ".calls"), name, f"file:{os.stat(name).st_ino}", recorder.folder, None, pattern=INIT)


def wrong_session(recorder, name, **more):
    recorder.begin(name)
    new_file(recorder.program, name)
    data = read(name)
    recorder.edited(name, [insert(0, "a"), insert(1, "b")], **more)
    return Record(events(name + ".calls"), name, f"file:{os.stat(name).st_ino}", recorder.folder, data)


def found(recorder):
    """Whether each planted fault is found, and how many of them by what power cuts leave."""
    planted = [(what, record.with_events(events)) for record, what, events in changes(recorder.records)]
    planted += [
        ("a session that syncs once", wrong_session(recorder, "calls-wrong-1", syncs=1)),
        ("a session that syncs twice", wrong_session(recorder, "calls-wrong-2", syncs=2)),
        ("an init that syncs once", wrong_init(recorder, "calls-wrong-3", syncs=1)),
        ("an init that syncs nothing", wrong_init(recorder, "calls-wrong-4", syncs=0)),
        ("an init that syncs no folder", wrong_init(recorder, "calls-wrong-5", folder=0)),
    ]
    by_cuts = sum(is_lost(record, read(record.name), random.Random(1)) for _, record in planted)
    told = {what: bool(faults(record)) for what, record in planted}
    openings = recorder.records["anew"]
    told |= {f"anew: {what}": bool(short_faults(openings.with_events(changed))) for what, changed in in_openings(openings)}
    return told, by_cuts
