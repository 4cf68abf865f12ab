"""What a power cut may have left of a record's file, by the plain reader, and by the program itself: a beginning of the list of its operations,
with all that was promised by then, and of each edit all or nothing.
"""

import hashlib
import json

import page_file
from page_file import INSERT, REMOVE
from page_spans import dumped
from power_cuts import Cut
from program import fault, insert, line, run, write
from recorded import EDITS, END, STORE, Ears, Talk, both, counts, image, lacking, of_doc, of_maker, size_of_edit

FAILED = 9


def moments(record, chance):
    """The moments before each sync comes back, and the last one: what is promised by then, whether the file's name is settled, and the cut. What
    a cut may leave at any other moment is among these files, and promises grow."""
    replay, ears = record.replay(), Ears(record.links)
    promise = image(record.data)[1] if record.data is not None else {}
    for it in record.events:
        if it.when == END and it.call in ("fsync", "fdatasync") and it.target in (record.target, record.folder):
            yield promise, replay.is_named, Cut(replay, chance)
        replay.take(it)
        promise = both(promise, ears.take(it)[0])
    yield promise, replay.is_named, Cut(replay, chance)


def ends_of_edits(record, first):
    """How many operations of the own replica a document may have, by whole edits: one session alone edits each document. An edit that was answered
    9, or not at all, may be there."""
    ears = Ears(record.links)
    for it in record.events:
        ears.take(it)
    ends, tokens = {}, set()
    for talk in ears.heard.values():
        for place, request in enumerate(talk.asked if isinstance(talk, Talk) else ()):
            answer = talk.answers[place] if place < len(talk.answers) else {"ok": True}
            if request["op"] in EDITS and (answer["ok"] or answer["code"] == FAILED) and request.get("token") not in tokens:
                known = ends.setdefault(request["doc"], [first.get(request["doc"], 0)])
                known.append(known[-1] + size_of_edit(request))
                tokens.update({request["token"]} if "token" in request else ())
    return ends


class Reader:
    """The plain reader of a record's files; each list of operations is looked at once."""

    def __init__(self, record, data):
        """`data` is the file as it is at the end."""
        self.maker, self.all = page_file.image(data)
        known = image(record.data)[0] if record.data is not None else []
        self.ends = ends_of_edits(record, self.own(known))
        self.found = {}

    def own(self, ops):
        """How many operations of the own replica each document has."""
        found = {}
        for op in ops:
            if of_maker(op.own[1]) == of_maker(self.maker):
                found[op.doc] = found.get(op.doc, 0) + 1
        return found

    def wrong_by_itself(self, ops):
        """What is wrong with a list of operations, whatever was promised; each is looked at once."""
        if id(ops) not in self.found:
            wrong = [] if ops == self.all[: len(ops)] else ["no beginning of the list"]
            own = self.own(ops)
            wrong += [f"part of an edit of document {doc}" for doc, ends in self.ends.items() if own.get(doc, 0) not in ends]
            self.found[id(ops)] = ops, wrong
        return self.found[id(ops)][1]

    def wrong(self, data, promise):
        """What is wrong with a file, or with None if there is none."""
        if data is None:
            return ["there is no file"] if STORE in promise else []
        try:
            ops, has = image(data)
        except page_file.Refused as refused:
            return [f"a promised store is refused {refused.number}"] if STORE in promise else []
        return self.wrong_by_itself(ops) + [f"promised and not there: {key}" for key in lacking(promise, has)]


def verdicts(record, data, chance):
    """Each file that power cuts leave of a record, or None if they leave none, with the moment's number and what is wrong with it. `data` is the
    file as it is at the end."""
    reader = Reader(record, data)
    for number, (promise, is_named, cut) in enumerate(moments(record, chance)):
        if not is_named:
            yield number, None, reader.wrong(None, promise)
        for it in cut.files():
            yield number, it, reader.wrong(it, promise)


def left(record, data, chance, most):
    """How many different files power cuts leave of a record, so many of these by chance, each with a moment's number, and what is wrong with any."""
    seen, kept, wrong = set(), [], []
    for number, it, faults in verdicts(record, data, chance):
        wrong += [f"at moment {number}: {one}" for one in faults]
        digest = None if it is None else hashlib.sha256(it).digest()
        if digest is None or digest in seen:
            continue
        seen.add(digest)
        if len(kept) < most:
            kept.append((number, it))
        elif chance.randrange(len(seen)) < most:
            kept[chance.randrange(most)] = number, it
    return len(seen), kept, wrong


def is_lost(record, data, chance):
    """Whether a power cut may leave a file with something wrong."""
    return any(faults for _, _, faults in verdicts(record, data, chance))


def listed(ops):
    """The lines of documents that a list prints, and the numbers of its last line."""
    docs = sorted({op.doc for op in ops})
    of = {doc: [op for op in ops if op.doc == doc] for doc in docs}
    chars = {doc: sum(op.kind == INSERT for op in of[doc]) - len({op.names[0] for op in of[doc] if op.kind == REMOVE}) for doc in docs}
    return [{"chars": chars[doc], "doc": doc, "ok": True, "ops": len(of[doc])} for doc in docs], {"documents": len(docs), "operations": len(ops)}


def look_by_dump(checks, program, name, data, doc):
    checks.same(f"a dump of {name}", run(program, "dump", name, str(doc)), dumped(data, doc))


def look_by_list(checks, program, name, data, _doc):
    found = run(program, "list", name)
    try:
        ops = page_file.image(data)[1]
    except page_file.Refused as refused:
        checks.same(f"a list of {name}", found, fault(refused.number))
        return
    docs, room = listed(ops)
    *lines, last = [json.loads(it) for it in found[1].splitlines()] or [{}]
    checks.same(f"a list of {name}", (found[0], lines, {key: last.get(key) for key in room}), (0, docs, room))


def look_by_edit(checks, program, name, data, doc, **how):
    """An edit opens the file, and goes on."""
    found = run(program, "edit", name, lines=insert(0, "!", doc) + line(op="status"), **how)
    try:
        ops = page_file.image(data)[1]
    except page_file.Refused as refused:
        checks.same(f"an edit of {name}", found, fault(refused.number))
        return None
    rev, total = counts(ops).get(of_doc(doc), 0) + 1, len(ops) + 1
    said = line(ok=True, rev=rev) + line(applied=total, ok=True, settled=total, state="open")
    checks.same(f"an edit of {name}", found, (0, said, b""))
    with open(name, "rb") as file:
        after = file.read()
    checks.same(f"the operations of {name} after it", page_file.image(after)[1][:-1], ops)
    checks.same(f"a dump of {name} after it", run(program, "dump", name, str(doc)), dumped(after, doc))
    return after


LOOKS = (look_by_dump, look_by_list, look_by_dump, look_by_edit)


def look(checks, program, name, data, number, docs):
    """The program looks at a file in one of its ways."""
    write(name, data)
    LOOKS[number % len(LOOKS)](checks, program, name, data, docs[number % len(docs)])
