"""Records of what the program calls, written down by the library of record_calls.c, and what is said in them: to sessions, to watchers and to
peers. What is said promises that something is settled: a promise is a least number for each of some keys.
"""

import functools
import json
import os
import shutil
import subprocess
from collections import namedtuple

import page_file
from frames import HAVE, OPS
from page_file import number

SOURCE = os.path.join(os.path.dirname(os.path.abspath(__file__)), "record_calls.c")
BEGIN, END = "begin", "end"
# Nanoseconds that each sync takes more, so that whatever doesn't wait for it comes before its end.
PAUSE = 2_000_000
# Bytes of a call in a record of few: enough for an answer to an edit.
SHORT = 64

# A line of a record. `more` are the bytes if the call has some, of which there are `count`, else a number.
Event = namedtuple("Event", "when thread call target place count more")
WITH_BYTES = {(BEGIN, "pwrite"), (BEGIN, "write"), (END, "read")}

# What is promised: that there is a store; so many operations in all, of a document, of a replica.
STORE, ALL = ("store",), ("all",)
EDITS = ("insert", "delete", "mark", "unmark")


def of_doc(doc):
    return "document", doc


def of_maker(maker):
    return "replica", number(maker) if isinstance(maker, bytes) else maker


def compiled():
    """The library, or None if there is no compiler."""
    compiler = shutil.which("gcc")
    if not compiler:
        return None
    name = os.path.abspath("record_calls.so")
    subprocess.run([compiler, "-shared", "-fPIC", "-O1", "-o", name, SOURCE], check=True)
    return name


def around(library, name, pause=PAUSE, **more):
    """What a run has around it whose calls are recorded under this name, after what is recorded there; `more` are further words of the
    library, without their beginning."""
    words = {"RECORD_CALLS": os.path.abspath(name), "RECORD_PAUSE": pause} | {f"RECORD_{key.upper()}": value for key, value in more.items()}
    return dict(os.environ, LD_PRELOAD=library, **{key: str(value) for key, value in words.items()})


def event(text):
    """The event of a line."""
    when, thread, call, target, place, count, more = text.split(" ")
    # An end of a call that failed has a number.
    has_bytes = (when, call) in WITH_BYTES and not more.startswith("-")
    return Event(when, int(thread), call, target, int(place), int(count), bytes.fromhex(more) if has_bytes else int(more))


def each_event(name):
    """The events of a record, one after another. A line that a killed program didn't end is dropped."""
    with open(name, encoding="ascii") as file:
        for text in file:
            if text.endswith("\n"):
                yield event(text[:-1])


def events(name):
    """A record: its events, in their order."""
    return list(each_event(name))


def path(target):
    """The path that an open is about."""
    return bytes.fromhex(target.removeprefix("path:")).decode()


def is_said(it):
    """Whether something begins to be said: to standard output, or to a socket."""
    return it.when == BEGIN and it.call == "write" and not it.target.startswith("file:") and not it.target.endswith(":2")


def size_of_edit(request):
    """How many operations an edit makes."""
    return {"insert": lambda: len(request["text"]), "delete": lambda: request["count"]}.get(request["op"], lambda: 1)()


class Talk:
    """What came from a session and what it was told, line by line."""

    def __init__(self):
        self.came, self.told, self.asked, self.answers = b"", b"", [], []

    def hear(self, data):
        *lines, self.came = (self.came + data).split(b"\n")
        self.asked += [json.loads(it) for it in lines]

    def say(self, data):
        """What these bytes promise, and the requests that they answer, each with its answer."""
        *lines, self.told = (self.told + data).split(b"\n")
        promise, pairs = {}, []
        for text in lines:
            answer = json.loads(text)
            request = self.request(len(self.answers))
            self.answers.append(answer)
            pairs.append((request, answer))
            promise = both(promise, promise_of(request, answer))
        return promise, pairs

    def request(self, place):
        """The request that has the answer at this place; a watch has all."""
        if self.asked and self.asked[0]["op"] == "watch":
            return self.asked[0]
        return self.asked[place] if place < len(self.asked) else None


def promise_of(request, answer):
    """What an answer promises. Without a request it is that of `init`."""
    if not answer["ok"]:
        return {}
    op = request["op"] if request else None
    if op in EDITS or op == "watch":
        return {STORE: 1, of_doc(request["doc"]): answer["rev"]}
    if op == "status":
        return {STORE: 1, ALL: answer["settled"]}
    return {STORE: 1}


class Link:
    """What a peer was told, frame by frame."""

    def __init__(self):
        self.told = b""

    def hear(self, data):
        pass

    def say(self, data):
        """What these bytes promise, and the frames that they end."""
        self.told += data
        promise, frames = {}, []
        while len(self.told) >= 4 and len(self.told) >= 4 + number(self.told[:4]):
            size = 4 + number(self.told[:4])
            kind, content = self.told[4], self.told[5:size]
            self.told = self.told[size:]
            frames.append((kind, content))
            promise = both(promise, promise_of_frame(kind, content))
        return promise, frames


def promise_of_frame(kind, content):
    """What is counted by a HAVE and what an OPS tells is settled."""
    if kind == HAVE:
        entries = [content[1 + 24 * k : 25 + 24 * k] for k in range(content[0])]
        return {of_maker(it[:16]): number(it[16:]) for it in entries}
    promise = {}
    if kind == OPS:
        at = 2
        while at < len(content):
            size = 4 + number(content[at : at + 4])
            for op in page_file.piece(content[at + 4 : at + size], 3):
                promise = both(promise, {of_maker(op.own[1]): op.deps.get(op.own[1], 0) + 1})
            at += size
    return promise


def both(one, other):
    """The promise that has both."""
    return one | {key: max(least, one.get(key, 0)) for key, least in other.items()}


def counts(ops):
    """How much of each key a list of operations has."""
    found = {STORE: 1, ALL: len(ops)}
    for op in ops:
        for key in (of_doc(op.doc), of_maker(op.own[1])):
            found[key] = found.get(key, 0) + 1
    return found


@functools.lru_cache(maxsize=1024)
def spelled(stream, count, form):
    """The operations of a stream, and how much of each key they have. Nothing changes these."""
    ops = page_file.operations(stream, count, form)
    page_file.check_order(ops)
    return ops, counts(ops)


def image(data):
    """A file's operations, and how much of each key they have; the plain reader reads each stream once."""
    _, stream, count = page_file.stream(data)
    return spelled(stream, count, page_file.format_of(data))


def lacking(promise, found):
    """What of a promise isn't kept by these counts."""
    return {key: (least, found.get(key, 0)) for key, least in promise.items() if found.get(key, 0) < least}


class Ears:
    """All that is said in a record. `links` are ports: who has one of them is a peer, anybody else a session."""

    def __init__(self, links=()):
        self.links, self.heard = {str(port) for port in links}, {}

    def who(self, target):
        """Who is at the other end; a program's standard input and output are one session."""
        target = target.removesuffix(":0").removesuffix(":1") if target.startswith("stream:") else target
        if target not in self.heard:
            is_link = target.startswith("socket:") and self.links & set(target.split(":")[1:])
            self.heard[target] = Link() if is_link else Talk()
        return self.heard[target]

    def take(self, it):
        """What an event promises, and what it says, if it says something."""
        if is_said(it):
            return self.who(it.target).say(it.more)
        if it.when == END and it.call == "read" and isinstance(it.more, bytes) and not it.target.startswith("file:"):
            self.who(it.target).hear(it.more)
        return {}, []
