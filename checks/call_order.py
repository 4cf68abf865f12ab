"""Whether the calls of a record are those of the table in docs/DESIGN.md (The way of a page), in its order, and whether nothing is said before what
it promises is settled.
"""

import os
import re
import struct

import page_file
from page_file import PAGE
from power_cuts import Replay
from recorded import BEGIN, END, Ears, each_event, image, is_said, lacking, path

# A letter for each device call, which is about the one file: it is made, opened, read; its folder is synced; a sync; a root slot is written whole
# and closed, in a new file; a page, a gate as 0, a body, a gate as 1; whatever else.
MADE, OPENED, READ, FOLDER, SYNC, SLOT, DATA, CLOSE, BODY, GATE, OTHER = "NORFSWPCBGX"
# What a commit calls: its pages, the close if the stale gate reads 1, and so on.
COMMIT = "P+C?SBSGS"
# What a run calls. Whoever opens a file syncs it before it reads: what a killed program wrote may not be settled yet.
INIT = "NFWWSGS"
OPENING = "OSR+"
SERVING = f"{OPENING}(?:{COMMIT})*"
READING = OPENING
# A program that was killed in the middle of a commit, and the next one that opened the file, if there was one.
PART = "(?:P+C?(?:S(?:B(?:SG?)?)?)?)?"
KILLED = f"{SERVING}{PART}(?:{SERVING})?"
# A daemon that opened its file anew, twice at least. It keeps the file, and its lock: the sync and the reads alone come again.
ANEW = f"O(?:O?SR+(?:{COMMIT})*){{3,}}"
# The flag of an opening that makes the file.
CREATE = 0o100
EDITED = re.compile(rb'{"ok":true,"rev":\d+}\n')


def letter(it):
    """The letter of a call that has ended, by its place and its bytes."""
    if it.call in ("fdatasync", "fsync"):
        return FOLDER if it.target.startswith("folder:") else SYNC
    if it.call == "pread":
        return READ
    if it.call == "open":
        return MADE if it.place & CREATE else OPENED
    if it.call != "pwrite":
        return OTHER
    page, at = divmod(it.place, PAGE)
    if page > 1:
        return DATA if (at, it.count) == (0, PAGE) else OTHER
    if (at, it.count) == (8, PAGE - 8):
        return BODY
    if (at, it.count, it.more[:1]) == (0, PAGE, b"\0"):
        return SLOT
    return {b"\0": CLOSE, b"\1": GATE}.get(it.more, OTHER) if at == 0 else OTHER


class Order:
    """The calls about a file, one after another, and what was wrong with them."""

    def __init__(self, replay, name):
        self.replay, self.name = replay, name
        self.letters, self.begun, self.wrong = "", None, []
        self.pages, self.stale, self.due = [], None, []

    def is_about_it(self, it):
        if it.target.startswith("path:"):
            return path(it.target) == self.name
        return it.target == self.replay.target and it.call not in ("read", "write") or (it.target, it.call) == (self.replay.folder, "fsync")

    def take(self, it):
        """Takes an event, before the replay does."""
        if not self.is_about_it(it):
            return
        if it.when == END:
            self.end_call(it)
            return
        # A program that was killed doesn't end its last call.
        if self.begun and it.call != "open":
            self.wrong.append(f"two calls at once: {self.begun.call}, {it.call}")
        if it.call == "open":
            self.pages = []
        self.begun = it
        self.begin_call(letter(it), it)

    def end_call(self, it):
        if self.begun is None or self.begun.thread != it.thread:
            self.wrong.append(f"an end without a beginning: {it.call}")
            return
        self.letters += letter(self.begun)
        if it.more < 0 or it.call == "pwrite" and it.more != self.begun.count:
            self.wrong.append(f"a call that failed: {it.call}, {it.more}")
        self.begun = None

    def begin_call(self, kind, it):
        """What a commit's calls are about: free pages, and the slot that is stale."""
        if kind == DATA:
            self.begin_page(it)
        if kind in (CLOSE, BODY) or kind == GATE and self.pages:
            if it.place // PAGE != self.stale:
                self.wrong.append(f"a write into slot {it.place // PAGE}, where slot {self.stale} is the stale one")
        if kind == CLOSE and self.replay.now[it.place] != 1:
            self.wrong.append("a close of a gate that isn't open")
        if kind == BODY and self.replay.now[it.place - 8] == 1:
            self.wrong.append("a body behind an open gate")
        if kind == GATE:
            self.pages = []

    def begin_page(self, it):
        """Pages go to the lowest free ones, in their order: those that the live root doesn't reach."""
        if not self.pages:
            used, self.stale = reached(bytes(self.replay.now))
            self.due = (n for n in range(2, 1 << 32) if n not in used)
        self.pages.append(it.place // PAGE)
        wanted = next(self.due)
        if self.pages[-1] != wanted:
            self.wrong.append(f"page {self.pages[-1]} is written, where {wanted} is the lowest free one")

    def end(self, pattern):
        """All that was wrong, where the calls of the whole record are to be of a pattern."""
        if not re.fullmatch(pattern, self.letters):
            self.wrong.append(f"the calls aren't {pattern}: {shortened(self.letters)}")
        return self.wrong


def reached(data):
    """The pages that the live root reaches, and the slot that is stale."""
    try:
        _, length, _, tables = page_file.root(data)
        entries = [entry for table in tables for entry in struct.unpack(">1024I", page_file.page(data, table))]
        live = page_file.live_body(data)
        return {*tables, *entries[: -(-length // PAGE)]}, 1 if live == data[:PAGE] else 0
    except page_file.Refused:
        return set(), None


class Settled:
    """How much of each key the file has that the last sync settled; found out once between two syncs."""

    def __init__(self, replay):
        self.replay, self.data, self.found = replay, None, {}

    def counts(self):
        data = bytes(self.replay.settled) if self.replay.is_named else b""
        if data != self.data:
            self.data = data
            try:
                self.found = image(data)[1]
            except page_file.Refused:
                self.found = {}
        return self.found


class Record:
    """The events of a record, and what they are about: the file's name, the file and its folder as the events name them, what was settled before
    the first one, the ports of links, and the pattern of the calls."""

    def __init__(self, events, name, target, folder, data, links=(), pattern=SERVING):
        self.events, self.name, self.target, self.folder, self.data = events, name, target, folder, data
        self.links, self.pattern = links, pattern

    def with_events(self, events):
        return Record(events, self.name, self.target, self.folder, self.data, self.links, self.pattern)

    def replay(self):
        return Replay(self.target, self.folder, self.data)


def early(said, settled, replay):
    """What is said before it is settled."""
    promise, pairs = said
    lacks = lacking(promise, settled.counts()) if promise else {}
    found = [f"said and not settled: {key} {least}, where {has} are settled" for key, (least, has) in lacks.items()]
    for request, answer in pairs:
        if isinstance(request, dict) and request["op"] == "stop" and answer["ok"] and replay.waiting:
            found.append("a stop is answered, and a write isn't settled")
    return found


def said_early(record):
    """All that is said in a record before it is settled."""
    replay, ears = record.replay(), Ears(record.links)
    settled, wrong = Settled(replay), []
    for it in record.events:
        replay.take(it)
        wrong += early(ears.take(it), settled, replay)
    return wrong


def out_of_order(record):
    """What is wrong with the calls of a record, and with their order."""
    replay = record.replay()
    order = Order(replay, record.name)
    for it in record.events:
        order.take(it)
        replay.take(it)
    return order.end(record.pattern)


def faults(record):
    """What is wrong with a record, in words."""
    return said_early(record) + out_of_order(record)


class Short:
    """A record of few bytes of each call, and so without what the pages hold: its calls, and the commits that are over."""

    def __init__(self, record):
        self.record, self.wrong = record, []
        self.letters, self.begun = "", {}
        # Where the last commit that is over began, and where each session's last line came.
        self.first_page, self.committed, self.came = None, -1, {}

    def take(self, number, it):
        is_about = path(it.target) == self.record.name if it.target.startswith("path:") else it.target == self.record.target
        if is_about and it.call not in ("read", "write"):
            self.take_call(number, it)
        elif it.when == END and it.call == "read":
            self.came[it.target] = number
        elif is_said(it) and EDITED.fullmatch(it.more) and self.committed < self.came.get(it.target, 0):
            self.wrong.append(f"an answer without a commit before it: {it.more}")

    def take_call(self, number, it):
        if it.when == BEGIN:
            self.begun[it.thread] = it
            if letter(it) == DATA and self.first_page is None:
                self.first_page = number
            return
        self.letters += letter(self.begun.pop(it.thread))
        if self.letters.endswith(GATE + SYNC):
            self.committed, self.first_page = self.first_page, None


def short_faults(record):
    """What is wrong with the order of the calls in a record of few bytes, in which each session waits for its answer before it asks again."""
    short = Short(record)
    for number, it in enumerate(record.events):
        short.take(number, it)
    return short.wrong + ([] if re.fullmatch(record.pattern, short.letters) else [f"the calls aren't {record.pattern}: {shortened(short.letters)}"])


def shortened(letters):
    """Letters, without most of those that come again and again."""
    return re.sub(r"([PR])\1{2,}", r"\1+", letters)[:2_000]


def anew(record, name):
    """The record, of few bytes, of a daemon that opened a file of this name anew, twice at least; to be gone through once, since it is long."""
    return Record(each_event(record), name, f"file:{os.stat(name).st_ino}", None, None, pattern=ANEW)
