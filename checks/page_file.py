"""A plain reader of a page file, written from docs/FORMATS.md alone: what a file stands for, or the number that is due."""

import struct
from collections import namedtuple

PAGE = 4096
# The format of the stream by the magic of the live slot.
FORMATS = {b"PTXTPG01": 1, b"PTXTPG02": 2, b"PTXTPG03": 3}
INSERT, REMOVE, ADD_MARK, REMOVE_MARK, RUN = 1, 2, 3, 4, 5
# With a token, a kind is 16 more.
WITH_TOKEN = 16
STRONG, EM, LINK, COMMENT = 1, 2, 3, 4

# `names` are the ids that it names, `value` the character of an insert, `mark` what a mark operation says.
Operation = namedtuple("Operation", "kind doc own deps names value mark")
# `value` is a URL or the 16 bytes of a comment; an anchor is a tag and an id.
Mark = namedtuple("Mark", "kind value start end")


class Refused(Exception):
    """The number of the first broken rule."""

    def __init__(self, number):
        super().__init__(number)
        self.number = number


def number(data):
    return int.from_bytes(data, "big")


def page(data, at):
    """A page that lies whole in the file, or nothing."""
    found = data[PAGE * at : PAGE * at + PAGE]
    return found if len(found) == PAGE else None


def live_body(data):
    """The body of the live slot."""
    if len(data) < 2 * PAGE:
        raise Refused(42)
    slots = [data[:PAGE], data[PAGE : 2 * PAGE]]
    is_open = [slot for slot in slots if slot[0] == 1]
    if not is_open:
        raise Refused(42)
    versions = [number(slot[16:24]) for slot in is_open]
    if len(is_open) == 2 and versions[0] == versions[1]:
        raise Refused(43)
    return is_open[versions.index(max(versions))]


def root(data):
    """Replica, length of the stream, number of operations, table pages."""
    body = live_body(data)
    length, count = number(body[40:48]), number(body[48:56])
    tables = number(body[56:60])
    pages = -(-length // PAGE)
    good = (
        body[8:16] in FORMATS
        and number(body[16:24]) >= 1
        and any(body[24:40])
        and length <= 2**30
        and count <= 2**24
        and tables == -(-pages // 1024)
        and not any(body[60:64])
    )
    if not good or any(body[64 + 4 * tables :]):
        raise Refused(43)
    numbers = [number(body[64 + 4 * i : 68 + 4 * i]) for i in range(tables)]
    if any(n < 2 for n in numbers) or len(set(numbers)) < len(numbers):
        raise Refused(43)
    if any(page(data, n) is None for n in numbers):
        raise Refused(43)
    return body[24:40], length, count, numbers


def format_of(data):
    """The format of the live root's stream, which keeps its rules."""
    root(data)
    return FORMATS[live_body(data)[8:16]]


def stream(data):
    """Replica, the bytes of the stream, number of operations."""
    replica, length, count, tables = root(data)
    entries = [entry for t in tables for entry in struct.unpack(">1024I", page(data, t))]
    pages = -(-length // PAGE)
    if any(entries[pages:]):
        raise Refused(45)
    named = entries[:pages]
    reached = tables + named
    if any(n < 2 for n in named) or len(set(reached)) < len(reached):
        raise Refused(45)
    if any(page(data, n) is None for n in named):
        raise Refused(45)
    joined = b"".join(page(data, n) for n in named)
    if any(joined[length:]):
        raise Refused(46)
    return replica, joined[:length], count


class Fields:
    """The fields of a record's body, in order."""

    def __init__(self, data):
        self.data, self.at = data, 0

    def take(self, size):
        if self.at + size > len(self.data):
            raise Refused(46)
        self.at += size
        return self.data[self.at - size : self.at]

    def number(self, size, low, high):
        found = number(self.take(size))
        if not low <= found <= high:
            raise Refused(46)
        return found

    def id(self):
        counter = self.number(8, 1, 2**48 - 1)
        return counter, self.number(16, 1, 2**128 - 1)

    def anchor(self, bare, other):
        tag = self.number(1, 0, 3)
        if tag == other:
            raise Refused(46)
        return (tag, None) if tag == bare else (tag, self.id())


def mark_of(kind, fields):
    """What an operation says that adds or removes a mark."""
    mark, value = fields.number(1, STRONG, COMMENT), None
    if mark == LINK and kind == ADD_MARK:
        try:
            value = fields.take(fields.number(2, 1, 1024)).decode("utf-8")
        except UnicodeDecodeError:
            raise Refused(46) from None
    if mark == COMMENT:
        value = fields.take(16)
    return Mark(mark, value, fields.anchor(0, 3), fields.anchor(3, 0))


def kind_of(fields, form):
    """The kind of a record without its token, and whether it has one."""
    kind = fields.number(1, 0, 255)
    has_token = form == 3 and kind > WITH_TOKEN
    kind -= WITH_TOKEN if has_token else 0
    if not INSERT <= kind <= (REMOVE_MARK if form == 1 else RUN):
        raise Refused(46)
    return kind, has_token


def typed(first, values):
    """The operations of a run: the first one, and one for each further character, behind the one before."""
    ops = [first]
    for value in values:
        (counter, replica), deps = ops[-1].own, dict(ops[-1].deps)
        deps[replica] = deps.get(replica, 0) + 1
        ops.append(first._replace(own=(counter + 1, replica), deps=deps, names=[(counter, replica)], value=value))
    return ops


def scalar(fields):
    value = fields.number(4, 0, 0x10FFFF)
    if 0xD800 <= value < 0xE000:
        raise Refused(46)
    return value


def run_count(fields, own, deps):
    """The number of a run's characters: its last operation has a counter, an own count and deps in their ranges."""
    count = fields.number(2, 2, 256)
    (counter, replica), known = own, deps.get(own[1], 0)
    if counter + count - 1 > 2**48 - 1 or known + count - 1 > 2**24 or (known == 0 and len(deps) == 16):
        raise Refused(46)
    return count


def piece(body, form):
    """The operations of one record of a format: one, or those of a run."""
    fields = Fields(body)
    kind, has_token = kind_of(fields, form)
    doc = fields.number(4, 0, 2**32 - 1)
    own = fields.id()
    deps, last = {}, 0
    for _ in range(fields.number(1, 0, 16)):
        replica = fields.number(16, last + 1, 2**128 - 1)
        deps[replica] = fields.number(8, 1, 2**24)
        last = replica
    if has_token:
        fields.number(16, 1, 2**128 - 1)
    names, value, mark, others = [], None, None, []
    if kind in (INSERT, RUN):
        if fields.number(1, 0, 1):
            names.append(fields.id())
        count = run_count(fields, own, deps) if kind == RUN else 1
        value, *others = [scalar(fields) for _ in range(count)]
        kind = INSERT
    elif kind == REMOVE:
        names.append(fields.id())
    else:
        mark = mark_of(kind, fields)
        names += [found for _, found in (mark.start, mark.end) if found]
    if fields.at < len(body):
        raise Refused(46)
    return typed(Operation(kind, doc, own, deps, names, value, mark), others)


def operations(data, count, form):
    """The operations that the stream spells in its format."""
    ops, at, longest = [], 0, 1507 if form == 3 else 1491
    while at < len(data):
        length = number(data[at : at + 4])
        if at + 4 > len(data) or not 33 <= length <= longest or at + 4 + length > len(data):
            raise Refused(46)
        ops += piece(data[at + 4 : at + 4 + length], form)
        at += 4 + length
    if len(ops) != count:
        raise Refused(46)
    return ops


def check_order(ops):
    """Each operation may follow those before it."""
    clock, inserts, last, docs = {}, {}, {}, set()
    for kind, doc, (counter, replica), deps, names, _, _ in ops:
        known = clock.get(replica, 0)
        ready = deps.get(replica, 0) == known and all(clock.get(r, 0) >= n for r, n in deps.items())
        named = all(
            inserts.get(name, (0, 0))[0] == doc
            and inserts[name][1] <= deps.get(name[1], 0)
            and name[0] < counter
            for name in names
        )
        if not ready or counter <= last.get(replica, 0) or not named or doc == 0:
            raise Refused(47)
        clock[replica] = known + 1
        last[replica] = counter
        docs.add(doc)
        if len(clock) > 16 or len(docs) > 1024:
            raise Refused(47)
        if kind == INSERT:
            inserts[counter, replica] = doc, known + 1


def image(data):
    """Replica and operations of a file; `Refused` with the first of 42, 43, 45, 46, 47."""
    replica, records, count = stream(data)
    ops = operations(records, count, format_of(data))
    check_order(ops)
    return replica, ops


def walk(ops):
    """The ids of the characters of one document's operations in the order of its text, removed ones too."""
    children = {}
    for op in ops:
        if op.kind == INSERT:
            children.setdefault(op.names[0] if op.names else None, []).append(op.own)
    found, left = [], sorted(children.get(None, []))
    while left:
        own = left.pop()
        found.append(own)
        left += sorted(children.get(own, []))
    return found


def text(ops, doc):
    """The text of a document: the walk of its insertion tree, without the characters that were removed."""
    ops = [op for op in ops if op.doc == doc]
    values = {op.own: chr(op.value) for op in ops if op.kind == INSERT}
    removed = {op.names[0] for op in ops if op.kind == REMOVE}
    return "".join(values[own] for own in walk(ops) if own not in removed)
