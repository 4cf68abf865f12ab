"""Files of the three formats: each is read in its own, and goes on in the third.

The writer here is a plain one, from docs/FORMATS.md alone.
"""

import gzip
import os

import page_file
from program import PAGE, REPLICA, delete, fault, insert, line, read, run, text_of, write
from words import FIRST, NAME, ONE, SECOND, TWO, record, slot, table

TOKEN = bytes.fromhex("000000000000400080000000000000d1")
FORMS = (1, 2, 3)


def whole(body):
    return len(body).to_bytes(4, "big") + body


def run_of(counter, deps, origin, text, token=b"", doc=1):
    """The record of a run of the replica's inserts, of which `deps` are counted before it."""
    body = bytes([21 if token else 5]) + doc.to_bytes(4, "big") + counter.to_bytes(8, "big") + NAME
    body += b"\1" + NAME + deps.to_bytes(8, "big") if deps else b"\0"
    body += token
    body += b"\1" + origin.to_bytes(8, "big") + NAME if origin else b"\0"
    body += len(text).to_bytes(2, "big") + b"".join(ord(each).to_bytes(4, "big") for each in text)
    return whole(body)


def file_of(stream, count, form, older=3):
    """A file whose live root is of a format, beside an older one."""
    pages = -(-len(stream) // PAGE)
    numbers = range(3, 3 + pages)
    named = b"".join(n.to_bytes(4, "big") for n in numbers).ljust(PAGE, b"\0")
    return slot(1, form=older) + slot(2, len(stream), count, (2,), form=form) + named + stream.ljust(PAGE * pages, b"\0")


WITH_TOKEN = whole(b"\x11" + FIRST[5:34] + TOKEN + FIRST[34:])
AB = run_of(1, 0, 0, "ab")
LONG = "".join(chr(0x61 + i % 26) for i in range(256))

# What a stream is, how many operations it has, its text, and from which format on it is read.
STREAMS = [
    ("single records", FIRST + SECOND, 2, "ab", 1),
    ("a run", AB, 2, "ab", 2),
    ("a run behind a record", FIRST + run_of(2, 1, 1, "bcd"), 4, "abcd", 2),
    ("a longest run", run_of(1, 0, 0, LONG), 256, LONG, 2),
    ("runs over pages", b"".join(run_of(1 + 256 * i, 256 * i, 256 * i, LONG) for i in range(40)), 10_240, LONG * 40, 2),
    ("an operation with a token", WITH_TOKEN, 1, "a", 3),
    ("a run with a token", run_of(1, 0, 0, "ab", TOKEN), 2, "ab", 3),
]

BROKEN = [
    ("a run of one", run_of(1, 0, 0, "a"), 1),
    ("a run of 257", run_of(1, 0, 0, LONG + "a"), 257),
    ("a run past the last counter", run_of(2**48 - 2, 0, 0, "abc"), 3),
    ("a run past the last own count", FIRST + run_of(2, 2**24 - 1, 1, "bcd"), 4),
    ("a surrogate in a run", AB[:-4] + b"\0\0\xd8\0", 2),
    ("a run that is cut short", AB[:-1], 2),
    ("a run with a nil token", run_of(1, 0, 0, "ab", bytes(16)), 2),
    ("a run as one operation", AB, 1),
    ("a kind 16", whole(b"\x10" + FIRST[5:34] + TOKEN + FIRST[34:]), 1),
    ("a kind 22", whole(b"\x16" + AB[5:34] + TOKEN + AB[34:]), 2),
]


def seen(data):
    """What the plain reader gives: the text of document 1, or the number of a refusal."""
    try:
        return page_file.text(page_file.image(data)[1], 1)
    except page_file.Refused as refused:
        return refused.number


def check_streams(checks, program):
    """A stream is read in the formats that have its records, and is 46 in the others."""
    for what, stream, count, text, since in STREAMS:
        for form in FORMS:
            data = file_of(stream, count, form, older=4 - form)
            due = text if form >= since else 46
            checks.same(f"the plain reader, {what}, format {form}", seen(data), due)
            write("formed", data)
            status, output, faults = run(program, "dump", "formed", "1")
            if form < since:
                checks.same(f"dump, {what}, format {form}", (status, output, faults), fault(46))
            else:
                checks.holds(f"dump, {what}, format {form}", f'"text":"{text}"}}\n'.encode() in output and status == 0)
            checks.holds(f"a dump leaves {what}, format {form}", read("formed") == data)


def check_broken(checks, program):
    for what, stream, count in BROKEN:
        data = file_of(stream, count, 3)
        checks.same(f"the plain reader, {what}", seen(data), 46)
        write("broken", data)
        checks.same(f"dump, {what}", run(program, "dump", "broken", "1"), fault(46))
        checks.same(f"edit, {what}", run(program, "edit", "broken"), fault(46))
    # A second format has no tokens, and a first one no runs either.
    for form in (1, 2):
        write("broken", file_of(WITH_TOKEN, 1, form))
        checks.same(f"a token in format {form}", run(program, "dump", "broken", "1"), fault(46))


def check_going_on(checks, program):
    """An edit on a file of any format leaves a root of the third, beside the old one."""
    for what, stream, count, text, since in STREAMS:
        for form in range(since, 4):
            data = file_of(stream, count, form)
            write("going", data)
            status, output, faults = run(program, "edit", "going", lines=insert(len(text), "!"))
            checks.same(f"an edit, {what}, format {form}", (status, faults), (0, b""))
            after = read("going")
            checks.same(f"the text after it, {what}, format {form}", seen(after), text + "!")
            checks.same(f"the format after it, {what}, format {form}", page_file.format_of(after), 3)
            checks.holds(f"the old root stays, {what}, format {form}", after[PAGE : 2 * PAGE] == data[PAGE : 2 * PAGE])
            run(program, "edit", "going", lines=delete(0, len(text) % 256) + line(op="text", doc=1))
            again = read("going")
            checks.same(f"and after a second, {what}, format {form}", page_file.format_of(again), 3)


# What is typed in one edit is one record, everything else single ones.
TYPED = [
    ("two characters", [insert(0, "ab")], AB, 2),
    ("one by one", [insert(0, "a"), insert(1, "b")], FIRST + SECOND, 2),
    ("one, and then three", [insert(0, "a"), insert(1, "bcd")], FIRST + run_of(2, 1, 1, "bcd"), 4),
    ("256 characters", [insert(0, LONG)], run_of(1, 0, 0, LONG), 256),
    ("two edits of two", [insert(0, "ab"), insert(2, "cd")], AB + run_of(3, 2, 2, "cd"), 4),
]


# Files of the first format as it had them: right after `init`, and after one and two commits. What an insert behind their text leaves:
# the whole list is written anew on free pages, what one could type in one record; the older slot and its pages stay.
C = record(3, 2, 2, "c")
MOVES = [
    ("init", slot(1, form=1) + bytes(PAGE), "a", slot(1, form=1) + slot(2, 39, 1, (3,)) + FIRST.ljust(PAGE, b"\0") + table(2)),
    (
        "a commit",
        slot(1, form=1) + slot(2, 39, 1, (3,), form=1) + ONE[2 * PAGE :],
        "b",
        slot(3, 126, 2, (5,)) + slot(2, 39, 1, (3,), form=1) + TWO[2 * PAGE :],
    ),
    (
        "two commits",
        slot(3, 126, 2, (5,), form=1) + slot(2, 39, 1, (3,), form=1) + TWO[2 * PAGE :],
        "c",
        slot(3, 126, 2, (5,), form=1) + slot(4, 132, 3, (3,)) + (AB + C).ljust(PAGE, b"\0") + table(2) + TWO[4 * PAGE :],
    ),
]


def check_moves(checks, program):
    """The first commit on a file of the first format, to the byte, and stopped in between."""
    text = ""
    for what, data, typed, wanted in MOVES:
        name = "moved"
        write(name, data)
        checks.same(f"the text after {what}", (seen(data), text_of(program, name)), (text, text))
        checks.same(f"an edit after {what}", run(program, "edit", name, lines=insert(len(text), typed))[::2], (0, b""))
        checks.same(f"the file after {what} and an edit", read(name).hex(), wanted.hex())
        check_stopped(checks, program, name, data, text)
        text += typed
        # The next commit is one of the third format, and changes what it has to alone.
        write(name, wanted)
        run(program, "edit", name, lines=insert(len(text), "!"))
        checks.same(f"two edits after {what}", (seen(read(name)), page_file.format_of(read(name))), (text + "!", 3))


def check_new(checks, program):
    """A new file is of the third format, and what is typed in one edit is one record in it."""
    for what, lines, stream, count in TYPED:
        if os.path.exists("newest"):
            os.remove("newest")
        run(program, "init", "newest", "--replica", REPLICA)
        checks.same("a new file", page_file.format_of(read("newest")), 3)
        run(program, "edit", "newest", lines=b"".join(lines))
        found = page_file.stream(read("newest"))
        checks.same(f"the stream, {what}", (found[1].hex(), found[2]), (stream.hex(), count))
    run(program, "edit", "newest", lines=delete(0, 2))
    found = page_file.stream(read("newest"))
    checks.same("two removals are two records", (len(found[1]) - len(stream), found[2]), (2 * 82, 6))


def pages_of(data, count):
    """The pages of a file, which has so many with those of zeros behind it."""
    return [data[at : at + PAGE].ljust(PAGE, b"\0") for at in range(0, PAGE * count, PAGE)]


def check_stopped(checks, program, name, data, text):
    """The first commit changes one slot, and where it stopped before that is open, the text is that of the old root, whatever was written."""
    after = read(name)
    count = len(after) // PAGE
    old, new = pages_of(data, count), pages_of(after, count)
    changed = [at for at in range(count) if old[at] != new[at]]
    slots = [at for at in changed if at < 2]
    checks.same(f"slots that a commit of {name} changes", len(slots), 1)
    slot, rest = slots[0], [at for at in changed if at > 1]
    closed = b"\0" + new[slot][1:]
    stops = [{at: new[at]} for at in rest] + [{at: new[at] for at in rest}]
    stops += [stops[-1] | {slot: closed}, {slot: closed}, stops[-1] | {slot: closed[: PAGE // 2] + old[slot][PAGE // 2 :]}]
    for written in stops:
        write("stopped", b"".join(written.get(at, old[at]) for at in range(count)))
        checks.same(f"{name}, stopped with the pages {sorted(written)}", text_of(program, "stopped"), text)


EARLIER = os.path.join(os.path.dirname(os.path.abspath(__file__)), "earlier")
SHOWN = (("dump", "{}", "1"), ("dump", "{}", "7"), ("list", "{}"))


def check_earlier(checks, program):
    """Files that the last program of the first format made show what that program showed, and go on."""
    for name in ("marks", "pages"):
        with gzip.open(os.path.join(EARLIER, name + ".gz")) as file:
            data = file.read()
        write(name, data)
        with open(os.path.join(EARLIER, name + ".shown"), "rb") as file:
            wanted = file.read()
        shown = b"".join(run(program, *[word.format(name) for word in words])[1] for words in SHOWN)
        checks.same(f"what is shown of {name}", shown, wanted)
        checks.holds(f"{name} stays as it was", read(name) == data)
        text = text_of(program, name)
        checks.same(f"the plain reader, {name}", seen(data), text)
        checks.same(f"an edit of {name}", run(program, "edit", name, lines=insert(0, "new"))[::2], (0, b""))
        checks.same(f"the format of {name}", page_file.format_of(read(name)), 3)
        checks.same(f"the text of {name}", (seen(read(name)), text_of(program, name)), ("new" + text, "new" + text))
        before, after = page_file.stream(data), page_file.stream(read(name))
        checks.same(f"the operations of {name}", after[2], before[2] + 3)
        checks.holds(f"the records of {name} take fewer bytes", len(after[1]) < len(before[1]))
        check_stopped(checks, program, name, data, text)


def check(checks, program, _until):
    check_new(checks, program)
    check_moves(checks, program)
    check_earlier(checks, program)
    check_streams(checks, program)
    check_broken(checks, program)
    check_going_on(checks, program)
