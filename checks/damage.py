"""Truncations and random changes of a file: each gives what a plain reader gives."""

import json
import random
import time

import page_file
from crafted import expected
from agreed import WORDS
from program import all_of, insert, line, new_file, read, run, write

CHANGES = 300


def shown(program, name, data):
    """The text that a dump of document 1 shows, or the number of its refusal."""
    write(name, data)
    status, output, faults = run(program, "dump", name, "1")
    if status == 0:
        return json.loads(output.splitlines()[0])["text"]
    number = int(faults.split()[1])
    return number if (status, output, faults) == (1, b"", f"peritext: {number} {WORDS[number]}\n".encode()) else faults


def busy_file(program):
    """A file of some commits, with inserts and deletes."""
    new_file(program, "damaged")
    lines = [insert(0, "a"), insert(1, "bc"), line(op="delete", doc=1, at=0, count=1), insert(2, "é"), insert(0, "x", 2)]
    run(program, "edit", "damaged", lines=b"".join(lines))
    return read("damaged")


def check(checks, program, until):
    data = busy_file(program)
    checks.same("the plain reader's text", page_file.text(page_file.image(data)[1], 1), "bcé")
    lengths = sorted(range(len(data) + 1), key=lambda n: (n % 64 != 0, n % 64 > 1, n))

    def cut(n):
        if time.monotonic() > until:
            return None
        return n, shown(program, f"cut-{n % 64}-{n}", data[:n]), expected(data[:n])

    found = [it for it in all_of(cut, lengths[: 6 * 1024]) if it]
    for n, is_shown, wanted in found:
        checks.same(f"the file cut to {n} bytes", is_shown, wanted)
    chance = random.Random(1)
    changes = [(chance.randrange(len(data)), chance.randrange(256)) for _ in range(CHANGES)]

    def change(it):
        at, value = it
        other = data[:at] + bytes([value]) + data[at + 1 :]
        return it, shown(program, f"changed-{at}-{value}", other), expected(other)

    for it, is_shown, wanted in all_of(change, changes):
        checks.same(f"the file with byte {it[0]} as {it[1]}", is_shown, wanted)
