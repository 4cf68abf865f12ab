"""Small files with each byte as 0, as 1 and as 255, files that are cut, and longer ones: a dump gives what the plain reader gives.

python3 checks/each_byte.py PROGRAM: every byte. As one of the checks it takes all bytes of gates, slots' heads, page numbers and records,
however long that takes, and of the others, which are alike, as many as a time allows, in an order by chance.
"""

import os
import random
import sys
import tempfile
import time
from concurrent.futures import ProcessPoolExecutor

from page_file import PAGE, number
from page_spans import dumped
from program import Checks, delete, insert, line, new_file, read, run, write

VALUES = (0, 1, 255)
COMMENT = "00000000-0000-4000-8000-0000000000c1"
# Beyond the last byte that says something, how many are looked at too.
BEHIND = 8
# Seconds for the bytes that say nothing, beside the other checks.
OTHERS = 10
# Seconds for all bytes: no machine needs as many.
LONGEST = 7_200


def mark(first, last, kind, **more):
    return line(op="mark", doc=1, **{"from": first, "to": last}, kind=kind, **more)


# Edits, a commit each; the file is looked at after the last one.
FILES = {
    "a first insert": [insert(0, "a")],
    "a second insert": [insert(0, "a"), insert(1, "b")],
    "a link": [insert(0, "ab"), mark(0, 1, "link", url="uv")],
    "a comment": [insert(0, "ab"), mark(1, 2, "comment", id=COMMENT)],
    "a strong end of text": [insert(0, "ab"), mark(1, 2, "strong")],
    "a removal": [insert(0, "abc"), delete(1, 1)],
}


def made(program, lines):
    """The bytes of a file after these edits."""
    new_file(program, "by-bytes")
    run(program, "edit", "by-bytes", lines=b"".join(lines))
    return read("by-bytes")


def live_slot(data):
    """Where the live slot of a good file begins."""
    return max((0, PAGE), key=lambda at: (data[at] == 1, number(data[at + 16 : at + 24])))


def telling(data):
    """The places of bytes that say something in a file of one data page and one table page, and some behind them."""
    live = live_slot(data)
    table = PAGE * number(data[live + 64 : live + 68])
    stream = PAGE * number(data[table : table + 4])
    length = number(data[live + 40 : live + 48])
    stretches = [(0, 68), (PAGE, 68), (table, 4), (stream, length)]
    return {at for first, size in stretches for at in range(first, min(first + size + BEHIND, len(data)))} | {
        first + PAGE - 1 for first, _ in stretches
    }


def changes(data, places):
    """Places and values of single bytes that differ from the file's, in an order by chance."""
    found = [(at, value) for at in places for value in VALUES if data[at] != value]
    random.Random(8).shuffle(found)
    return found


def tried(program, name, data, given, until):
    """How many of these changes of a file there was time for, and what was wrong: the change, what a dump gave, and what was due."""
    write(name, data)
    wrong = []
    with open(name, "r+b", buffering=0) as file:
        for count, (at, value) in enumerate(given):
            if time.monotonic() > until:
                return count, wrong
            file.seek(at)
            file.write(bytes([value]))
            found, due = run(program, "dump", name, "1"), dumped(data[:at] + bytes([value]) + data[at + 1 :])
            if found != due:
                wrong.append((f"byte {at} as {value}", found, due))
            file.seek(at)
            file.write(data[at : at + 1])
    os.remove(name)
    return len(given), wrong


def resized(data):
    """A file cut at each page and around it, and longer ones."""
    lengths = {PAGE * n + more for n in range(len(data) // PAGE + 1) for more in (-4088, -2, -1, 0, 1, 2, 63, 64, 65)}
    cut = [(f"cut to {n} bytes", data[:n]) for n in sorted(lengths) if 0 <= n < len(data)]
    longer = [b"\0", b"\xff", bytes(PAGE - 1), b"\xff" * PAGE, bytes(5 * PAGE + 7), data]
    return cut + [(f"{len(more)} bytes longer", data + more) for more in longer]


def sweep(checks, program, files, places, seconds):
    """Changes at these places of the files; all of them where there is time. Gives how many weren't tried."""
    workers, left = os.cpu_count() or 2, 0
    for number, (what, data) in enumerate(files.items()):
        given = changes(data, places(data))
        until = time.monotonic() + seconds / len(files)
        with ProcessPoolExecutor(workers) as pool:
            parts = [
                pool.submit(tried, program, os.path.abspath(f"bytes-{number}-{n}"), data, given[n::workers], until) for n in range(workers)
            ]
            found = [part.result() for part in parts]
        count = sum(tried_of_part for tried_of_part, _ in found)
        wrong = [it for _, wrong_of_part in found for it in wrong_of_part]
        for change, is_found, due in wrong:
            checks.same(f"{what}: {change}", is_found, due)
        checks.passed += count - len(wrong)
        left += len(given) - count
    return left


def others(data):
    return sorted(set(range(len(data))) - telling(data))


def sweep_all(checks, program, seconds):
    files = {what: made(program, lines) for what, lines in FILES.items()}
    checks.same("changes of bytes that say something, left out for want of time", sweep(checks, program, files, telling, LONGEST), 0)
    left = sweep(checks, program, files, others, seconds)
    checks.holds(f"changes of other bytes, {left} left out", left == 0 or seconds < LONGEST)
    for what, data in files.items():
        for change, other in resized(data):
            write("resized", other)
            checks.same(f"{what}: {change}", run(program, "dump", "resized", "1"), dumped(other))


def check(checks, program, _until):
    sweep_all(checks, program, OTHERS)


def main():
    checks, program = Checks(), os.path.abspath(sys.argv[1])
    with tempfile.TemporaryDirectory(prefix="peritext-") as room:
        os.chdir(room)
        sweep_all(checks, program, LONGEST)
    print(f"{checks.passed} passed, {checks.failed} failed")
    return 1 if checks.failed else 0


if __name__ == "__main__":
    sys.exit(main())
