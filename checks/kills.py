"""Sessions killed at random moments: what was acknowledged is there, and whole edits alone."""

import json
import os
import random
import signal
import subprocess
import threading
import time

from program import PAGE, insert, new_file, text_of, write
from words import record, slot, table

# Of a kind of killed sessions: how many, of how many edits each, of how many characters, and up to how many edits in a file.
SMALL = (120, 60, 5, 600)
LARGE = (30, 12, 250, 120)
# The operations of another document in the file that the last sessions edit: over a thousand pages of stream, so two table pages.
MANY = 50_000
DEEP = (10, 12, 250, 120)


def token(i, length):
    """The text of the i-th edit."""
    return f"{i:05d}" * (length // 5)


def killed_session(program, name, lines, after):
    """A session of these lines, killed after so many seconds; how many of them were answered."""
    started = subprocess.Popen([program, "edit", name], stdin=subprocess.PIPE, stdout=subprocess.PIPE, stderr=subprocess.DEVNULL)
    answered = 0

    def read_answers():
        nonlocal answered
        for answer in started.stdout:
            if answer.endswith(b"\n") and json.loads(answer)["ok"]:
                answered += 1

    reader = threading.Thread(target=read_answers)
    reader.start()
    try:
        started.stdin.write(lines)
        started.stdin.flush()
    except BrokenPipeError:
        pass
    time.sleep(after)
    started.send_signal(signal.SIGKILL)
    reader.join()
    started.wait()
    for pipe in (started.stdin, started.stdout):
        try:
            pipe.close()
        except BrokenPipeError:
            pass
    return answered


def many_pages(name):
    """A file with many operations of document 2, on over a thousand pages."""
    stream = b"".join(record(i, i - 1, i - 1, "z", 2) for i in range(1, MANY + 1))
    count = -(-len(stream) // PAGE)
    data = range(2, 2 + count)
    tables = [table(*data[first : first + 1024]) for first in range(0, count, 1024)]
    named = range(2 + count, 2 + count + len(tables))
    write(name, slot(2, len(stream), MANY, named) + bytes(PAGE) + stream.ljust(count * PAGE, b"\0") + b"".join(tables))


def check_kind(checks, program, kind, make, slowest, until):
    """Sessions of a kind, each reopened after its kill, over files that are made so."""
    runs, most, length, limit = kind
    chance = random.Random(2)
    make("killed")
    settled = 0
    for i in range(runs):
        if time.monotonic() > until:
            checks.holds(f"{i} of {runs} killed sessions in time", False)
            break
        lines = b"".join(insert(length * k, token(k, length)) for k in range(settled, settled + most))
        answered = killed_session(program, "killed", lines, chance.random() * slowest)
        found = text_of(program, "killed")
        count = len(found) // length
        what = f"killed session {i} of edits of {length}"
        checks.same(f"{what}: whole edits in order", found, "".join(token(k, length) for k in range(count)))
        checks.holds(f"{what}: {answered} answered, {count - settled} there", settled + answered <= count <= settled + most)
        settled = count
        if settled > limit:
            os.remove("killed")
            make("killed")
            settled = 0


def check(checks, program, until):
    check_kind(checks, program, SMALL, lambda name: new_file(program, name), 0.03, until)
    check_kind(checks, program, LARGE, lambda name: new_file(program, name), 0.05, until)
    many_pages("deep")
    took = time.monotonic()
    checks.same("a file of two table pages", text_of(program, "deep"), "")
    took = time.monotonic() - took
    check_kind(checks, program, DEEP, many_pages, took + 0.05, until)
