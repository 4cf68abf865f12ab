"""Standard streams that are closed, full, or lose their reader: no file is taken for one, and nothing answered is lost."""

import itertools
import json
import os
import subprocess

from agreed import WORDS
from program import REPLICA, insert, new_file, read, run, text_of, texts, write
from words import MADE, OK, ONE

SETS = [set(some) for count in range(4) for some in itertools.combinations(range(3), count)]
CLOSED = {0: "<&-", 1: ">&-", 2: "2>&-"}


def by_shell(program, words, closed, lines):
    """A run that a shell starts without these descriptors: status, output, faults."""
    script = 'exec "$0" "$@" ' + " ".join(CLOSED[number] for number in sorted(closed))
    return run("/bin/sh", "-c", script, program, *words, lines=lines)


def by_parent(program, words, closed, lines):
    """The same of a parent that closes them itself before it becomes the program."""

    def close():
        for number in closed:
            os.close(number)

    return run(program, *words, lines=lines, preexec_fn=close)


def due(closed, output):
    """What a run gives that has this output: where it can't be written, 71."""
    if 1 not in closed:
        return 0, output, b""
    return 1, b"", b"" if 2 in closed else f"peritext: 71 {WORDS[71]}\n".encode()


def refusal(number, closed):
    return 1, b"", b"" if 2 in closed else f"peritext: {number} {WORDS[number]}\n".encode()


def check_init(checks, program, start, closed, what):
    name = "streamless"
    if os.path.exists(name):
        os.remove(name)
    init = ["init", name, "--replica", REPLICA]
    checks.same(f"init {what}", start(program, init, closed, b""), due(closed, OK))
    if 1 in closed:
        checks.holds(f"init {what} leaves no file", not os.path.exists(name))
        checks.same(f"init after one {what}", run(program, *init), (0, OK, b""))
    checks.same(f"the file that init made {what}", read(name), MADE)
    checks.same(f"init again {what}", start(program, init, closed, b""), refusal(48, closed))
    checks.same(f"the file after init again {what}", read(name), MADE)
    write(name, b"")
    checks.same(f"init of an empty file {what}", start(program, init, closed, b""), due(closed, OK))
    checks.same(f"the empty file after init {what}", read(name), MADE)


def check_edit(checks, program, start, closed, what):
    name = "streamless"
    write(name, ONE)
    answer = b"" if 0 in closed else b'{"ok":true,"rev":2}\n'
    found = start(program, ["edit", name], closed, insert(1, "b"))
    checks.same(f"edit {what}", found, (0, b"", b"") if 0 in closed else due(closed, answer))
    if 0 in closed:
        checks.same(f"the file after edit {what}", read(name), ONE)
    else:
        allowed = ["ab"] if 1 not in closed else ["a", "ab"]
        checks.holds(f"the text after edit {what}", text_of(program, name) in allowed)


def check_dump(checks, program, start, closed, what):
    name = "streamless"
    write(name, ONE)
    checks.same(f"dump {what}", start(program, ["dump", name, "1"], closed, b""), due(closed, texts(1, "a")))
    checks.same(f"the file after dump {what}", read(name), ONE)
    missing = start(program, ["dump", "missing", "1"], closed, b"")
    checks.same(f"dump of no file {what}", missing, refusal(54, closed))
    checks.holds(f"dump of no file {what} makes none", not os.path.exists("missing"))


def check_closed(checks, program):
    for start, closed in itertools.product((by_shell, by_parent), SETS):
        what = f"without {sorted(closed)}, {start.__name__}"
        for check_order in (check_init, check_edit, check_dump):
            check_order(checks, program, start, closed, what)
        found = start(program, [], closed, insert(0, "a"))
        answers = OK if 0 in closed else OK + b'{"ok":true,"rev":1}\n'
        checks.same(f"in memory {what}", found, due(closed, answers))


def check_full_output(checks, program):
    """An output on a full device: 71, and the file is sound."""
    name = "unheard"
    for words, lines in ((["init", name, "--replica", REPLICA], b""), (["edit", name], insert(0, "a")), (["dump", name, "1"], b"")):
        with open("/dev/full", "wb") as full:
            ran = subprocess.run([program, *words], input=lines, stdout=full, stderr=subprocess.PIPE, timeout=60)
        checks.same(f"{words[0]} to a full device", (ran.returncode, ran.stderr), (1, b"peritext: 71 stream\n"))
        if words[0] == "init":
            checks.holds("an init that can't answer leaves no file", not os.path.exists(name))
            new_file(program, name)
        else:
            checks.holds(f"the file after {words[0]} to a full device", text_of(program, name) in ("", "a"))


def broken_session(program, name, ignores):
    """Answers that were read of a session until its reader went away, and how it ended."""
    started = subprocess.Popen(
        [program, "edit", name], stdin=subprocess.PIPE, stdout=subprocess.PIPE, stderr=subprocess.PIPE,
        restore_signals=not ignores,
    )
    answered = []
    for i in range(5):
        started.stdin.write(insert(i, "abcdefgh"[i]))
        started.stdin.flush()
        answered.append(json.loads(started.stdout.readline())["rev"])
    started.stdout.close()
    try:
        started.stdin.write(insert(5, "f") + insert(6, "g"))
        started.stdin.flush()
        started.stdin.close()
    except BrokenPipeError:
        pass
    faults = started.stderr.read()
    started.stderr.close()
    return answered, (started.wait(timeout=60), faults)


def check_broken_pipe(checks, program):
    """The reader of the answers goes away: 71, whether the system's signal is ignored or not; what was answered is there."""
    for ignores in (False, True):
        what = f"a session whose reader goes away, the signal {'ignored' if ignores else 'not ignored'}"
        new_file(program, "broken")
        answered, ended = broken_session(program, "broken", ignores)
        checks.same(what, (answered, ended), ([1, 2, 3, 4, 5], (1, b"peritext: 71 stream\n")))
        checks.holds(f"the text after {what}", text_of(program, "broken") in ("abcde", "abcdef"))
        checks.same(f"an edit after {what}", run(program, "edit", "broken", lines=insert(0, "x"))[0], 0)


def check(checks, program, _until):
    check_closed(checks, program)
    check_full_output(checks, program)
    check_broken_pipe(checks, program)
