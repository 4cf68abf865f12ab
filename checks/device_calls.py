"""What the program calls, written down by a library that is loaded before it (record_calls.c): the one place where nothing is proved, `FileDisk`.

- The calls are those of the table in docs/DESIGN.md, in its order, and a new file's folder is synced; no edit is answered, no operation told to a
  peer and no number to a watcher before the last sync of its commit came back (call_order.py).
- Whatever a power cut leaves at any moment, within the rules of a disk that power_cuts.py names, is a file that has all that was said by then, and
  of each edit all or nothing: by a plain reader, and some of the files by the program itself (left_files.py).
- A device that fails, or writes less than it is asked to, at each call in turn, loses nothing that was answered (failing_calls.py).
- Records that are changed as by a program that is wrong, and a program that the library makes wrong, are found (planted_calls.py).

By itself, with other edits and mixes, again and again: python3 checks/device_calls.py PROGRAM SECONDS [SEED].
"""

import gzip
import json
import os
import random
import socket
import sys
import tempfile
import threading
import time

import planted_calls
from call_order import INIT, READING, anew, short_faults
from chance_edits import edits
from daemon import Daemon
from failing_calls import check_failing
from formats import EARLIER
from frames import ADD_MARK, END, START, record, replica, url
from killed_calls import check_killed, check_linked_killed
from left_files import look, look_by_edit
from page_file import PAGE
from program import REPLICA, Checks, delete, insert, line, new_file, read, run, write
from recorded import SHORT, compiled
from recorder import STOPPED, Recorder, answered
from watching import watching
from words import OK, slot, table

STATUS, STOP = line(op="status"), line(op="stop")
# Operations of which each takes over a kilobyte.
DEEP = 3_800
SEED = 1
# How many files are kept of a record if they are large, at how many of all the program looks, and how many edits of files that a cut left are
# recorded in turn.
FEW, LOOKS, AGAIN = 2, 360, 6
# Edits of a session alone, of each of some sessions at once, and of a linked one.
ALONE, SESSIONS, EACH, LINKED = 40, 3, 8, 5


def check_init(checks, recorder):
    name = "calls-init"
    recorder.begin(name)
    made = run(recorder.program, "init", name, "--replica", REPLICA, env=recorder.around(name))
    checks.same("a recorded init", made, (0, OK, b""))
    recorder.ended("init", name, None, pattern=INIT)
    again = run(recorder.program, "edit", name, lines=STATUS, env=recorder.around(name))
    checks.same("an opening after it", again[0], 0)


def check_edit(checks, recorder):
    """A session alone, and then whoever looks at the file."""
    name = "calls-edit"
    recorder.begin(name)
    new_file(recorder.program, name)
    data = read(name)
    lines = edits(recorder.chance, ALONE, (1, 2, 7)) + [STATUS, STOP]
    status, output, faults_told = recorder.edited(name, lines)
    answers = [json.loads(it) for it in output.splitlines()]
    checks.same("a recorded session", (status, faults_told, all(it["ok"] for it in answers), len(answers)), (0, b"", True, len(lines)))
    answered(checks, "edit", recorder.ended("edit", name, data), [answers])
    os.remove(name + ".calls")
    data = read(name)
    for words in (("dump", name, "1"), ("list", name), ("export", name, "7"), ("history", name, "7")):
        run(recorder.program, *words, env=recorder.around(name))
        recorder.ended(words[0], name, data, pattern=READING)
        os.remove(name + ".calls")


def up_to_the_end(watch):
    """All lines of a watch that is ended now."""
    watch.socket.shutdown(socket.SHUT_WR)
    told = []
    while (answer := watch.answer()) is not None:
        told.append(answer)
    watch.close()
    return told


def check_sessions(checks, recorder):
    """Some sessions at once, each in a document of its own, and who watches these."""
    name = "calls-serve"
    recorder.begin(name)
    new_file(recorder.program, name)
    data = read(name)
    daemon = recorder.serving(name)
    docs = range(1, SESSIONS + 1)
    watches = [watching(daemon, doc) for doc in docs]
    scripts = {doc: edits(random.Random(recorder.chance.random()), EACH, (doc,)) for doc in docs}
    found = {}

    def session(doc):
        talk = daemon.talk()
        found[doc] = [talk.ask(it) for it in scripts[doc]]
        talk.close()

    threads = [threading.Thread(target=session, args=(doc,)) for doc in docs]
    for it in threads:
        it.start()
    for it in threads:
        it.join()
    checks.holds("edits of sessions at once", all(it["ok"] for answers in found.values() for it in answers))
    told = [up_to_the_end(it) for it in watches]
    checks.same("the end of a recorded daemon", daemon.stop(), STOPPED)
    recorded = recorder.ended("serve", name, data, links=(daemon.peers,))
    answered(checks, "serve", recorded, [*found.values(), *told, [{"ok": True}]])


def check_linked(checks, recorder):
    """Two daemons that are linked, and edit by turns; at each is one who watches what comes from the other."""
    names = "calls-one", "calls-other"
    data = recorder.two(names)
    one = recorder.serving(names[0])
    other = recorder.serving(names[1], link=one.peers)
    watches = {1: watching(other, 1), 2: watching(one, 2)}
    for it in watches.values():
        it.answer()
    scripts = {1: (one.talk(), edits(recorder.chance, LINKED, (1,))), 2: (other.talk(), edits(recorder.chance, LINKED, (2,)))}
    revs = {1: 0, 2: 0}
    for turn in range(max(len(lines) for _, lines in scripts.values())):
        for doc, (talk, lines) in scripts.items():
            if turn < len(lines):
                rev = talk.ask(lines[turn])["rev"]
                while revs[doc] < rev:
                    revs[doc] = watches[doc].answer()["rev"]
    for it in (*watches.values(), *(talk for talk, _ in scripts.values())):
        it.close()
    for daemon in (one, other):
        checks.same("the end of a linked daemon", daemon.stop(), STOPPED)
    for name, daemon in zip(names, (one, other)):
        recorder.ended(f"linked, {name}", name, data[name], links=(one.peers, other.peers))


def check_moving(checks, recorder):
    """The first commit on a file of the first format writes all of it anew."""
    for earlier in ("marks", "pages"):
        name = f"calls-{earlier}"
        recorder.begin(name)
        with gzip.open(os.path.join(EARLIER, earlier + ".gz")) as file:
            write(name, file.read())
        data = read(name)
        lines = [insert(0, "moved", 3), insert(0, "on", 3), delete(0, 2, 3)]
        checks.same(f"a session of an earlier file, {earlier}", recorder.edited(name, lines)[::2], (0, b""))
        recorder.ended(f"moving, {earlier}", name, data)


def deep(name):
    """A file of the operations of a document that fill over a thousand pages, so that it has two table pages: links with long addresses."""
    link = url("u" * 1024) + START + END
    stream = b"".join(record(ADD_MARK, replica(1), k, link, [(replica(1), k - 1)] if k > 1 else []) for k in range(1, DEEP + 1))
    count = -(-len(stream) // PAGE)
    tables = [table(*range(2 + first, 2 + min(first + 1024, count))) for first in range(0, count, 1024)]
    named = range(2 + count, 2 + count + len(tables))
    write(name, slot(2, len(stream), DEEP, named) + bytes(PAGE) + stream.ljust(count * PAGE, b"\0") + b"".join(tables))


def check_deep(checks, recorder):
    """Commits on a file with two table pages."""
    name = "calls-deep"
    recorder.begin(name)
    deep(name)
    data = read(name)
    checks.same("a session of a file with two table pages", recorder.edited(name, [insert(0, "ab"), delete(0, 1)])[::2], (0, b""))
    recorder.ended("deep", name, data, kept=FEW)


def check_anew(checks, recorder):
    """A daemon that is started again and again has the calls of one that opens its file anew (renewal.py), in a record of few bytes."""
    name = "calls-anew"
    recorder.begin(name)
    new_file(recorder.program, name)
    for turn in range(3):
        daemon = Daemon(recorder.program, name, env=recorder.around(name, most=SHORT))
        talk = daemon.talk()
        checks.holds("edits between openings", all(talk.ask(it)["ok"] for it in [insert(0, "a" * 200)] * 4))
        talk.close()
        checks.same("the end of a daemon that is started again", daemon.stop(), STOPPED)
    found = anew(name + ".calls", name)
    recorder.records["anew"] = found.with_events(list(found.events))
    checks.same("anew: the calls", short_faults(recorder.records["anew"])[:5], [])


def check_looks(checks, recorder):
    """The program looks at some of the files that cuts leave; and some edits of these are recorded, and cut in turn."""
    chosen = recorder.chance.sample(recorder.files, min(LOOKS, len(recorder.files)))
    for number, (what, data) in enumerate(chosen):
        look(checks, recorder.program, "calls-left", data, number, (1, 2, 3, 7))
    stores = [(what, data) for what, data in chosen if len(data) > 2 * PAGE][:AGAIN]
    for number, (what, data) in enumerate(stores):
        name = f"calls-again-{number}"
        recorder.begin(name)
        write(name, data)
        look_by_edit(checks, recorder.program, name, data, 1, env=recorder.around(name))
        recorder.ended(f"again, {what}", name, data)


def check_planted(checks, recorder):
    """Each of the changed records is found, and each of the programs that the library makes wrong."""
    found, by_cuts = planted_calls.found(recorder)
    missed = [what for what, is_found in found.items() if not is_found]
    checks.same("planted faults that aren't found", missed, [])
    print(f"planted: {len(found) - len(missed)} of {len(found)} found, {by_cuts} of these by what power cuts leave")


PARTS = (
    check_init, check_edit, check_sessions, check_linked, check_linked_killed, check_moving, check_deep, check_killed, check_anew, check_failing,
    check_looks, check_planted,
)


def check_with(checks, program, library, seed):
    recorder = Recorder(checks, program, library, seed)
    run(program, "--version", env=recorder.around("calls-version"))
    checks.holds("the program's calls can be recorded", os.path.exists("calls-version.calls"))
    for part in PARTS:
        try:
            part(checks, recorder)
        except (OSError, TimeoutError, TypeError, LookupError, ValueError, StopIteration) as error:
            checks.same(f"{part.__name__} comes to its end", repr(error), None)
    return recorder


def check(checks, program, _until):
    library = compiled()
    if not library:
        checks.skip("recorded calls", "no gcc here")
        return
    recorder = check_with(checks, program, library, SEED)
    looked = min(LOOKS, len(recorder.files))
    print(f"power cuts: {recorder.count} files made of {len(recorder.records)} records, {looked} looked at by the program")


def main():
    checks, program = Checks(), os.path.abspath(sys.argv[1])
    until, seed = time.monotonic() + float(sys.argv[2]), int(sys.argv[3]) if len(sys.argv) > 3 else SEED
    with tempfile.TemporaryDirectory(prefix="peritext-") as room:
        os.chdir(room)
        library = compiled()
        while time.monotonic() < until:
            seed += 1
            recorder = check_with(checks, program, library, seed)
            print(f"seed {seed}: {recorder.count} files, {checks.passed} passed, {checks.failed} failed", flush=True)
    return 1 if checks.failed else 0


if __name__ == "__main__":
    sys.exit(main())
