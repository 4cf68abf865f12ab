"""A device that fails, or that writes less than it was asked to, as the library of record_calls.c plays it, at each sync and each write in turn:
what isn't settled is answered 9, and the file opens with all that was answered.
"""

import errno
import os

from call_order import Record, said_early
from daemon import Daemon
from left_files import left
from program import REPLICA, fault, insert, line, new_file, read, run, text_of
from recorded import events
from watching import watching
from words import MADE, OK

# Two edits, with a commit each: a sync for the opening, and three for each; four writes for the first, five for the second, which closes a gate.
LINES, TEXTS = (insert(0, "ab"), insert(2, "cd")), ("", "ab", "abcd")
SYNCS, WRITES, FIRST_SYNCS, FIRST_WRITES = 7, 9, 4, 4
FAILED = {"code": 9, "error": "failed", "ok": False}
STOP = line(op="stop")


def error(call, number, what=errno.EIO):
    """What a run is told in which the call of this number fails."""
    return {"fault": f"{call}:{number}:{what}"}


def answers(count):
    """What is answered if so many edits were settled."""
    return b"".join(line(ok=True, rev=len(text)) for text in TEXTS[1 : 1 + count]) + line(**FAILED) * (len(LINES) - count)


def unharmed(recorder):
    """The file of both edits."""
    new_file(recorder.program, "calls-unharmed")
    run(recorder.program, "edit", "calls-unharmed", lines=b"".join(LINES))
    return read("calls-unharmed")


def judged(recorder, what, name, links=()):
    """Nothing is said in a record too early, and nothing of it lost by a cut."""
    record = Record(events(name + ".calls"), name, f"file:{os.stat(name).st_ino}", recorder.folder, MADE, links)
    recorder.checks.same(f"{what}: said too early", said_early(record), [])
    recorder.checks.same(f"{what}: what cuts leave", left(record, unharmed(recorder), recorder.chance, 0)[2][:5], [])


def session(recorder, what, **more):
    """How a session of a new file ended, and the text after it."""
    name = "calls-failing"
    recorder.begin(name)
    new_file(recorder.program, name)
    found = recorder.edited(name, LINES, **more)
    judged(recorder, what, name)
    return found, text_of(recorder.program, name)


def check_sessions(checks, recorder):
    """A call of a session fails: the edits that were settled before are answered, the others are 9, and each of these is there or not."""
    calls = [("fdatasync", n, n > FIRST_SYNCS) for n in range(2, SYNCS + 1)] + [("pwrite", n, n > FIRST_WRITES) for n in range(1, WRITES + 1)]
    for call, number, settled in calls:
        what = f"{call} {number} fails"
        found, text = session(recorder, what, **error(call, number))
        checks.same(what, found, (1, answers(settled), b"peritext: 9 failed\n"))
        checks.holds(f"{what}: the text after it, {text!r}", text in TEXTS[settled : settled + 2])


def check_unharmed(checks, recorder):
    """A write of half of its bytes, and an interrupted call, are made up for."""
    for number in range(1, WRITES + 1):
        checks.same(f"write {number} is half of one", session(recorder, f"half of write {number}", half=number), ((0, answers(2), b""), TEXTS[2]))
    for call, number in (("pwrite", 3), ("fdatasync", 3), ("fdatasync", 1), ("pread", 1)):
        what = f"{call} {number} is interrupted"
        checks.same(what, session(recorder, what, **error(call, number, errno.EINTR)), ((0, answers(2), b""), TEXTS[2]))


def check_openings(checks, recorder):
    """A file that can't be synced, or read, isn't opened."""
    name = "calls-unopened"
    recorder.begin(name)
    new_file(recorder.program, name)
    for words in (("edit", name), ("dump", name, "1"), ("list", name)):
        for call, number in (("fdatasync", 52), ("pread", 50)):
            found = run(recorder.program, *words, lines=LINES[0], env=recorder.around(name, **error(call, 1)))
            checks.same(f"{words[0]} where {call} fails", found, fault(number))
    checks.same("the file then", read(name), MADE)


def check_inits(checks, recorder):
    """An init that fails leaves no file, and settles that its name is gone."""
    name = "calls-unmade"
    calls = [("fsync", 1, 54)] + [("fdatasync", number, 52) for number in (1, 2)] + [("pwrite", number, 51) for number in (1, 2, 3)]
    for call, number, refused in calls:
        what = f"an init whose {call} {number} fails"
        recorder.begin(name)
        found = run(recorder.program, "init", name, "--replica", REPLICA, env=recorder.around(name, **error(call, number)))
        checks.same(what, (found, os.path.exists(name)), (fault(refused), False))
        last = [it.call for it in events(name + ".calls") if it.call in ("unlink", "fsync")][-3:]
        checks.same(f"{what}: the name is removed, and that is settled", last, ["unlink", "fsync", "fsync"])
    for number in (1, 2, 3):
        recorder.begin(name)
        found = run(recorder.program, "init", name, "--replica", REPLICA, env=recorder.around(name, half=number))
        checks.same(f"an init whose write {number} is half of one", (found, read(name)), ((0, OK, b""), MADE))


def check_daemon(checks, recorder):
    """A daemon's sync fails: who edits and who watches is told so, and nothing more is settled."""
    name = "calls-failing-served"
    for number in range(FIRST_SYNCS + 1, SYNCS + 1):
        recorder.begin(name)
        new_file(recorder.program, name)
        daemon = Daemon(recorder.program, name, env=recorder.around(name, **error("fdatasync", number)))
        talk, watch = daemon.talk(), watching(daemon)
        told = [watch.answer(), talk.ask(LINES[0]), watch.answer(), talk.ask(LINES[1]), watch.answer(), talk.ask(STOP)]
        wanted = [{"ok": True, "rev": 0}, {"ok": True, "rev": 2}, {"ok": True, "rev": 2}, FAILED, FAILED, FAILED]
        checks.same(f"a daemon whose sync {number} fails", told, wanted)
        talk.close()
        watch.close()
        checks.same(f"its end, sync {number}", daemon.ended(), fault(9))
        judged(recorder, f"a daemon whose sync {number} fails", name, (daemon.peers,))


def check_failing(checks, recorder):
    for part in (check_sessions, check_unharmed, check_openings, check_inits, check_daemon):
        part(checks, recorder)
