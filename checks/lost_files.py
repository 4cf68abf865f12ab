"""Files that go away under a program that has them open: removed, replaced, cut or written over by a smaller one. From then on no edit is
answered as made (9). One that only has another name goes on.
"""

import os
import shutil

from daemon import new_daemon
from locks import Session
from program import PAGE, fault, insert, line, new_file, read, text_of, write

FAILED, STOPPED = {"code": 9, "error": "failed", "ok": False}, {"ok": True}
STATUS, STOP, TEXT = line(op="status"), line(op="stop"), line(op="text", doc=1)
ENDED_BY_9 = fault(9)


def remove(name):
    os.remove(name)


def replace(name):
    """Another file gets the name."""
    shutil.copy(name, "other")
    os.replace("other", name)


def cut(name):
    os.truncate(name, os.path.getsize(name) - PAGE)


def empty(name):
    os.truncate(name, 0)


def write_over(name):
    """The same file, with less in it."""
    write(name, read(name)[: 2 * PAGE])


def elsewhere(name):
    """It goes to a file system of its own, or is removed where there is no other one."""
    folder = "/dev/shm" if os.path.isdir("/dev/shm") else "."
    moved = os.path.join(folder, f"peritext-moved-{os.getpid()}")
    shutil.copy(name, moved)
    os.remove(name)
    os.remove(moved)


LOSSES = (remove, replace, cut, empty, write_over, elsewhere)


def rename(name):
    os.rename(name, "renamed")
    return "renamed"


def unlink_one(name):
    """One of two names goes."""
    os.link(name, "second")
    os.remove(name)
    return "second"


NAMES = (rename, unlink_one)


def opened(process, name):
    """The open file of a process that had this name."""
    folder = f"/proc/{process}/fd"
    for number in os.listdir(folder):
        place = os.readlink(os.path.join(folder, number))
        if os.path.basename(place).split(" ")[0] == name:
            return os.path.join(folder, number)
    raise FileNotFoundError(name)


def check_served(checks, program):
    """A daemon answers 9 from then on, shows what it has, and ends with 9."""
    for lose in LOSSES:
        what = f"a file under a daemon: {lose.__name__}"
        daemon = new_daemon(program, "served")
        talk = daemon.talk()
        checks.same(f"an edit before, {what}", talk.ask(insert(0, "a" * 100)), {"ok": True, "rev": 100})
        lose("served")
        checks.same(f"an edit, {what}", talk.ask(insert(0, "b")), FAILED)
        checks.same(f"another edit, {what}", talk.ask(insert(0, "c")), FAILED)
        checks.same(f"the state, {what}", talk.ask(STATUS)["state"], "failed")
        checks.same(f"a text, {what}", talk.ask(TEXT)["ok"], True)
        checks.same(f"the stop, {what}", talk.ask(STOP), FAILED)
        talk.close()
        checks.same(f"the end, {what}", daemon.ended(), ENDED_BY_9)


def check_renamed(checks, program):
    """A file that still has a name goes on."""
    for name in NAMES:
        what = f"a file under a daemon: {name.__name__}"
        daemon = new_daemon(program, "named")
        talk = daemon.talk()
        talk.ask(insert(0, "a"))
        found = name("named")
        checks.same(f"an edit, {what}", talk.ask(insert(1, "b")), {"ok": True, "rev": 2})
        checks.same(f"the stop, {what}", talk.ask(STOP), STOPPED)
        talk.close()
        checks.same(f"the end, {what}", daemon.ended(), (0, b"", b""))
        checks.same(f"the text, {what}", text_of(program, found), "ab")
        os.remove(found)


def check_rescue(checks, program):
    """While the daemon runs, its file can be copied though it has no name any more: all that was answered is in the copy."""
    daemon = new_daemon(program, "rescued")
    talk = daemon.talk()
    for k in range(40):
        talk.ask(insert(k, "r"))
    os.remove("rescued")
    checks.same("an edit of a file without a name", talk.ask(insert(0, "x")), FAILED)
    shutil.copyfile(opened(daemon.run.pid, "rescued"), "copy")
    talk.close()
    checks.same("its stop", daemon.stop(), (FAILED, ENDED_BY_9))
    checks.same("the text of the copy", text_of(program, "copy"), "r" * 40)


def check_edited(checks, program):
    """A session alone ends with 9."""
    for lose in LOSSES:
        what = f"a file under a session: {lose.__name__}"
        new_file(program, "edited")
        session = Session(program, "edited")
        checks.same(f"an edit before, {what}", session.ask(insert(0, "a" * 100)), {"ok": True, "rev": 100})
        lose("edited")
        checks.same(f"an edit, {what}", session.ask(insert(0, "b")), FAILED)
        checks.same(f"the end, {what}", session.end(), (1, ENDED_BY_9[2]))


def check(checks, program, _until):
    for part in (check_served, check_renamed, check_rescue, check_edited):
        try:
            part(checks, program)
        except (OSError, TimeoutError) as error:
            checks.same(f"{part.__name__} comes to its end", repr(error), None)
