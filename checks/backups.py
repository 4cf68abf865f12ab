"""Backups as docs/OPERATING.md has them: a second replica that is linked, copies of its file, a lost file, and going back to an older state."""

import os
import shutil
import uuid

from daemon import Daemon, new_daemon, within
from program import insert, line, read, text_of

TEXT, STATUS = line(op="text", doc=1), line(op="status")


def ask(daemon, request):
    """What a session of its own is answered."""
    talk = daemon.talk()
    answer = talk.ask(request)
    talk.close()
    return answer


def text(daemon):
    return ask(daemon, TEXT)["text"]


def shows(what, daemon, wanted):
    """Waits until a daemon shows a text."""
    within(what, lambda: text(daemon) == wanted)


def check_linked(checks, program):
    """The backup has what is settled; a copy of its file is an older state. Gives the backup."""
    notes = new_daemon(program, "notes")
    backup = new_daemon(program, "notes-backup", replica=str(uuid.uuid4()), link=notes.peers)
    ask(notes, insert(0, "monday"))
    shows("the backup has it", backup, "monday")
    checks.holds("the backup's daemon ends", backup.stop()[0]["ok"])
    shutil.copy("notes-backup", "older")
    ask(notes, insert(6, ", tuesday"))
    backup = Daemon(program, "notes-backup", link=notes.peers)
    shows("the backup catches up", backup, "monday, tuesday")
    before = read("older")
    checks.same("the copy shows the older state", text_of(program, "older"), "monday")
    checks.holds("a dump leaves the copy as it was", read("older") == before)
    notes.kill()
    os.remove("notes")
    return backup


def check_lost(checks, program, backup):
    """The first file is lost: the second one goes on, with a new backup."""
    checks.holds("the backup takes edits", ask(backup, insert(0, "all of "))["ok"])
    following = new_daemon(program, "next", replica=str(uuid.uuid4()), link=backup.peers)
    shows("the next backup has it", following, "all of monday, tuesday")
    ask(following, insert(22, "!"))
    shows("and tells what is typed there", backup, "all of monday, tuesday!")
    for daemon in (following, backup):
        checks.holds("a daemon ends", daemon.stop()[0]["ok"])


def check_back(checks, program):
    """An older state is gone on with by a new replica, which takes it over a link."""
    older = Daemon(program, "older")
    again = new_daemon(program, "again", replica=str(uuid.uuid4()), link=older.peers)
    all_of_it = ask(older, STATUS)["settled"]
    within("the new file has all of it", lambda: ask(again, STATUS)["settled"] == all_of_it)
    checks.same("the older state", text(again), "monday")
    checks.holds("the older daemon ends", older.stop()[0]["ok"])
    os.remove("older")
    checks.holds("the new file takes edits", ask(again, insert(6, ", wednesday"))["ok"])
    checks.holds("its daemon ends", again.stop()[0]["ok"])
    checks.same("it goes on from there", text_of(program, "again"), "monday, wednesday")


def check(checks, program, _until):
    backup = check_linked(checks, program)
    check_lost(checks, program, backup)
    check_back(checks, program)
