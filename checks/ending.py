"""What a daemon does when its device failed: it serves on what it has and refuses edits (9); with `--end-on-failure` it answers 9 to those
who wait and ends, so that whoever watches it starts it again. The device is a file that may not grow any more, or a small disk in memory.
"""

import os
import resource
import subprocess
import threading
import time

from beside import again
from daemon import PATIENCE, Daemon, new_daemon
from full_disk import limited, mounted
from program import PAGE, fault, insert, line, new_file, text_of

STATUS, STOP, TEXT = line(op="status"), line(op="stop"), line(op="text", doc=1)
FAILED, STOPPED = {"code": 9, "error": "failed", "ok": False}, {"ok": True}
FLAG = "--end-on-failure"
ROOM, EDITS, EDITORS = 48 * PAGE, 400, 4
# Characters of each edit but the first.
SIZE = 256
SECONDS = 5


class Ending(Daemon):
    """A daemon that ends once its device failed."""

    def words(self):
        return [*super().words(), FLAG]


class Editor(threading.Thread):
    """Inserts into a document of its own until it isn't answered ok, and counts what was."""

    def __init__(self, daemon, doc):
        super().__init__()
        self.daemon, self.doc, self.answered, self.last = daemon, doc, 0, None

    def run(self):
        try:
            talk = self.daemon.talk()
            for k in range(EDITS):
                self.last = talk.ask(insert(k, "e" * SIZE if k else "f", self.doc))
                if not (self.last and self.last["ok"]):
                    break
                self.answered += 1
            talk.close()
        except OSError as error:
            self.last = repr(error)


def edited(daemon, many):
    """So many editors, once each was refused."""
    editors = [Editor(daemon, 1 + number) for number in range(many)]
    for editor in editors:
        editor.start()
    for editor in editors:
        editor.join()
    return editors


def check_serves_on(checks, program):
    """Without the flag it goes on, shows what it has, and is ended by a stop."""
    daemon = new_daemon(program, "on", **limited(ROOM))
    editors = edited(daemon, 1)
    checks.same("the last answer", editors[0].last, FAILED)
    checks.holds(f"edits before a file may not grow: {editors[0].answered}", editors[0].answered > 0)
    talk = daemon.talk()
    checks.same("the state", talk.ask(STATUS)["state"], "failed")
    checks.same("a text", talk.ask(TEXT)["ok"], True)
    talk.close()
    checks.same("the stop", daemon.stop(), (FAILED, fault(9)))


def check_ends(checks, program):
    """With the flag those who wait are answered 9, and it ends by itself."""
    new_file(program, "ends")
    daemon = Ending(program, "ends", **limited(ROOM))
    idle = daemon.talk()
    checks.same("a session that is idle", idle.ask(STATUS)["state"], "open")
    editors = edited(daemon, EDITORS)
    begun = time.monotonic()
    refused(checks, "with the flag", editors)
    checks.same("the end", daemon.ended(), fault(9))
    checks.holds("it ends soon", time.monotonic() - begun < SECONDS)
    checks.holds("the idle session is ended", idle.ended())
    again_open = Daemon(program, "ends")
    told(checks, again_open, editors)
    checks.same("the end behind it", again_open.stop(), (STOPPED, (0, b"", b"")))


def refused(checks, what, editors):
    """Those who waited were answered 9; whoever wasn't waiting then may have found its session ended."""
    checks.holds(f"edits {what}", all(editor.answered > 0 for editor in editors))
    lasts = [editor.last for editor in editors]
    checks.holds(f"the last answers {what}: {lasts}", FAILED in lasts and all(last in (FAILED, None) for last in lasts))


def told(checks, daemon, editors):
    """All that was answered is there."""
    talk = daemon.talk()
    for editor in editors:
        there = talk.ask(line(op="text", doc=editor.doc))["text"]
        count = (len(there) + SIZE - 1) // SIZE
        checks.holds(f"document {editor.doc}: {editor.answered} answered, {count} there", editor.answered <= count <= editor.answered + 1)
    talk.close()


def check_stops(checks, program):
    """The flag changes nothing while the device works."""
    new_file(program, "stops")
    daemon = Ending(program, "stops")
    talk = daemon.talk()
    checks.same("an edit", talk.ask(insert(0, "a")), {"ok": True, "rev": 1})
    talk.close()
    checks.same("the stop with the flag", daemon.stop(), (STOPPED, (0, b"", b"")))
    checks.same("its text", text_of(program, "stops"), "a")


# What starts the program again while it ends with another status than 0, as a service manager does.
AGAIN = 'while ! "$@" 2>> faults; do sleep 0.1; done'


class Watched(Ending):
    """The same, started again by a script."""

    def words(self):
        return ["sh", "-c", AGAIN, "sh", *super().words()]


def is_open(daemon):
    """A session with it, where an edit can be made."""
    talk = daemon.talk()
    answer = talk.ask(insert(0, "z", 99))
    talk.close()
    return bool(answer and answer["ok"])


def check_watched(checks, program, name, what, give_back, **how):
    """A script's loop starts it again and again; once there is room it serves, with all that was answered."""
    new_file(program, name)
    daemon = Watched(program, name, **how)
    editors = edited(daemon, EDITORS)
    refused(checks, what, editors)
    time.sleep(0.5)
    give_back(daemon)
    again(f"an edit once there is room {what}", lambda: is_open(daemon))
    told(checks, daemon, editors)
    talk = daemon.talk()
    checks.same(f"the stop {what}", talk.ask(STOP), STOPPED)
    talk.close()
    checks.same(f"the end of the script {what}", daemon.run.wait(PATIENCE), 0)
    with open("faults", encoding="ascii") as file:
        checks.same(f"what it said {what}", set(file.read().splitlines()), {"peritext: 9 failed"})
    os.remove("faults")


def check_on_a_small_disk(checks, program, folder):
    """On a disk that is full, and then has room; it is mounted by `full_disk`."""
    mounted(folder, 48)
    name = os.path.join(folder, "watched")
    try:
        check_watched(checks, program, name, "on a small disk, watched", lambda _: mounted(folder, 512, again=True))
    except (OSError, TimeoutError, subprocess.TimeoutExpired) as error:
        checks.same("a watched daemon on a small disk comes to its end", repr(error), None)


def check_watched_limit(checks, program):
    """With a limit on the size of files, which is lifted."""

    def limit():
        resource.setrlimit(resource.RLIMIT_FSIZE, (ROOM, resource.RLIM_INFINITY))

    def lift(daemon):
        resource.prlimit(daemon.run.pid, resource.RLIMIT_FSIZE, (resource.RLIM_INFINITY,) * 2)

    check_watched(checks, program, "watched", "under a limit, watched", lift, preexec_fn=limit)


def check_lost(checks, program):
    """A file that was removed ends it, and it isn't there for the next start."""
    new_file(program, "lost")
    daemon = Ending(program, "lost")
    talk = daemon.talk()
    talk.ask(insert(0, "a"))
    os.remove("lost")
    checks.same("an edit of a file that was removed", talk.ask(insert(0, "b")), FAILED)
    talk.close()
    checks.same("the end where a file was removed", daemon.ended(), fault(9))


def check(checks, program, _until):
    for part in (check_serves_on, check_ends, check_stops, check_lost, check_watched_limit):
        try:
            part(checks, program)
        except (OSError, TimeoutError, subprocess.TimeoutExpired) as error:
            checks.same(f"{part.__name__} comes to its end", repr(error), None)
