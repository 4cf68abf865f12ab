"""Several programs on one file, and files that aren't plain ones: 54, or what is due of a sound store."""

import json
import os
import shutil
import signal
import subprocess
import threading
import time

from program import REPLICA, delete, fault, insert, line, new_file, read, run, text_of, texts, write
from words import MADE, OK, ONE, record, slot, table

PAGE = 4096
ROUNDS = 8
EDITS = 60
INITS = 60
DUMPS = 200
# Operations of a document whose text and spans don't fit into a pipe.
LONG = 45_000
NOBODY = 65_534


class Session:
    """A session that is asked line by line."""

    def __init__(self, program, name):
        self.run = subprocess.Popen([program, "edit", name], stdin=subprocess.PIPE, stdout=subprocess.PIPE, stderr=subprocess.PIPE)

    def ask(self, request):
        self.run.stdin.write(request)
        self.run.stdin.flush()
        return json.loads(self.run.stdout.readline())

    def end(self):
        """Exit status and faults, once its input has ended."""
        output, faults = self.run.communicate(timeout=60)
        return self.run.returncode, faults

    def kill(self):
        self.run.send_signal(signal.SIGKILL)
        self.run.communicate(timeout=60)


def refused_beside(checks, program, name, what):
    """All that a program beside a session answers, which changes nothing."""
    data = read(name)
    checks.same(f"edit {what}", run(program, "edit", name, lines=insert(0, "z")), fault(54))
    checks.same(f"init {what}", run(program, "init", name, "--replica", REPLICA), fault(54))
    checks.same(f"dump {what}", run(program, "dump", name, "1"), fault(54))
    checks.same(f"the file {what}", read(name), data)


def check_held(checks, program):
    """A file that a session has open, under each of its names."""
    new_file(program, "held")
    os.link("held", "other name")
    os.symlink("held", "link")
    session = Session(program, "held")
    checks.same("an edit", session.ask(insert(0, "a")), {"ok": True, "rev": 1})
    for name in ("held", "other name", "link", os.path.abspath("held")):
        refused_beside(checks, program, name, f"of {os.path.basename(name)!r} beside a session")
    checks.same("an edit after others were refused", session.ask(insert(1, "b")), {"ok": True, "rev": 2})
    checks.same("the end of the session", session.end(), (0, b""))
    checks.same("the text, by another name", text_of(program, "other name"), "ab")
    checks.same("an edit by the link", run(program, "edit", "link", lines=insert(2, "c"))[0], 0)
    checks.same("the text after an edit by the link", text_of(program, "held"), "abc")


def check_killed(checks, program):
    """A killed session leaves no lock behind."""
    new_file(program, "left")
    for i in range(ROUNDS):
        session = Session(program, "left")
        checks.same(f"edit {i} before a kill", session.ask(insert(i, "k")), {"ok": True, "rev": i + 1})
        session.kill()
        checks.same(f"the text after kill {i}", text_of(program, "left"), "k" * (i + 1))


def check_two(checks, program):
    """Two sessions that start at once: what either was answered is there, and one of them was refused or came later."""
    refused = 0
    for i in range(ROUNDS):
        new_file(program, "two")
        found = {}

        def edit(letter):
            found[letter] = run(program, "edit", "two", lines=insert(0, letter) * EDITS)

        both = [threading.Thread(target=edit, args=(letter,)) for letter in "pq"]
        for one in both:
            one.start()
        for one in both:
            one.join()
        text = text_of(program, "two")
        for letter, (status, output, faults) in found.items():
            answered = sum(json.loads(answer)["ok"] for answer in output.splitlines())
            checks.same(f"two at once, {i}: answered and there of {letter}", text.count(letter), answered)
            is_whole = (status, answered, faults) == (0, EDITS, b"")
            checks.holds(f"two at once, {i}: {letter} whole or refused", is_whole or (status, output, faults) == fault(54))
            refused += not is_whole
        checks.holds(f"two at once, {i}: one was served", any(status == 0 for status, _, _ in found.values()))
    checks.holds(f"two at once: of {ROUNDS} pairs one was refused at least once", refused > 0)


def check_two_inits(checks, program):
    """Several that make one file at once: one makes it, and it stays."""
    for i in range(INITS):
        if os.path.exists("once"):
            os.remove("once")
        all_at_once = [
            subprocess.Popen([program, "init", "once", "--replica", REPLICA], stdout=subprocess.PIPE, stderr=subprocess.PIPE)
            for _ in range(6)
        ]
        found = [(one.communicate(timeout=60), one.returncode) for one in all_at_once]
        made = sum(it == ((OK, b""), 0) for it in found)
        refused = sum(((1,) + it[0]) in (fault(48), fault(54)) for it in found)
        # Each may be refused for another, and the last of them then leaves an empty file to the next one.
        checks.holds(f"inits at once, {i}: {made} made, {refused} refused", made <= 1 and made + refused == len(found))
        if made == 0:
            checks.same(f"init after inits at once, {i}", run(program, "init", "once", "--replica", REPLICA), (0, OK, b""))
        checks.same(f"the file of inits at once, {i}", read("once"), MADE)


# How long a delayed program waits between opening its file and locking it, in seconds.
DELAY = 1.6


def delayed(program, *words):
    """A run that has opened its file and waits before it locks it."""
    slowed = ["strace", "-qq", "-o", "/dev/null", "-e", "trace=flock", "-e", f"inject=flock:delay_enter={int(DELAY * 1_000_000)}"]
    started = subprocess.Popen([*slowed, program, *words], stdin=subprocess.DEVNULL, stdout=subprocess.PIPE, stderr=subprocess.PIPE)
    time.sleep(DELAY / 2)
    return started


def ended(started):
    output, faults = started.communicate(timeout=60)
    return started.returncode, output, faults


def check_late_locks(checks, program):
    """Between the opening and the lock of one program another one makes, removes or renames the file."""
    traced = ["strace", "-qq", "-o", "/dev/null", "-e", "trace=flock", "-e", "inject=flock:delay_enter=1", program, "--version"]
    if not shutil.which("strace") or subprocess.run(traced, capture_output=True, timeout=60).returncode:
        checks.skip("a lock that comes late", "no strace here")
        return
    init = ["init", "late", "--replica", REPLICA]
    late = delayed(program, *init)
    checks.same("init before the lock of one that made the file", run(program, *init), (0, OK, b""))
    checks.same("edit before that lock", run(program, "edit", "late", lines=insert(0, "a"))[0], 0)
    checks.same("the init that comes late", ended(late), fault(48))
    checks.same("the text after it", text_of(program, "late"), "a")
    for words in (["edit", "late"], ["dump", "late", "1"]):
        new_file(program, "late")
        late = delayed(program, *words)
        new_file(program, "late")
        checks.same(f"a late {words[0]} of a file that was removed", ended(late), fault(54))
        checks.same(f"the file after a late {words[0]}", read("late"), MADE)
    os.remove("late")
    late = delayed(program, *init)
    checks.same("the file that an init has made", read("late"), b"")
    os.rename("late", "renamed")
    checks.same("an init of a file that was renamed", ended(late), fault(54))
    checks.holds("a file that was renamed isn't removed", os.path.exists("renamed") and not os.path.exists("late"))


def check_dumps(checks, program):
    """Dumps beside sessions that edit all the time: 54, or a text that a session had. A session beside a dump: 54, or served whole."""
    new_file(program, "busy")
    is_over = threading.Event()
    sessions = []

    def edit():
        while not is_over.is_set():
            status, output, faults = run(program, "edit", "busy", lines=(insert(0, "w") + delete(0, 1)) * 10)
            is_whole = (status, output.count(b'{"ok":true'), faults) == (0, 20, b"")
            sessions.append("served" if is_whole else "refused" if (status, output, faults) == fault(54) else faults)
            time.sleep(0.003)

    editing = threading.Thread(target=edit)
    editing.start()
    shown = 0
    for i in range(DUMPS):
        status, output, faults = run(program, "dump", "busy", "1")
        text = json.loads(output.splitlines()[0])["text"] if status == 0 else None
        checks.holds(f"dump {i} beside a session: {status} {faults}", text in ("", "w") or (status, output, faults) == fault(54))
        shown += status == 0
    is_over.set()
    editing.join()
    checks.same("sessions beside dumps", {it for it in sessions} - {"served", "refused"}, set())
    print(f"beside one another: {shown} of {DUMPS} dumps shown, {sessions.count('served')} of {len(sessions)} sessions served")


def long_file(name):
    """A file of a document whose dump doesn't fit into a pipe."""
    stream = b"".join(record(i, i - 1, i - 1, "y") for i in range(1, LONG + 1))
    count = -(-len(stream) // PAGE)
    data = range(2, 2 + count)
    tables = [table(*data[first : first + 1024]) for first in range(0, count, 1024)]
    named = range(2 + count, 2 + count + len(tables))
    write(name, slot(2, len(stream), LONG, named) + bytes(PAGE) + stream.ljust(count * PAGE, b"\0") + b"".join(tables))


def check_slow_reader(checks, program):
    """A dump whose reader waits has let go of the file: others read and write it meanwhile, and the dump shows what was there before."""
    long_file("long")
    slow = subprocess.Popen([program, "dump", "long", "1"], stdout=subprocess.PIPE, stderr=subprocess.PIPE, bufsize=0)
    first = slow.stdout.read(10)
    checks.same("a dump beside a dump", run(program, "dump", "long", "2"), (0, texts(0, ""), b""))
    answer = b'{"ok":true,"rev":%d}\n' % (LONG + 1)
    checks.same("an edit beside a dump that is read slowly", run(program, "edit", "long", lines=insert(0, "z")), (0, answer, b""))
    checks.same("an init beside it", run(program, "init", "long", "--replica", REPLICA), fault(48))
    rest, faults = slow.communicate(timeout=60)
    found = slow.returncode, first + rest, faults
    checks.holds("the slow dump", found == (0, texts(LONG, "y" * LONG), b""))
    checks.same("the text after it", text_of(program, "long"), "z" + "y" * LONG)


def check_other_files(checks, program):
    """What is no plain file is no store: nothing waits, and nothing is made or changed."""
    os.mkdir("folder")
    os.mkfifo("pipe")
    os.symlink("nowhere", "dangling")
    write("plain", ONE)
    for name in ("folder", "folder/", "pipe", "/dev/null", "/dev/full", "dangling", "plain/", "plain/more", "folder/none/more", ""):
        checks.same(f"edit of {name!r}", run(program, "edit", name, lines=insert(0, "a")), fault(54))
        checks.same(f"dump of {name!r}", run(program, "dump", name, "1"), fault(54))
        checks.same(f"init of {name!r}", run(program, "init", name, "--replica", REPLICA), fault(54))
    checks.same("the folder", os.listdir("folder"), [])
    checks.holds("a link to nowhere makes nothing", not os.path.lexists("nowhere"))
    checks.same("the plain file", read("plain"), ONE)
    os.symlink("folder/within", "inward")
    checks.same("init in a folder", run(program, "init", "folder/within", "--replica", REPLICA), (0, OK, b""))
    checks.same("dump by a link into a folder", run(program, "dump", "inward", "1"), (0, texts(0, ""), b""))


def as_nobody():
    """How a run is started that may not pass permission bits."""
    return {"user": NOBODY, "group": NOBODY, "extra_groups": []} if os.getuid() == 0 else {}


def check_read_only(checks, program):
    """A file that can only be read can be dumped."""
    os.mkdir("open", 0o755)
    copied = os.path.abspath("open/peritext")
    shutil.copy(program, copied)
    os.chmod(copied, 0o755)
    os.chmod(".", 0o755)
    name = os.path.abspath("open/read only")
    write(name, ONE)
    os.chmod(name, 0o444)
    how = as_nobody()
    try:
        found = run(copied, "dump", name, "1", **how)
    except PermissionError as error:
        checks.skip("a file that can only be read", f"no run as nobody here: {error}")
        return
    checks.same("dump of a file that can only be read", found, (0, texts(1, "a"), b""))
    checks.same("edit of it", run(copied, "edit", name, lines=insert(0, "z"), **how), fault(54))
    checks.same("init of it", run(copied, "init", name, "--replica", REPLICA, **how), fault(54))
    checks.same("the file that can only be read", read(name), ONE)
    os.chmod(name, 0o000)
    checks.same("dump of a file that can't be read", run(copied, "dump", name, "1", **how), fault(54))
    os.chmod("open", 0o555)
    found = run(copied, "init", os.path.abspath("open/new"), "--replica", REPLICA, **how)
    checks.same("init in a folder that can't be written", found, fault(54))
    os.chmod("open", 0o755)


def check(checks, program, _until):
    check_held(checks, program)
    check_killed(checks, program)
    check_two(checks, program)
    check_two_inits(checks, program)
    check_late_locks(checks, program)
    check_dumps(checks, program)
    check_slow_reader(checks, program)
    check_other_files(checks, program)
    check_read_only(checks, program)
