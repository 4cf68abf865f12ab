"""Disks that are full: files of a limited size, and small disks in memory, mounted where none but the check sees them."""

import json
import os
import resource
import shutil
import subprocess
import sys

from program import PAGE, REPLICA, Checks, fault, insert, new_file, read, run, text_of, texts, write
from words import MADE, OK

EDITS = 40
# Characters of each of these, which a file holds as one record of 4 bytes for each.
SIZE = 256


def limited(size):
    """How a run is started in which no file grows past so many bytes: a write past them ends it by a signal (SIGXFSZ)."""

    def limit():
        resource.setrlimit(resource.RLIMIT_FSIZE, (size, size))

    return {"preexec_fn": limit}


def full_init(checks, program, name, what, **how):
    """An init for which the disk has no room."""
    checks.same(f"init {what}", run(program, "init", name, "--replica", REPLICA, **how), fault(51))
    checks.holds(f"init {what} leaves no file", not os.path.exists(name))
    write(name, b"")
    checks.same(f"init of an empty file {what}", run(program, "init", name, "--replica", REPLICA, **how), fault(51))
    checks.holds(f"init {what} leaves a file that was there", os.path.exists(name))
    os.remove(name)


def room_for_init(checks, program, name, what):
    checks.same(f"init after one {what}", run(program, "init", name, "--replica", REPLICA), (0, OK, b""))
    checks.same(f"the file of an init after one {what}", read(name), MADE)


def full_edit(checks, program, name, what, **how):
    """A session that the disk gets too small for: what was answered ok is there, whole edits alone, and then 9."""
    before = text_of(program, name)
    status, output, faults = run(program, "edit", name, lines=insert(0, "f" * SIZE) * EDITS, **how)
    answers = [json.loads(answer) for answer in output.splitlines()]
    answered = sum(answer["ok"] for answer in answers)
    checks.same(f"a session {what}", (status, faults, len(answers)), (1, b"peritext: 9 failed\n", EDITS))
    refused = [answer for answer in answers if not answer["ok"]]
    checks.holds(f"refusals {what}", refused and all(answer["code"] == 9 for answer in refused))
    count = (len(text_of(program, name)) - len(before)) // SIZE
    checks.holds(f"the text {what}: {answered} answered, {count} there", answered <= count <= answered + 1)
    checks.same(f"whole edits {what}", text_of(program, name), "f" * SIZE * count + before)
    return count


def room_for_edit(checks, program, name, what, count):
    checks.same(f"an edit after a session {what}", run(program, "edit", name, lines=insert(0, "g"))[0], 0)
    checks.same(f"the text after a session {what}", text_of(program, name), "g" + "f" * SIZE * count)


def check_limited(checks, program):
    what = "in files of a limited size"
    full_init(checks, program, "limited", what, **limited(PAGE))
    room_for_init(checks, program, "limited", what)
    count = full_edit(checks, program, "limited", what, **limited(12 * PAGE))
    checks.holds(f"edits {what}: {count}", count > 0)
    room_for_edit(checks, program, "limited", what, count)


def check_few_files(checks, program):
    """Room for one open file alone: the folder of a new file can't be synced, so it isn't kept."""

    def limit():
        resource.setrlimit(resource.RLIMIT_NOFILE, (4, 4))

    what = "with one open file"
    checks.same(f"init {what}", run(program, "init", "few", "--replica", REPLICA, preexec_fn=limit), fault(54))
    checks.holds(f"init {what} leaves no file", not os.path.exists("few"))
    room_for_init(checks, program, "few", what)
    answer = b'{"ok":true,"rev":1}\n'
    checks.same(f"edit {what}", run(program, "edit", "few", lines=insert(0, "a"), preexec_fn=limit), (0, answer, b""))
    checks.same(f"dump {what}", run(program, "dump", "few", "1", preexec_fn=limit), (0, texts(1, "a"), b""))


def check_both_fail(checks, program):
    """Where the disk and the output both fail, the store is told first."""
    new_file(program, "both")
    limit = limited(2 * PAGE)["preexec_fn"]

    def close():
        limit()
        os.close(1)

    found = run(program, "edit", "both", lines=insert(0, "a"), preexec_fn=close)
    checks.same("a full disk and no output", found, (1, b"", b"peritext: 9 failed\n"))
    checks.same("the text after it", text_of(program, "both"), "")


def mounted(folder, pages, again=False, more=""):
    """Mounts a disk of so many pages on the folder."""
    options = ("remount," if again else "") + f"size={pages * PAGE}" + more
    subprocess.run(["mount", "-t", "tmpfs", "-o", options, "small", folder], check=True, capture_output=True)


def check_small_disk(checks, program, folder):
    """The same on a small disk in memory, which is mounted here."""
    what = "on a small disk"
    name = os.path.join(folder, "store")
    mounted(folder, 1)
    full_init(checks, program, name, what)
    mounted(folder, 12, again=True)
    room_for_init(checks, program, name, what)
    count = full_edit(checks, program, name, what)
    checks.holds(f"edits {what}: {count}", count > 0)
    mounted(folder, 64, again=True)
    room_for_edit(checks, program, name, what, count)
    mounted(folder, 64, again=True, more=",ro")
    checks.same("dump on a disk that can only be read", text_of(program, name), "g" + "f" * SIZE * count)
    checks.same("edit on a disk that can only be read", run(program, "edit", name, lines=insert(0, "h")), fault(54))
    checks.same("init on a disk that can only be read", run(program, "init", name + "2", "--replica", REPLICA), fault(54))


def check_no_device(checks, program, folder):
    """Without /dev/null no closed stream can be held, so no file is opened."""
    name = os.path.join(folder, "unheld")
    mounted(folder, 64)
    new_file(program, name)
    mounted("/dev", 1)
    checks.same("dump without /dev/null", run(program, "dump", name, "1"), fault(54))
    checks.same("edit without /dev/null", run(program, "edit", name, lines=insert(0, "a")), fault(54))
    checks.same("the file without /dev/null", read(name), MADE)
    os.remove(name)
    checks.same("init without /dev/null", run(program, "init", name, "--replica", REPLICA), fault(54))
    checks.holds("init without /dev/null makes no file", not os.path.exists(name))


def check_mounted(checks, program):
    """Starts this file where mounts are its own, and counts what it found."""
    folder = os.path.abspath("small")
    os.mkdir(folder)
    if not shutil.which("unshare"):
        checks.skip("a small disk", "no unshare here")
        return
    apart = ["unshare", "--mount", "--propagation", "private"] + ([] if os.getuid() == 0 else ["--map-root-user"])
    if subprocess.run([*apart, sys.executable, "-c", ""], capture_output=True, timeout=60).returncode:
        checks.skip("a small disk", "no mounts of one's own here")
        return
    ran = subprocess.run([*apart, sys.executable, os.path.abspath(__file__), program, folder], stdout=subprocess.PIPE, timeout=120)
    lines = ran.stdout.decode().splitlines()
    for told in lines[:-1]:
        print(told)
    checks.same("end of the checks on a small disk", ran.returncode, 0)
    if ran.returncode == 0:
        passed, failed, skipped = map(int, lines[-1].split())
        checks.passed += passed
        checks.failed += failed
        checks.skipped += skipped


def check(checks, program, _until):
    check_limited(checks, program)
    check_few_files(checks, program)
    check_both_fail(checks, program)
    check_mounted(checks, program)


def main():
    # It takes from this file, so it is brought in only where this file is run.
    import ending

    program, folder = sys.argv[1:]
    checks = Checks()
    for check_mount in (check_small_disk, ending.check_on_a_small_disk, check_no_device):
        try:
            check_mount(checks, program, folder)
        except subprocess.CalledProcessError as error:
            checks.skip(check_mount.__name__, error.stderr.decode().strip())
    print(checks.passed, checks.failed, checks.skipped)


if __name__ == "__main__":
    main()
