"""What a gate costs: runs `rt ci`, and says how long each crate's proof, tests and edits took.

    python3 tools/gate_times.py [NAME ..]        from the project's root; with names, the gate of these crates alone

The lines of `rt ci` go on as they come. It says when a crate is done, and not what it took, so its processes are looked at twice a second:
which crate each is for, and the processor seconds that the system counted for it and for what it started. What ends between two looks is
missing by as much, and what has no crate of its own (running the tests and the programs, copying) is a line by itself.
The table comes last, and also into bin/gate_times.md. The exit status is that of `rt ci`, or 1 if a whole gate passed that took more than MOST_SECONDS.
"""

import collections
import glob
import os
import re
import resource
import signal
import subprocess
import sys
import threading
import time

SECONDS_BETWEEN_LOOKS = 0.5
TICKS_A_SECOND = os.sysconf("SC_CLK_TCK")
TABLE = "bin/gate_times.md"
# What four cores do in the 180 minutes that the judge has. It is raised only with the reason beside it: 21,600 was too low by the machine
# alone. A gate cost 16,005 on one before `changes` came, and one that was ended half way 19,119 on another (2026-11-29, four cores, beside
# other work), where a check of an edit took 60 to 90 seconds in place of 25. Lower it once a whole gate was measured on a machine that is known.
MOST_SECONDS = 43_200

# What a process of the prover works at: a crate's proof, its tests, what its edits begin with, or one edit, by its name.
Work = collections.namedtuple("Work", "crate kind edit")
PROOF, TESTS, BASE, EDIT = "proof", "tests", "base", "edit"
# What started a process, when, and what the system counted for it and for those of its children that ended.
Process = collections.namedtuple("Process", "parent began seconds")


class Spent:
    """What one piece of work took: processor seconds, and when it was seen first and last, in seconds from the start."""

    def __init__(self, now):
        self.first = self.last = now
        self.by_process = {}

    def see(self, process, seconds, now):
        self.last = now
        self.by_process[process] = max(seconds, self.by_process.get(process, 0))

    def seconds(self):
        return sum(self.by_process.values())


def processes():
    """All processes that run now, by their numbers."""
    found = {}
    for path in glob.glob("/proc/[0-9]*/stat"):
        try:
            with open(path, encoding="utf-8", errors="replace") as file:
                # The name stands in brackets, and may have spaces and brackets itself.
                fields = file.read().rpartition(")")[2].split()
            seconds = sum(map(int, fields[11:15])) / TICKS_A_SECOND
            found[int(path.split("/")[2])] = Process(int(fields[1]), fields[19], seconds)
        except (OSError, ValueError, IndexError):
            pass
    return found


def words_of(process):
    """The words that a process was started with, none if it ended meanwhile."""
    try:
        with open(f"/proc/{process}/cmdline", encoding="utf-8", errors="replace") as file:
            return file.read().split("\0")
    except OSError:
        return []


def edits_of(crate):
    """The names of a crate's edits, in the order in which `rt ci` counts them."""
    return [os.path.basename(path)[: -len(".edit")] for path in sorted(glob.glob(f"crates/{crate}/must-fail/*.edit"))]


def is_edited(process):
    """Whether a process works in the folder of a crate with an edit."""
    try:
        return os.path.basename(os.readlink(f"/proc/{process}/cwd")).startswith("rt-edit-")
    except OSError:
        return False


def work_of(process):
    """What a process works at, or nothing where it isn't the prover. An edit that is tried from nothing has no name here, and counts to what
    a crate's edits begin with."""
    words = words_of(process)
    if os.path.basename(words[0] if words else "") != "rattle" or "--crate-name" not in words:
        return None
    crate = words[words.index("--crate-name") + 1]
    begun = words[words.index("--incremental") + 1] if "--incremental" in words else ""
    if "/rt-edits-" in begun:
        number = os.path.basename(begun)
        edits = edits_of(crate)
        if number.isdigit() and int(number) < len(edits):
            return Work(crate, EDIT, edits[int(number)])
    if is_edited(process):
        return Work(crate, BASE, "")
    return Work(crate, TESTS if "--test" in words else PROOF, "")


def seconds_of(process, found, children):
    """The seconds of a process and of all that it started, whether that runs or has ended."""
    return found[process].seconds + sum(seconds_of(it, found, children) for it in children[process])


class Watch:
    """Looks at what runs below one process, until that has ended."""

    def __init__(self, root):
        self.root = root
        self.start = time.monotonic()
        self.works = {}
        self.spent = {}
        self.ended = threading.Event()
        self.thread = threading.Thread(target=self.look_on, daemon=True)
        self.thread.start()

    def look_on(self):
        while not self.ended.wait(SECONDS_BETWEEN_LOOKS):
            self.look()

    def look(self):
        now = time.monotonic() - self.start
        found = processes()
        children = collections.defaultdict(list)
        for process, at in found.items():
            children[at.parent].append(process)
        waiting = list(children[self.root])
        while waiting:
            process = waiting.pop()
            known = process, found[process].began
            work = self.work(*known)
            if work is None:
                waiting += children[process]
            else:
                seconds = seconds_of(process, found, children)
                self.spent.setdefault(work, Spent(now)).see(known, seconds, now)

    def work(self, process, began):
        """What a process works at. It is asked anew until it is known, since a process begins as its parent's copy."""
        if (process, began) not in self.works:
            work = work_of(process)
            if work is None:
                return None
            self.works[process, began] = work
        return self.works[process, began]

    def end(self):
        self.ended.set()
        self.thread.join()


def crate_rows(spent):
    """The crates, the dearest first: seconds of the proof, the tests, the edits with what they begin with, how many edits, and the minutes in which
    the crate was worked at."""
    rows = []
    for crate in {work.crate for work in spent}:
        own = {work: it for work, it in spent.items() if work.crate == crate}
        by_kind = collections.Counter()
        for work, it in own.items():
            by_kind[EDIT if work.kind == BASE else work.kind] += it.seconds()
        edits = sum(work.kind == EDIT for work in own)
        first, last = min(it.first for it in own.values()), max(it.last for it in own.values())
        rows.append((crate, by_kind[PROOF], by_kind[TESTS], by_kind[EDIT], edits, first, last))
    return sorted(rows, key=lambda row: -sum(row[1:4]))


def table(spent, wall, processor):
    """The lines of the table."""
    rows = crate_rows(spent)
    lines = ["| Crate | proof | tests | edits | sum | from | to |", "|---|---|---|---|---|---|---|"]
    for crate, proof, tests, edits, count, first, last in rows:
        of_edits = f"{edits:,.0f} ({count})" if count else ""
        of_tests = f"{tests:,.0f}" if tests else ""
        sums = proof + tests + edits
        lines.append(f"| {crate} | {proof:,.0f} | {of_tests} | {of_edits} | {sums:,.0f} | {first / 60:.1f} | {last / 60:.1f} |")
    proof, tests, edits, count = (sum(row[at] for row in rows) for at in (1, 2, 3, 4))
    seen = proof + tests + edits
    lines.append(f"| all | {proof:,.0f} | {tests:,.0f} | {edits:,.0f} ({count}) | {seen:,.0f} | | {wall / 60:.1f} |")
    lines.append(f"| builds, runs and copies | | | | {max(processor - seen, 0):,.0f} | | |")
    return lines


def edit_lines(spent):
    """The edits, the dearest first."""
    edits = sorted((it.seconds(), work) for work, it in spent.items() if work.kind == EDIT)
    lines = ["| Edit | seconds |", "|---|---|"]
    return lines + [f"| {work.crate}/{work.edit} | {seconds:,.0f} |" for seconds, work in reversed(edits)]


def report(spent, wall, processor):
    """What is printed at the end."""
    cores = os.cpu_count()
    lines = [f"The gate took {wall / 60:.1f} minutes on {cores} cores, and {processor:,.0f} processor seconds:"]
    lines += ["processor seconds by crate, and the minutes in which it was worked at.", "", *table(spent, wall, processor)]
    if any(work.kind == EDIT for work in spent):
        lines += ["", *edit_lines(spent)]
    return lines


def too_long(names, processor):
    """What is said of a gate of all crates that took too long, or nothing. What was kept from earlier runs only makes it shorter."""
    if names or processor <= MOST_SECONDS:
        return None
    return (
        f"FAILED: the gate took {processor:,.0f} processor seconds, and {MOST_SECONDS:,} are the most that MOST_SECONDS in tools/gate_times.py allows"
        " (a slower machine may need a tenth more)."
    )


def main():
    start = time.monotonic()
    environment = {**os.environ, "PYTHONUNBUFFERED": "1"}
    gate = subprocess.Popen(["rt", "ci", *sys.argv[1:]], stdout=subprocess.PIPE, stderr=subprocess.STDOUT, env=environment)
    # Ctrl-C reaches the gate too; whoever ends this process alone means the gate.
    signal.signal(signal.SIGINT, lambda *_: None)
    signal.signal(signal.SIGTERM, lambda *_: gate.terminate())
    watch = Watch(gate.pid)
    for line in gate.stdout:
        sys.stdout.buffer.write(line)
        sys.stdout.buffer.flush()
    status = gate.wait()
    watch.end()
    counted = resource.getrusage(resource.RUSAGE_CHILDREN)
    processor = counted.ru_utime + counted.ru_stime
    lines = report(watch.spent, time.monotonic() - start, processor)
    print("\n".join(lines))
    os.makedirs(os.path.dirname(TABLE), exist_ok=True)
    with open(TABLE, "w", encoding="utf-8") as file:
        file.write("\n".join(lines) + "\n")
    if why := too_long(sys.argv[1:], processor):
        print(why)
        status = status or 1
    return status if status >= 0 else 128 - status


if __name__ == "__main__":
    sys.exit(main())
