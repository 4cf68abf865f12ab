"""Runs the program on real files: python3 checks/run.py [PROGRAM [GROUP ..]]. The last line is 'N passed, M failed'.

A group is a file beside this one, named without `.py`: `checks/run.py bin/peritext finding kills` runs these two, one after the other. Without
names all run, in two lanes side by side, since those of daemons mostly wait: each lane is a process, with its own folder and its own ports.
"""

import os
import re
import subprocess
import sys
import tempfile
import time
from concurrent.futures import ThreadPoolExecutor

import asked_fields
import asking
import at_places
import backups
import changes
import checked
import copies
import crafted
import damage
import device_calls
import documents
import documents_told
import each_byte
import edits
import ending
import examples
import exports
import finding
import formats
import full_disk
import idle_links
import imports
import journal
import kills
import last_place
import locks
import long_runs
import long_texts
import lost_files
import mark_kinds
import memory
import noise
import parted_files
import parting
import past
import peers
import places
import put_back
import renewal
import rude
import served_limits
import serving
import session_memory
import streams
import terminal
import tokens
import typed_memory
import watching
import watching_several
import web_pages
import web_sockets
import words
import worst
from program import Checks

LIMIT = 600
# Over files, by command lines and sessions on standard input.
OF_FILES = (
    words, copies, asked_fields, mark_kinds, documents, terminal, examples, exports, imports, checked, long_texts, streams, locks, lost_files,
    full_disk, ending, crafted, formats, long_runs, damage, each_byte, kills, device_calls, tokens, typed_memory, memory,
)
# Over daemons.
OF_DAEMONS = (
    serving, served_limits, asking, journal, web_pages, last_place, peers, places, changes, edits, at_places, finding, documents_told, past, watching,
    watching_several, web_sockets, parting, put_back, backups, parted_files, idle_links, rude, noise, worst, session_memory, renewal,
)
LANES = OF_FILES, OF_DAEMONS
GROUPS = OF_FILES + OF_DAEMONS
# What the process of a lane is told: its number.
LANE = "PERITEXT_LANE"
COUNTS = re.compile(r"(\d+) passed, (\d+) failed\n")


def asked_for(names):
    """The groups of these names, in the order of `GROUPS`."""
    known = {group.__name__: group for group in GROUPS}
    unknown = [name for name in names if name not in known]
    if unknown:
        sys.exit(f"no group of checks is called {', '.join(unknown)}; there are {', '.join(sorted(known))}")
    return [group for group in GROUPS if group.__name__ in names]


def run_groups(program, groups):
    """Runs groups one after another. Gives whether a check failed."""
    started = time.monotonic()
    checks = Checks()
    with tempfile.TemporaryDirectory(prefix="peritext-") as room:
        os.chdir(room)
        for group in groups:
            before = checks.passed, checks.failed, checks.skipped
            group.check(checks, program, started + LIMIT)
            took = time.monotonic() - started
            print(f"{group.__name__}: {checks.passed - before[0]} passed, "
                  f"{checks.failed - before[1]} failed, {checks.skipped - before[2]} skipped, at {took:.0f} s", flush=True)
    print(f"{checks.passed} passed, {checks.failed} failed")
    return checks.failed > 0


def run_lane(program, lane):
    """Runs a lane in a process of its own, and hands its lines on. Gives how many checks passed and failed, and whether it came to its end."""
    words = [sys.executable, os.path.abspath(__file__), program]
    with subprocess.Popen(words, stdout=subprocess.PIPE, text=True, env={**os.environ, LANE: str(lane)}) as process:
        line = ""
        for line in process.stdout:
            if not COUNTS.fullmatch(line):
                sys.stdout.write(line)
                sys.stdout.flush()
    counts = COUNTS.fullmatch(line)
    passed, failed = map(int, counts.groups()) if counts else (0, 0)
    return passed, failed, counts is not None and process.returncode == (failed > 0)


def run_lanes(program):
    """Runs all groups. Gives whether a check failed, or a lane broke off."""
    with ThreadPoolExecutor(len(LANES)) as pool:
        found = list(pool.map(lambda lane: run_lane(program, lane), range(len(LANES))))
    broken = [lane for lane, (_, _, is_whole) in enumerate(found) if not is_whole]
    for lane in broken:
        print(f"FAILED: lane {lane} broke off")
    failed = sum(failed for _, failed, _ in found) + len(broken)
    print(f"{sum(passed for passed, _, _ in found)} passed, {failed} failed")
    return failed > 0


def main():
    program = os.path.abspath(sys.argv[1] if len(sys.argv) > 1 else "bin/peritext")
    if LANE in os.environ:
        return run_groups(program, LANES[int(os.environ[LANE])])
    names = sys.argv[2:]
    return run_groups(program, asked_for(names)) if names else run_lanes(program)


if __name__ == "__main__":
    sys.exit(main())
