"""Time and memory of opening files of many operations: python3 bench/open.py PROGRAM [--before PROGRAM] [FOLDER [COUNT ..]].

The files are of 10^4, 10^5 and 10^6 inserts of one replica, typed at the end, at the front, at random places, and in 1,000
documents in turn. Each is opened by a dump of a document that has no operations, five times, by turns with the program before,
if one is named; the middle one is told. The memory is the greatest resident set of the program, for each operation in all and beside
its record in the file; and then what a session that opened the file holds, for each operation in all."""

import argparse
import multiprocessing
import os
import subprocess
import sys
import tempfile
import time

import store_file
from memory import resident
from session import Session

ROUNDS = 5
COUNTS = (10_000, 100_000, 1_000_000)


def make(name, count, shape, has_tokens=False):
    """Makes a file in a process of its own, whose memory the opening doesn't inherit."""
    maker = multiprocessing.get_context("spawn").Process(target=store_file.make, args=(name, count, shape, has_tokens))
    maker.start()
    maker.join()


def opened(program, name):
    """The seconds and the bytes of memory that a dump takes, and its status."""
    started = time.perf_counter()
    run = subprocess.Popen([program, "dump", name, "2000"], stdout=subprocess.DEVNULL, stderr=subprocess.DEVNULL)
    _, status, usage = os.wait4(run.pid, 0)
    return time.perf_counter() - started, usage.ru_maxrss * 1024, os.waitstatus_to_exitcode(status)


def held(program, name):
    """The resident memory of a session that has opened the file."""
    session = Session(program, name)
    session.ask(op="status")
    memory = resident(session.run.pid)
    session.end()
    return memory


def middle(runs):
    return sorted(runs)[len(runs) // 2]


def main():
    words = argparse.ArgumentParser(description=__doc__, formatter_class=argparse.RawDescriptionHelpFormatter)
    words.add_argument("program")
    words.add_argument("--before", metavar="PROGRAM")
    words.add_argument("folder", nargs="?", default=".")
    words.add_argument("counts", nargs="*", type=int, metavar="COUNT")
    given = words.parse_intermixed_args()
    programs = {"now": given.program, **({"before": given.before} if given.before else {})}
    with tempfile.TemporaryDirectory(dir=given.folder) as room:
        for shape in store_file.SHAPES:
            for count in given.counts or COUNTS:
                name = os.path.join(room, str(count))
                make(name, count, shape)
                size = os.path.getsize(name)
                runs = {when: [] for when in programs}
                for _ in range(ROUNDS):
                    for when, program in programs.items():
                        runs[when].append(opened(os.path.abspath(program), name))
                for when, found in runs.items():
                    took, memory = middle([run[0] for run in found]), middle([run[1] for run in found])
                    print(
                        f"{shape:9} {count:9} operations, {size:11} bytes, {when:6}: {took:7.3f} s, {took / count * 1e6:6.2f} us and "
                        f"{memory / count:5.0f} bytes of memory an operation, {(memory - size) / count:5.0f} beside its record, "
                        f"{held(os.path.abspath(programs[when]), name) / count:5.0f} once it is open, "
                        f"statuses {sorted({run[2] for run in found})}",
                        flush=True,
                    )
                os.remove(name)


if __name__ == "__main__":
    main()
