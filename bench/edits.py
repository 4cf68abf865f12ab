"""Edits and merges a second on documents of 10^3 to 10^6 characters: at the end, at the front and at random places; pastes and deletes of
256 characters; edits beside up to 10^6 tombstones; and merges of three replicas that type at once at distant places. Beside each case but
those with tombstones Yjs in memory on the same edits, where Debian's node-yjs is there.

python3 bench/edits.py PROGRAM [MERGES], where MERGES is what `python3 tools/benches.py merge_bench` builds, bin/merge_bench. Edits go through
sessions over files in memory (/dev/shm), so that the disk costs little. Merges are made in one process without a disk, the least time of three runs.
"""

import os
import random
import subprocess
import sys
import tempfile
import time

import store_file
import yjs
from session import Session, told

COUNTS = (1_000, 10_000, 100_000, 1_000_000)
PLACES = ("end", "front", "random")
EDITS = 200
MERGES = 30_000
PASTES = 40
PASTED = 256


def measure_edits(program):
    chance = random.Random(3)
    with tempfile.TemporaryDirectory(dir="/dev/shm") as room:
        for count in COUNTS:
            for place in PLACES:
                name = os.path.join(room, "store")
                store_file.make(name, count)
                session, times = Session(program, name), []
                session.insert(0, "x")
                for length in range(count + 1, count + 1 + EDITS):
                    at = {"end": length, "front": 0, "random": chance.randrange(length + 1)}[place]
                    times.append(session.insert(at, "y"))
                session.end()
                told(f"{count} characters, at the {place}", times)
                yjs.told("edits", count, place, EDITS)


def measure_pastes(program):
    """Texts of 256 characters that are put in and taken away again, in turn."""
    chance = random.Random(4)
    with tempfile.TemporaryDirectory(dir="/dev/shm") as room:
        for count in COUNTS:
            for place in PLACES:
                name = os.path.join(room, "store")
                store_file.make(name, count)
                session, pastes, deletes = Session(program, name), [], []
                session.insert(0, "x")
                for _ in range(PASTES):
                    at = {"end": count + 1, "front": 0, "random": chance.randrange(count + 1)}[place]
                    pastes.append(session.insert(at, "y" * PASTED))
                    deletes.append(session.delete(at, PASTED))
                session.end()
                told(f"{count} characters, pastes at the {place}", pastes)
                told(f"{count} characters, deletes at the {place}", deletes)
                yjs.told("pastes", count, place, PASTES)


def measure_tombstones(program):
    """Deletes of the character behind tombstones, and inserts before them: of the text the middle was removed. The first case has few."""
    with tempfile.TemporaryDirectory(dir="/dev/shm") as room:
        for count in (2,) + COUNTS:
            name = os.path.join(room, "store")
            store_file.make(name, count)
            session, inserts, deletes = Session(program, name), [], []
            session.insert(count, "y" * EDITS)
            for left in range(count - 1, 0, -PASTED):
                session.delete(1, min(left, PASTED))
            for _ in range(EDITS):
                deletes.append(session.delete(1, 1))
            for _ in range(EDITS):
                inserts.append(session.insert(1, "y"))
                session.delete(1, 1)
            session.end()
            told(f"{count - 1} tombstones, deletes behind", deletes)
            told(f"{count - 1} tombstones, inserts before", inserts)


def merging(program, count, place):
    """The least time of three runs from the line `ready` to the next one: merges alone, all before them is done by then."""
    times = []
    for _ in range(3):
        with subprocess.Popen([program], stdin=subprocess.PIPE, stdout=subprocess.PIPE) as run:
            run.stdin.write(f"{count} {place} {MERGES}\n".encode())
            run.stdin.close()
            ready = run.stdout.readline()
            started = time.perf_counter()
            told = run.stdout.readline()
            times.append(time.perf_counter() - started)
        if (ready, told) != (b"ready\n", b"%d\n" % (count + MERGES)):
            raise SystemExit(f"the program said {ready} and {told}")
    return min(times)


def measure_merges(program):
    for count in COUNTS:
        for place in PLACES + ("three",):
            took = merging(program, count, place)
            print(f"{count} characters, merges at the {place:6} {MERGES / took:12.0f} /s   {took / MERGES * 1e6:8.2f} us")
            yjs.told("merges", count, place, MERGES)


def main():
    measure_edits(os.path.abspath(sys.argv[1]))
    measure_pastes(os.path.abspath(sys.argv[1]))
    measure_tombstones(os.path.abspath(sys.argv[1]))
    if len(sys.argv) > 2:
        measure_merges(os.path.abspath(sys.argv[2]))


if __name__ == "__main__":
    main()
