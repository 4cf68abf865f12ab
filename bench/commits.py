"""Durable edits a second, beside sqlite3 and beside the same device calls made by this script, interleaved in one run.

python3 bench/commits.py PROGRAM [FOLDER]. The files are made in FOLDER (here, if none is given), so name one on the disk that is to
be measured. Nothing of this is part of the gate.
"""

import os
import sqlite3
import sys
import tempfile
import time

import store_file
from session import Session, told

ROUNDS = 10
EDITS = 40
PAGE = 4096


def open_sqlite(name, mode):
    base = sqlite3.connect(name, isolation_level=None)
    base.execute(f"pragma journal_mode={mode}")
    base.execute("pragma synchronous=full")
    base.execute("create table edits (id integer primary key, text text)")
    return base


def sqlite_round(base):
    times = []
    for _ in range(EDITS):
        started = time.perf_counter()
        base.execute("insert into edits (text) values ('x')")
        times.append(time.perf_counter() - started)
    return times


class Floor:
    """The writes and syncs of a commit of one character: two pages, close, sync, body, sync, gate, sync."""

    def __init__(self, name):
        self.file = os.open(name, os.O_RDWR | os.O_CREAT)
        os.pwrite(self.file, bytes(8 * PAGE), 0)
        os.fsync(self.file)
        self.turn = 0

    def commit(self):
        slot, first = self.turn % 2, 2 + 2 * (self.turn % 2)
        os.pwrite(self.file, b"d" * PAGE, first * PAGE)
        os.pwrite(self.file, b"t" * PAGE, first * PAGE + PAGE)
        os.pwrite(self.file, b"\0", slot * PAGE)
        os.fdatasync(self.file)
        os.pwrite(self.file, b"b" * 4088, slot * PAGE + 8)
        os.fdatasync(self.file)
        os.pwrite(self.file, b"\1", slot * PAGE)
        os.fdatasync(self.file)
        self.turn += 1

    def round(self):
        times = []
        for _ in range(EDITS):
            started = time.perf_counter()
            self.commit()
            times.append(time.perf_counter() - started)
        return times


def edit_round(session, doc):
    return [session.insert(0, "x", doc) for _ in range(EDITS)]


def main():
    program = os.path.abspath(sys.argv[1])
    with tempfile.TemporaryDirectory(dir=sys.argv[2] if len(sys.argv) > 2 else ".") as room:
        path = lambda name: os.path.join(room, name)
        os.system(f"{program} init {path('empty')} --replica 00000000-0000-4000-8000-000000000001 > /dev/null")
        store_file.make(path("large"), 100_000)
        rollback, wal = open_sqlite(path("rollback"), "delete"), open_sqlite(path("wal"), "wal")
        floor = Floor(path("floor"))
        empty, large = Session(program, path("empty")), Session(program, path("large"))
        large.insert(0, "x", 2)
        found = {name: [] for name in ("floor", "empty", "large", "document", "rollback", "wal")}
        for _ in range(ROUNDS):
            found["floor"] += floor.round()
            found["empty"] += edit_round(empty, 1)
            found["large"] += edit_round(large, 2)
            found["document"] += edit_round(large, 1)
            found["rollback"] += sqlite_round(rollback)
            found["wal"] += sqlite_round(wal)
        empty.end()
        large.end()
        base = told("the same device calls", found["floor"])
        for what, name in [
            ("peritext, a new file", "empty"), ("100,000 operations, a small document", "large"), ("and their document", "document"),
            ("sqlite3, rollback journal", "rollback"), ("sqlite3, WAL", "wal"),
        ]:
            rate = told(what, found[name])
            print(f"{'':38} {rate / base:9.2f} of the device calls")


if __name__ == "__main__":
    main()
