"""What several edits in one line take: python3 bench/lists.py PROGRAM [LENGTH..].

In texts of so many characters (10,000 and 100,000), over a file in memory that is served, by turns: an insert of one character; a line of a delete, an
insert and a mark; a line of 64 inserts of one character. Then, over a file in memory and one on the disk of this folder, 100,000 characters that are
typed in a file of their own, each in a line of its own or 64 in one, and a million that are pasted in lines of 60,000 bytes.
"""

import json
import os
import socket
import subprocess
import sys
import tempfile
import time

from session import Session, told

REPLICA = "00000000-0000-4000-8000-000000000001"
PORTS = 31_801, 31_802
TURNS, TYPED, TOGETHER = 100, 100_000, 64
LONG, LONGS = 256, 200
PASTED, IN_A_LINE = 1_000_000, 200


class Served(Session):
    """A session with a daemon."""

    def __init__(self, program, name):
        words = [program, "serve", name, "--sessions", str(PORTS[0]), "--peers", str(PORTS[1])]
        self.daemon = subprocess.Popen(words)
        while True:
            try:
                self.socket = socket.create_connection(("127.0.0.1", PORTS[0]))
                break
            except ConnectionRefusedError:
                time.sleep(0.01)
        self.socket.setsockopt(socket.IPPROTO_TCP, socket.TCP_NODELAY, 1)
        self.file = self.socket.makefile("rwb")

    def ask(self, **fields):
        started = time.perf_counter()
        self.file.write(json.dumps(fields).encode() + b"\n")
        self.file.flush()
        answer = self.file.readline()
        return json.loads(answer), time.perf_counter() - started

    def end(self):
        self.ask(op="stop")
        self.socket.close()
        self.daemon.wait()


def typed(at, text="x"):
    return {"op": "insert", "at": at, "text": text}


def fill(session, length):
    """Types a text of this length."""
    while length:
        count = min(LONGS, -(-length // LONG))
        made = [typed(0, "y" * min(LONG, length - LONG * at)) for at in range(count)]
        session.answered(op="edits", doc=1, edits=made)
        length -= sum(len(it["text"]) for it in made)


def in_text(program, name, length):
    session = Served(program, name)
    fill(session, length)
    half = length // 2
    three = [{"op": "delete", "at": half, "count": 3}, typed(half, "TWO"), {"op": "mark", "from": half, "to": half + 3, "kind": "strong"}]
    took = {"one insert": [], "three edits": [], "64 inserts": []}
    for turn in range(TURNS):
        took["one insert"].append(session.answered(op="insert", doc=1, at=half, text="x")[1])
        took["three edits"].append(session.answered(op="edits", doc=1, edits=three)[1])
        took["64 inserts"].append(session.answered(op="edits", doc=1, edits=[typed(half + at) for at in range(TOGETHER)])[1])
    session.end()
    for what, times in took.items():
        told(f"{length} characters, {what}", times)


def typing(program, name, together, where):
    session = Session(program, name)
    started = time.perf_counter()
    for first in range(0, TYPED, together):
        places = range(first, min(first + together, TYPED))
        if together > 1:
            session.answered(op="edits", doc=1, edits=[typed(at) for at in places])
        else:
            session.answered(op="insert", doc=1, at=first, text="x")
    session.end()
    print(f"{where}, {TYPED} characters, {together} in a line: {time.perf_counter() - started:.1f} s", flush=True)


def pasting(program, name, where):
    session = Session(program, name)
    started = time.perf_counter()
    for line in range(PASTED // LONG // IN_A_LINE):
        session.answered(op="edits", doc=1, edits=[typed(LONG * at, "y" * LONG) for at in range(IN_A_LINE)])
    session.end()
    print(f"{where}, {PASTED // LONG // IN_A_LINE * IN_A_LINE * LONG} characters pasted: {time.perf_counter() - started:.2f} s", flush=True)


def main():
    program = os.path.abspath(sys.argv[1])
    lengths = [int(word) for word in sys.argv[2:]] or (10_000, 100_000)
    for folder, where in (("/dev/shm", "in memory"), (".", "on the disk")):
        with tempfile.TemporaryDirectory(dir=folder) as room:
            names = (os.path.join(room, str(number)) for number in range(99))
            for length in lengths if where == "in memory" else ():
                in_text(program, new(program, next(names)), length)
            for together in (1, TOGETHER):
                typing(program, new(program, next(names)), together, where)
            pasting(program, new(program, next(names)), where)


def new(program, name):
    subprocess.run([program, "init", name, "--replica", REPLICA], check=True, stdout=subprocess.DEVNULL)
    return name


if __name__ == "__main__":
    main()
