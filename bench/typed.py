"""A text typed as people type it, 100,000 edits through one session, beside Yjs in memory on the same edits.

python3 bench/typed.py PROGRAM. The session is over a file in memory (/dev/shm) and gets its lines from another one; each edit is
committed before its answer. Runs of 1 to 40 characters at a caret, of which each fourth ends in a correction (the last few are deleted and
typed again), and then a jump: mostly a short one, sometimes to another place of the text. One run in ten ends in a paste of up to 200
characters, one in fourteen in a delete of up to 60. Each program has three runs, in turn; the least time counts.
"""

import json
import os
import random
import subprocess
import sys
import tempfile
import time

import yjs

EDITS = 100_000
RUNS = 3
REPLICA = "00000000-0000-4000-8000-000000000001"
LETTERS = "etaoin shrdlu, etaoin shrdlu. "


class Text:
    """A caret in a text, of which only the length is kept, and the edits made."""

    def __init__(self):
        self.chance, self.long, self.caret, self.lines = random.Random(6), 0, 0, []

    def insert(self, text):
        self.lines.append({"op": "insert", "doc": 1, "at": self.caret, "text": text})
        self.long += len(text)
        self.caret += len(text)

    def delete(self, count):
        """Deletes characters before the caret, one key at a time or a selection at once."""
        self.caret -= count
        self.long -= count
        self.lines.append({"op": "delete", "doc": 1, "at": self.caret, "count": count})

    def jump(self):
        far = self.chance.random() < 0.2
        near = self.caret + self.chance.randrange(-80, 81)
        self.caret = self.chance.randrange(self.long + 1) if far else max(0, min(self.long, near))

    def run(self):
        for _ in range(self.chance.randrange(1, 41)):
            self.insert(self.chance.choice(LETTERS))
        if self.chance.random() < 0.25:
            wrong = min(self.caret, self.chance.randrange(1, 7))
            for _ in range(wrong):
                self.delete(1)
            for _ in range(wrong):
                self.insert(self.chance.choice(LETTERS))
        if self.chance.random() < 0.1:
            self.insert("".join(self.chance.choices(LETTERS, k=self.chance.randrange(2, 201))))
        if self.chance.random() < 0.07 and self.caret > 60:
            self.delete(self.chance.randrange(2, 61))
        self.jump()


def typed():
    text = Text()
    while len(text.lines) < EDITS:
        text.run()
    return text.lines[:EDITS]


def session(program, room, lines):
    """How long a session takes from its start to its end, and the length of the text."""
    name = os.path.join(room, "store")
    if os.path.exists(name):
        os.remove(name)
    subprocess.run([program, "init", name, "--replica", REPLICA], check=True, stdout=subprocess.DEVNULL)
    with open(lines, "rb") as asked, open(os.path.join(room, "answers"), "wb") as answers:
        started = time.perf_counter()
        subprocess.run([program, "edit", name], check=True, stdin=asked, stdout=answers)
        took = time.perf_counter() - started
    dumped = subprocess.run([program, "dump", name, "1"], check=True, stdout=subprocess.PIPE).stdout
    return took, len(json.loads(dumped.split(b"\n")[0])["text"])


def main():
    program = os.path.abspath(sys.argv[1])
    with tempfile.TemporaryDirectory(dir="/dev/shm") as room:
        lines = os.path.join(room, "lines")
        with open(lines, "w", encoding="utf-8") as out:
            out.writelines(json.dumps(line) + "\n" for line in typed())
        runs = {"peritext, a session": lambda: session(program, room, lines)}
        if yjs.is_there():
            runs["Yjs in memory"] = lambda: yjs.run("lines", lines)
        found = {name: [] for name in runs}
        for _ in range(RUNS):
            for name, run in runs.items():
                found[name].append(run())
    if len({long for times in found.values() for _, long in times}) != 1:
        raise SystemExit(f"the texts differ in length: {found}")
    for name, times in found.items():
        print(f"{name:20} {EDITS / min(took for took, _ in times):9.0f} edits /s")


if __name__ == "__main__":
    main()
