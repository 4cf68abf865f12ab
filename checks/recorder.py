"""Runs of the program whose calls are recorded, and what is found in the records."""

import json
import os
import random

from call_order import Record, faults
from daemon import Daemon
from left_files import left
from program import REPLICA, read, run
from recorded import Ears, around, events

OTHER = REPLICA[:-1] + "2"
STOPPED = ({"ok": True}, (0, b"", b""))
# How many files are kept of a record, for the program to look at.
KEPT = 40


class Recorder:
    """Runs of the program whose calls are recorded, and what was found in the records."""

    def __init__(self, checks, program, library, seed):
        self.checks, self.program, self.library, self.chance = checks, program, library, random.Random(seed)
        self.folder = f"folder:{os.stat('.').st_ino}"
        self.records, self.files, self.count = {}, [], 0

    def around(self, name, **more):
        return around(self.library, name + ".calls", **more)

    def begin(self, name):
        """No record and no file of this name."""
        for it in (name, name + ".calls"):
            if os.path.exists(it):
                os.remove(it)

    def two(self, names):
        """New files of two replicas: what is in them."""
        data = {}
        for name, maker in zip(names, (REPLICA, OTHER)):
            self.begin(name)
            run(self.program, "init", name, "--replica", maker)
            data[name] = read(name)
        return data

    def ended(self, what, name, data, kept=KEPT, **how):
        """A record that has ended is judged: the order, what was said, and what power cuts leave. `data` is the file before it."""
        found = Record(events(name + ".calls"), name, f"file:{os.stat(name).st_ino}", self.folder, data, **how)
        self.records[what] = found
        self.checks.same(f"{what}: the calls", faults(found)[:5], [])
        replay = found.replay()
        for it in found.events:
            replay.take(it)
        self.checks.holds(f"{what}: the writes that were recorded make the file", bytes(replay.now) == read(name))
        count, files, wrong = left(found, read(name), self.chance, kept)
        self.checks.same(f"{what}: what cuts leave, of {count} files", wrong[:5], [])
        self.count += count
        self.files += [(f"{what}, moment {number}", it) for number, it in files]
        return found

    def edited(self, name, lines, **more):
        """A session of a file."""
        return run(self.program, "edit", name, lines=b"".join(lines), env=self.around(name, **more))

    def serving(self, name, link=None):
        """A daemon over a file of its own that is there."""
        return Daemon(self.program, name, link=link, env=self.around(name))


def answered(checks, what, recorded, found):
    """The record has the answers that were given."""
    ears = Ears(recorded.links)
    for it in recorded.events:
        ears.take(it)
    told = [talk.answers for talk in ears.heard.values() if getattr(talk, "answers", None)]
    checks.same(f"{what}: the answers in the record", sorted(map(json.dumps, told)), sorted(map(json.dumps, found)))
