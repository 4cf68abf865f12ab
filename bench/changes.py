"""How long a session takes to tell what changed in a document of 10^3 to 10^6 characters with 0 to 10,000 marks, beside its text.

python3 bench/changes.py PROGRAM [--most CHARACTERS]. Files are in memory (/dev/shm), characters typed at the end. Changed have since one typed
character, ten at ten places, and a mark over 50; then the text is read. The aims are 100 us for one character and 300 us for ten. Where
Debian's node-yjs is there, Yjs in memory applies such updates of another replica, and tells the delta of each.
"""

import argparse
import os
import random
import tempfile

import store_file
import yjs
from session import Session, quantile
from spans import COUNTS, MARKS, mark

READS, TEXTS = 100, 5


def typed(session, count, chance, places):
    """Types a character at each of so many random places, and gives the number of operations before."""
    answer = None
    for _ in range(places):
        answer, _ = session.answered(op="insert", doc=1, at=chance.randrange(count), text="y")
    return answer["rev"] - places


def marked(session, count, chance):
    start = chance.randrange(count - 50)
    answer, _ = session.answered(op="mark", doc=1, **{"from": start}, to=start + 50, kind="strong")
    return answer["rev"] - 1


def changed(session, since):
    """How long `changes` took, and whether they are few steps."""
    answer, took = session.answered(op="changes", doc=1, since=since)
    if len(answer["changes"]) > 60:
        raise SystemExit(f"many steps since {since}: {answer}")
    return took


def measure(program, room, count):
    name = os.path.join(room, "store")
    store_file.make(name, count)
    session, chance, made = Session(program, name), random.Random(17), 0
    session.answered(op="text", doc=1)
    for marks in MARKS:
        while made < marks:
            session.answered(**mark(made, count, chance))
            made += 1
        cases = (
            ("a character", lambda: typed(session, count, chance, 1)),
            ("ten places", lambda: typed(session, count, chance, 10)),
            ("a mark", lambda: marked(session, count, chance)),
        )
        said = [f"{count:7} characters, {marks:5} marks:"]
        for what, change in cases:
            times = [changed(session, change()) for _ in range(READS)]
            said.append(f"{what} p50 {quantile(times, 0.5) * 1e6:6.0f} us p99 {quantile(times, 0.99) * 1e6:6.0f} us,")
        texts = [session.answered(op="text", doc=1)[1] for _ in range(TEXTS)]
        for what, places in (("a character", 1), ("ten places", 10)):
            if yjs.is_there():
                said.append(f"Yjs for {what} {yjs.run('changes', count, marks, places, READS)[0] / READS * 1e6:6.0f} us,")
        print(*said, f"the text {quantile(texts, 0.5) * 1e6:6.0f} us", flush=True)
    session.end()


def main():
    asked = argparse.ArgumentParser()
    asked.add_argument("program")
    asked.add_argument("--most", type=int, default=COUNTS[-1])
    asked = asked.parse_args()
    with tempfile.TemporaryDirectory(dir="/dev/shm") as room:
        for count in (count for count in COUNTS if count <= asked.most):
            measure(os.path.abspath(asked.program), room, count)


if __name__ == "__main__":
    main()
