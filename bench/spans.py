"""How long a session takes to answer `spans` and `text` of documents of 10^3 to 10^6 characters with 0 to 10,000 marks.

python3 bench/spans.py PROGRAM. Files are in memory (/dev/shm). Marks go over random stretches: strong, em, links and comments in turn.
"""

import os
import random
import sys
import tempfile

import store_file
from session import Session, quantile

COUNTS = (1_000, 10_000, 100_000, 1_000_000)
MARKS = (0, 100, 1_000, 10_000)
READS = 5


def mark(number, count, chance):
    """The fields of the request that makes a mark of this number in a text of so many characters."""
    first = chance.randrange(count - 1)
    behind = min(count, first + 1 + chance.randrange(50))
    kind = ("strong", "em", "link", "comment")[number % 4]
    more = {"link": {"url": f"u{number}"}, "comment": {"id": f"00000000-0000-4000-8000-{number:012x}"}}.get(kind, {})
    return {"op": "mark", "doc": 1, "from": first, "to": behind, "kind": kind, **more}


def measure(program, room, count):
    name = os.path.join(room, "store")
    store_file.make(name, count)
    session, chance, made = Session(program, name), random.Random(5), 0
    for marks in MARKS:
        while made < marks:
            session.answered(**mark(made, count, chance))
            made += 1
        text = [session.answered(op="text", doc=1)[1] for _ in range(READS)]
        spans = [session.answered(op="spans", doc=1)[1] for _ in range(READS)]
        print(f"{count:7} characters, {marks:5} marks: text {quantile(text, 0.5) * 1e3:8.2f} ms, spans {quantile(spans, 0.5) * 1e3:8.2f} ms")
    session.end()


def main():
    program = os.path.abspath(sys.argv[1])
    with tempfile.TemporaryDirectory(dir="/dev/shm") as room:
        for count in COUNTS:
            measure(program, room, count)


if __name__ == "__main__":
    main()
