"""What a mark costs beside those that are there: in a text of 100,000 characters with up to 100,000 marks, which are put in at the front,
at random places, or all over one stretch; and what a character costs that is typed at the end of it.

python3 bench/marks.py PROGRAM [PROGRAM ..] [--most MARKS]. Each program in turn over a file of its own in memory (/dev/shm), so that the
disk costs little; each mark is committed before its answer. The figures are medians of the last 200 before a count is reached.
"""

import argparse
import os
import random
import tempfile

import store_file
from session import Session, quantile

COUNT = 100_000
COUNTS = (1_000, 10_000, 30_000, 100_000)
SHAPES = ("front", "random", "stretch")
LAST = 200


def stretch(shape, number, chance):
    """Where the mark of this number begins and ends, in visible characters."""
    if shape == "front":
        first = max(0, COUNT - 2 - number % (COUNT - 2))
        return first, first + 1
    if shape == "random":
        first = chance.randrange(COUNT - 60)
        return first, first + 1 + chance.randrange(50)
    return 1_000, 1_050


def measure(program, shape, most):
    chance = random.Random(7)
    with tempfile.TemporaryDirectory(dir="/dev/shm") as room:
        name = os.path.join(room, "store")
        store_file.make(name, COUNT)
        session, made = Session(program, name), 0
        for count in (count for count in COUNTS if count <= most):
            marks = []
            for made in range(made, count):
                first, behind = stretch(shape, made, chance)
                answer, took = session.ask(**{"op": "mark", "doc": 1, "from": first, "to": behind, "kind": ("strong", "em")[made % 2]})
                if not answer["ok"]:
                    raise SystemExit(f"a mark was refused: {answer}")
                marks.append(took)
            made = count
            keys = [session.insert(COUNT, "y") for _ in range(LAST)]
            for _ in range(LAST):
                session.delete(COUNT, 1)
            spans = session.ask(op="spans", doc=1)[1]
            print(f"{os.path.basename(os.path.dirname(program)) or program:12} {shape:8} {count:7} marks: "
                  f"a mark {quantile(marks[-LAST:], 0.5) * 1e6:7.0f} us, p99 {quantile(marks[-LAST:], 0.99) * 1e6:7.0f} us, "
                  f"a character {quantile(keys, 0.5) * 1e6:6.0f} us, spans {spans * 1e3:7.1f} ms", flush=True)
        session.end()


def main():
    asked = argparse.ArgumentParser()
    asked.add_argument("programs", nargs="+")
    asked.add_argument("--most", type=int, default=COUNTS[-1])
    asked = asked.parse_args()
    for shape in SHAPES:
        for program in asked.programs:
            measure(os.path.abspath(program), shape, asked.most)


if __name__ == "__main__":
    main()
