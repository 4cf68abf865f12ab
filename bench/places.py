"""How long a session takes to name 256 random places of a document of 10^3 to 10^6 characters, and to tell where they are by then.

python3 bench/places.py PROGRAM [--most CHARACTERS]. Files are in memory (/dev/shm). The characters came at the end each, or at random places.
After each answer a character is typed at the start, so that all places move. The aim is 200 us for the `places`.
"""

import argparse
import os
import random
import tempfile

import store_file
from session import Session, quantile

COUNTS = (1_000, 10_000, 100_000, 1_000_000)
SHAPES = ("end", "random")
PLACES = 256
READS = 200


def measure(program, room, count, shape):
    name = os.path.join(room, "store")
    store_file.make(name, count, shape)
    session, chance, named, told = Session(program, name), random.Random(13), [], []
    for number in range(READS):
        # So many characters were typed before.
        at = [number + chance.randrange(count + 1) for _ in range(PLACES)]
        answer, took = session.answered(op="anchors", doc=1, at=at, side=("previous", "next")[number % 2])
        named.append(took)
        session.insert(0, "x")
        where, took = session.answered(op="places", doc=1, anchors=answer["anchors"])
        told.append(took)
        if where["places"] != [place + 1 if place or number % 2 else 0 for place in at]:
            raise SystemExit(f"{at} came to be {where['places']}")
    session.end()
    for what, times in (("anchors", named), ("places", told)):
        p50, p99 = quantile(times, 0.5) * 1e6, quantile(times, 0.99) * 1e6
        print(f"{count:7} characters, at {shape:6}: {what:7} of {PLACES}: p50 {p50:8.0f} us   p99 {p99:8.0f} us", flush=True)


def main():
    asked = argparse.ArgumentParser()
    asked.add_argument("program")
    asked.add_argument("--most", type=int, default=COUNTS[-1])
    asked = asked.parse_args()
    with tempfile.TemporaryDirectory(dir="/dev/shm") as room:
        for count in (count for count in COUNTS if count <= asked.most):
            for shape in SHAPES:
                measure(os.path.abspath(asked.program), room, count, shape)


if __name__ == "__main__":
    main()
