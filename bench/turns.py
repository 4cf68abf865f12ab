"""Two programs by turns, as before and after a change: edits a second of 1, 8 and 32 sessions at a daemon, and of one session of `edit`.

python3 bench/turns.py BEFORE NOW [FOLDER]. The files are made in FOLDER (here, if none is given), so name one on the disk that is to be
measured. Each round gives both a short while, in turn, and says what the second had of the first's edits a second; what is told is the middle
of the rounds' shares, and between which a half of them lies. It takes some two minutes, and gcc is needed.
"""

import os
import statistics
import subprocess
import sys
import tempfile
import time

from load import Found, compiled, load
from serve import Room
from servers import REPLICAS
from session import Session

ROUNDS = 24
SECONDS = 0.6
CLIENTS = (1, 8, 32)


def served(room, clients):
    """Edits a second at a daemon over a new file."""
    daemon = room.daemon().start()
    try:
        daemon.wait()
        found = Found()
        found.add(load(room.load, "edits", daemon.sessions, clients, SECONDS))
        daemon.stop()
    finally:
        daemon.kill()
    return found.rate()


def edited(room):
    """Edits a second of one session of `edit` over a new file."""
    path = room.path()
    subprocess.run([room.program, "init", path, "--replica", REPLICAS[0]], check=True, stdout=subprocess.DEVNULL)
    session = Session(room.program, path)
    count, until = 0, time.monotonic() + SECONDS
    while time.monotonic() < until:
        session.insert(count, "x")
        count += 1
    session.end()
    return count / SECONDS


def main(before, now, folder="."):
    with tempfile.TemporaryDirectory(dir=folder) as folder:
        rooms = [Room(os.path.abspath(program), tempfile.mkdtemp(dir=folder)) for program in (before, now)]
        kinds = {f"{clients} of a daemon": (lambda room, clients=clients: served(room, clients)) for clients in CLIENTS}
        kinds["1 of `edit`"] = edited
        shares, rates = {kind: [] for kind in kinds}, {kind: ([], []) for kind in kinds}
        for number in range(ROUNDS):
            for kind, measured in kinds.items():
                # Who is first changes from round to round.
                order = (0, 1) if number % 2 == 0 else (1, 0)
                found = {which: measured(rooms[which]) for which in order}
                shares[kind].append(found[1] / found[0])
                for which in order:
                    rates[kind][which].append(found[which])
        print("| Edits a second, sessions | before | now | now to before | half of the rounds |\n|---|---|---|---|---|")
        for kind in kinds:
            low, middle, high = statistics.quantiles(shares[kind], n=4)
            first, second = (statistics.median(found) for found in rates[kind])
            print(f"| {kind} | {first:,.0f} | {second:,.0f} | {middle:.3f} | {low:.3f} to {high:.3f} |")


if __name__ == "__main__":
    main(*sys.argv[1:])
